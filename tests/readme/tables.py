"""The tables of the documents that say what is defined elsewhere: crates, codes, columns of the control memory."""
import operator
import os
import re

from documents import POOL, README, read, tables_by, visible

HEADER = 'include/pool.h'
ON_THE_STAND = 15  # the code of an unknown or cut record; no call answers it
LIMITS = 'crates/limits/specs/Limits.antt'
LAYOUT = 'crates/control/specs/Layout.antt'
CONSTANTS = 'crates/control/src/layout.rt'
PLACES = 'crates/control/specs/Places.antt'
LAYOUT_DOCUMENT = 'docs/LAYOUT.md'
OPERATIONS = {'+': operator.add, '*': operator.mul, '/': operator.floordiv}


def only(one, other, where_one, where_other):
    """What one row of things has and the other has not, and the other way round."""
    return [f'{thing}: in {where_one} and not in {where_other}' for thing in one if thing not in other] + \
        [f'{thing}: in {where_other} and not in {where_one}' for thing in other if thing not in one]


def crates():
    told = [name for row in tables_by(README, 'crate', 'crates') for name in re.findall(r'`([^`]+)`', visible(row[0]))]
    there = re.findall(r'^(\w+)(?: staticlib)?:', read('crates.txt'), re.M)
    twice = [f'{name}: twice in {README}' for name in sorted(set(told)) if told.count(name) > 1]
    return only(told, there, README, 'crates.txt') + twice


def numbers_of(cell):
    """The numbers of a cell such as '4', '4, 5' or '4 to 7'."""
    cell = re.sub(r'(\d+)\s*(?:to|-|–)\s*(\d+)',
                  lambda ends: ' '.join(map(str, range(int(ends.group(1)), int(ends.group(2)) + 1))), cell)
    return [int(number) for number in re.findall(r'\d+', cell)]


def wrong_codes(document, known):
    if not os.path.exists(document):
        return [f'there is no {document}']
    rows = tables_by(document, 'code', 'codes') or tables_by(document, 'number')
    if not rows:
        return [f'{document} has no table whose first column is "code"']
    told = [number for row in rows for number in numbers_of(row[0])]
    result = only(sorted(told), sorted([*known.values(), ON_THE_STAND]), document, f'{HEADER} (or the stand)')
    result += [f'{number}: twice in {document}' for number in sorted(set(told)) if told.count(number) > 1]
    for row in rows:
        result += [f'{document}: {name} is {known[name]}, and stands beside {row[0]}'
                   for name in re.findall(r'POOL_\w+', ' '.join(row[:2]))
                   if name in known and known[name] not in numbers_of(row[0])]
    return result


def codes():
    listed = re.search(r'enum pool_code \{(.*?)\};', read(HEADER), re.S)
    known = {name: int(number) for name, number in re.findall(r'^\s*(POOL_\w+) = (\d+)', listed.group(1), re.M)}
    return [wrong for document in (README, POOL) for wrong in wrong_codes(document, known)]


def named(*paths):
    """The numbers that the files define by names in capitals, as they are written."""
    return dict(found for path in paths for found in re.findall(r'^([A-Z][A-Z0-9_]*) = (.+)$', read(path), re.M))


def value(expression, known):
    """A number, a name, or several of them with operations between, taken from the left."""
    words = expression.split()
    if len(words) >= 3:
        return OPERATIONS[words[-2]](value(' '.join(words[:-2]), known), value(words[-1], known))
    return int(expression) if expression.isdigit() else value(known[expression], known)


def columns():
    """Each column of the layout: its name, first byte, width, and how many numbers it has."""
    found = re.findall(r'^(\w+) = column (\d+) (\d+) (\S+)$', read(LAYOUT), re.M)
    return [(name, int(start), int(width), value(count, named(LIMITS, LAYOUT))) for name, start, width, count in found]


def layout():
    """The document's rows are the columns with their fields; the code's constants have their first bytes and widths."""
    known = named(LIMITS, LAYOUT)
    fields = {column: field for field, column in re.findall(r'^(\w+) = field_of (\w+)', read(LAYOUT), re.M)}
    there = [(name, fields.get(name), *numbers) for name, *numbers in columns()]
    told = [(row[0].strip('`'), row[1].strip('`'), *(int(cell.replace(',', '')) for cell in row[2:5]))
            for row in tables_by(LAYOUT_DOCUMENT, 'column')]
    result = only(told, there, LAYOUT_DOCUMENT, LAYOUT)
    if not there or [row[0] for row in told] != [row[0] for row in there]:
        result.append(f'{LAYOUT_DOCUMENT}: the columns are not those of {LAYOUT} in their order')
    due = {name.upper(): (start, width) for name, _, start, width, _ in there}
    for name, kind, start in re.findall(r'^pub const (\w+): Column<(\w+), \w+> = Column {\s*start: ([\d_]+),',
                                        read(CONSTANTS), re.M):
        found, expected = (int(start.replace('_', '')), int(kind[1:]) // 8), due.pop(name, None)
        if found != expected:
            result.append(f'{CONSTANTS}: {name} has first byte and width {found}; {LAYOUT} has {expected}')
    for name, number in re.findall(r'^pub const (\w+): \w+ = ([\d_]+);', read(CONSTANTS), re.M):
        expected = value(name, known) if name in known else None
        if int(number.replace('_', '')) != expected:
            result.append(f'{CONSTANTS}: {name} is {number}; {LAYOUT} has {expected}')
    return result + [f'{CONSTANTS}: there is no {name}' for name in due]


def gaps():
    """The table of gaps, and the sentence on the others, have the bytes outside all columns, each once."""
    others = re.search(r'^The others are free: (.*)$', read(LAYOUT_DOCUMENT), re.M).group(1)
    stretches = ' '.join([others, *(row[0] for row in tables_by(LAYOUT_DOCUMENT, 'bytes'))]).replace(',', '')
    told = [byte for first, last in re.findall(r'(\d+) to (\d+)', stretches)
            for byte in range(int(first), int(last) + 1)]
    taken = {byte for _, start, width, count in columns() for byte in range(start, start + width * count)}
    outside = set(range(value('CONTROL_BYTES', named(LIMITS)))) - taken
    twice = [f'{LAYOUT_DOCUMENT}: a byte is in two gaps'] * (len(told) != len(set(told)))
    return [f'{LAYOUT_DOCUMENT}: byte {byte} is told as a gap, or is one, and not both'
            for byte in sorted(set(told) ^ outside)] + twice


def places():
    """A row has a place for each of its names, or the three places in a row of a move, whose name is the first's."""
    known, result, told = named(PLACES), [], []
    for row in tables_by(LAYOUT_DOCUMENT, 'place'):
        numbers, names = numbers_of(row[0]), re.findall(r'`([^`]+)`', row[1])
        told += names
        due = [int(known[name]) for name in names if name in known]
        due = [due[0] + step for step in range(3)] if len(due) == 1 and len(numbers) == 3 else due
        if numbers != due:
            result.append(f'{LAYOUT_DOCUMENT}: {row[1]}: {numbers} is told; {PLACES} has {due}')
    return result + only(told, [name for name in known if name not in ('PLACES', 'TO_NEXT', 'TO_EXCHANGE')],
                         LAYOUT_DOCUMENT, PLACES)
