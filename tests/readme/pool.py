"""What docs/POOL.md and the header tell in numbers: limits, classes, the order of the tests, examples for regions."""
import re

from documents import POOL, read, squeezed, tables, tables_by
from tables import HEADER, LIMITS, named, value

CLASSES = 'crates/classes/specs/Classes.antt'
SIZES = 'crates/classes/proofs/Sizes.antt'
SIZE_CODE = 'crates/classes/src/size.rt'
BENCH_SIZES = 'crates/agreement/proofs/BenchSizes.antt'
TESTS = 'crates/demands/specs/Tests.antt'
REPORT_ROWS = 'crates/reports/specs/Rows.antt'
SHEET = 'crates/sheet/specs/Sheet.antt'
FORM = 'crates/holders/specs/Form.antt'
KEEPERS = 'crates/keepers/specs/Keepers.antt'
LOSTS = 'crates/control/specs/Losts.antt'
PICTURE = 'docs/pictures/memories.svg'
# The rows of the table of numbers, and the constants of the header, by the names of the definitions.
ROWS = {'tasks': 'TASKS', 'bytes of the control memory': 'CONTROL_BYTES', 'regions of the area': 'REGIONS',
        'bytes of a region': 'REGION_BYTES', 'bytes of a unit': 'UNIT_BYTES', 'units of a region': 'REGION_UNITS',
        "bytes of the strips' memory": 'STRIPS_BYTES', 'bytes of a slot': 'SLOT_BYTES',
        "slots of the strips' memory": 'SLOTS', 'units of a slot': 'SLOT_UNITS', 'orders of strips': 'ORDERS',
        'classes of blocks': 'CLASSES', 'descriptors': 'DESCRIPTORS', 'lists': 'LISTS', 'tags of a head word': 'TAGS'}
CONSTANTS = {'POOL_CONTROL_BYTES': 'CONTROL_BYTES', 'POOL_REGION_BYTES': 'REGION_BYTES', 'POOL_REGIONS_MOST': 'REGIONS',
             'POOL_TASKS_MOST': 'TASKS', 'POOL_BLOCK_MOST': 'LARGEST_SIZE', 'POOL_UNIT_BYTES': 'UNIT_BYTES',
             'POOL_ALIGNMENT': 'ALIGNMENT', 'POOL_STRIPS_BYTES': 'STRIPS_BYTES', 'POOL_STRIP_LEAST': 'SLOT_BYTES',
             'POOL_STRIP_FIRST': 'UNITS', 'POOL_CLASSES': 'CLASSES', 'POOL_SHEET_BYTES': 'SHEET_BYTES',
             'POOL_FORM_BYTES': 'FORM_BYTES', 'POOL_KEEPER_BYTES': 'KEEPER_BYTES', 'POOL_LOST_MOST': 'MOST_LOST'}
# The sentences on the order of the tests, and the lists of tests that make them up. 14 comes between, where it is read.
ORDERS = {'a start': ['start_tests'], 'the beginning of an allocation': ['call_tests', 'idle_tests', 'size_tests'],
          'the beginning of a free': ['call_tests', 'idle_tests', 'unit_tests'],
          'the beginning of leaving': ['call_tests', 'idle_tests', 'search_tests'],
          'a step': ['call_tests', 'request_tests']}


def number_of(cell):
    """The number of a cell such as '1 to 8, numbered from 0', '8,192' or '2^32'."""
    base, power = re.match(r'(?:1 to )?([\d,]*\d)(?:\^(\d+))?', cell).groups()
    return int(base.replace(',', '')) ** int(power or 1)


def limits():
    """The table's numbers, and the header's constants, are those of the definitions."""
    known = named(LIMITS, CLASSES, REPORT_ROWS, SHEET, FORM, KEEPERS, LOSTS)
    rows = tables_by(POOL, 'there are')
    told = [(POOL, row[0], number_of(row[1]), ROWS[row[0]]) for row in rows]
    told += [(HEADER, name, int(number), CONSTANTS[name])
             for name, number in re.findall(r'^#define (POOL_[A-Z_]+) (\d+)', read(HEADER), re.M)]
    result = [f'{document}: {name}: {number} is told; {definition} is {value(definition, known)}'
              for document, name, number, definition in told if number != value(definition, known)]
    lacking = (ROWS.keys() | CONSTANTS.keys()) - {name for _, name, _, _ in told}
    return result + [f'{POOL}, {HEADER}: {name} is not told' for name in sorted(lacking)]


def row_of(definition):
    """A row of the class table, as the definitions have it."""
    return list(map(int, re.search(rf'^{definition} = (.*) ∷ \[\]$', read(CLASSES), re.M).group(1).split(' ∷ ')))


def classes():
    """The rows of blocks and of n are those of the definitions, and the header lists the blocks."""
    table = next(table for table in tables(POOL) if table[0][0] == 'class')
    rows = {row[0]: list(map(int, row[1:])) for row in table}
    due = list(range(value('CLASSES', named(LIMITS))))
    result = [] if rows['class'] == due else [f'{POOL}: the classes {rows["class"]} are told; they are {due}']
    for name, definition in (('block, bytes', 'block_sizes'), ('n', 'block_counts')):
        due = row_of(definition)
        if rows.get(name) != due:
            result.append(f'{POOL}: {name}: {rows.get(name)} is told; {CLASSES} has {due}')
        listed = f'{", ".join(map(str, due[:-1]))} or {due[-1]} bytes'
        if name != 'n' and listed not in squeezed(read(HEADER).replace('*', ' ')):
            result.append(f'{HEADER} does not list the blocks {due}')
    return result


def unsaid(*sentences):
    """The sentences that docs/POOL.md does not have."""
    return [f'{POOL} does not say: {sentence}' for sentence in sentences if sentence not in squeezed(read(POOL))]


def waste():
    """The quarter limit is told for the sizes of its law, and its failure for the largest size that a law names."""
    law = re.search(r'^pub quarter : \(s : ℕ\) → (\d+) ≤ s → s ≤ (\S+) →', read(SIZES), re.M)
    first, last = law.groups()
    failing = max(map(int, re.findall(r'^pub not-at-\d+ : 4 \* \(block \(class_of (\d+)\)', read(SIZES), re.M)))
    block = min(size for size in row_of('block_sizes') if failing <= size)
    return unsaid(f'For every size from {first} to {value(last, named(LIMITS))}, less than a quarter',
                  f'At {failing} it is not less: {block - failing} of {block} bytes are a quarter')


def bits():
    """The table of leading bits has the digits of the code's words, and the sizes between the powers of two."""
    first, unread = (re.search(rf'^const {name}: usize = 0x(\w+);$', read(SIZE_CODE), re.M).group(1).replace('_', '')
                     for name in ('FIRST_CLASSES', 'UNREAD_BITS'))
    digits = [(int(first[-1 - place], 16), int(unread[-1 - place], 16)) for place in range(8)]
    words = {2: 'none', 1: 'one', 0: 'two'}
    due = [['sizes', '1 to 8'] + [f'{2 ** place + 1} to {2 ** place * 2}' for place in range(3, 8)],
           ['first class', *(str(class_of) for class_of, _ in digits[2:])],
           ['bits after it that are added', *(words[left] for _, left in digits[2:])]]
    table = next(table for table in tables(POOL) if table[0][0] == 'place of the leading bit')
    result = [] if table[0][1:] == ['0 to 2', *map(str, range(3, 8))] else [f'{POOL}: the places {table[0][1:]}']
    if digits[:3] != [(0, 2)] * 3:
        result.append(f'{SIZE_CODE}: the places 0 to 2 differ: {digits[:3]}')
    return result + ([] if table[1:] == due else [f'{POOL}: {table[1:]} is told; {SIZE_CODE} has {due}'])


def bench():
    """The bench table's rows about sizes are those of the statement."""
    rows = re.findall(r'\((\d+), (bytes|strip|number) (\d+)\)', read(BENCH_SIZES))
    served, blocks = zip(*((size, due) for size, kind, due in rows if kind == 'bytes'))
    rounded, strips = zip(*((size, due) for size, kind, due in rows if kind == 'strip'))
    refused, numbers = zip(*((size, due) for size, kind, due in rows if kind == 'number'))
    return unsaid(f'| sizes {", ".join(served)} | blocks of {", ".join(blocks)} bytes |',
                  f'| size {"; size ".join(rounded)} | a strip of {"; of ".join(strips)} bytes |',
                  f'| size {"; size ".join(refused)} | refused by {"; by ".join(numbers)} |')


def drawn():
    """Each region of a picture has the blocks, and what is left over behind them, of its class."""
    text = squeezed(re.sub(r'<[^>]*>', ' ', read(PICTURE)))
    counts = dict(zip(row_of('block_sizes'), row_of('block_counts')))
    told = re.findall(r'(\d+)-byte class n = (\d+) .*?blocks 0 to (\d+), of (\d+) units each'
                      r'(?:; the last (\d+) units are no block)?', text)
    known, result = named(LIMITS), []
    for numbers in told:
        size, n, last, units, left = (int(number or 0) for number in numbers)
        due = size // value('UNIT_BYTES', known)
        if (n, last, units, left) != (counts[size], n - 1, due, value('REGION_UNITS', known) - n * due):
            result.append(f'{PICTURE}: {size}-byte class: {n} blocks, the last {last}, {units} units, {left} left over')
    return result if told else [f'{PICTURE} has no region of a class']


def orders():
    """The numbers of the lists of tests in their order, each once, without 14."""
    result = []
    for call, lists in ORDERS.items():
        due = []
        for name in lists:
            body = re.search(rf'^{name}( .*?)∷ \[\]$', read(TESTS), re.M | re.S).group(1)
            due += re.findall(r' or (\d+)', body)
        due = [number for number in dict.fromkeys(due) if number != '14']
        if f'- {call} tests {", ".join(due)}' not in read(POOL):
            result.append(f'{POOL} does not say: {call} tests {", ".join(due)}')
    return result


def regions():
    """The examples for regions add up; a quotient is rounded down. The blocks that fill all regions differ."""
    result = []
    for row in tables_by(POOL, 'example'):
        terms, _, sum_told = row[1].rpartition(' = ')
        added = sum(int(term.split('/')[0]) // int((term + '/1').split('/')[1]) for term in terms.split('+') if term)
        if terms and added != int(sum_told):
            result.append(f'{POOL}: {row[1]}')
    terms, sum_told = re.search(r'though only ([\d+ ]+) = (\d+) bytes are held', read(POOL)).groups()
    blocks = [int(term) for term in terms.split('+')]
    if sum(blocks) != int(sum_told) or len(set(blocks) & set(row_of('block_sizes'))) != len(blocks):
        result.append(f'{POOL}: {terms} = {sum_told}')
    return result or ([] if tables_by(POOL, 'example') else [f'{POOL} has no table of examples'])
