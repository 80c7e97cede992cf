"""Reading of the documents: README.md and docs/*.md as blocks of code, and as chunks of what is not code.

A chunk is a heading, a row of a table, a list item or a paragraph, with the number of its first line. That is as much
of Markdown as the documents use.
"""
import glob
import re
from collections import namedtuple

README = 'README.md'
POOL = 'docs/POOL.md'
PAST = 'docs/LANDINGS.md'  # names there are those of their time

Chunk = namedtuple('Chunk', 'line kind text')
ITEM = re.compile(r'\s*([-*+]|\d+[.)])\s')


def documents():
    return [README, *sorted(glob.glob('docs/*.md'))]


def read(path):
    with open(path, encoding='utf-8') as file:
        return file.read()


def squeezed(text):
    return ' '.join(text.split())


def visible(text):
    """The text with each link, or picture, by its words; twice, as a picture may stand in a link."""
    for _ in range(2):
        text = re.sub(r'!?\[([^\[\]]*)\]\([^()]*\)', r'\1', text)
    return text


def blocks(text, kind):
    """The fenced blocks of a kind, in order."""
    return re.findall(rf'^```{kind}[ \t]*\n(.*?)^```[ \t]*$', text, re.M | re.S)


def without_fences_and_comments(path):
    """The lines of a document, those of fenced code and of comments empty."""
    result, fence, comment = [], None, False
    for line in read(path).splitlines():
        mark = re.match(r'\s*(```|~~~)', line)
        if fence or (mark and not comment):
            if mark and mark.group(1) == fence:
                fence = None
            elif not fence:
                fence = mark.group(1)
            result.append('')
            continue
        if comment:
            comment = '-->' not in line
            line = '' if comment else line.split('-->', 1)[1]
        line = re.sub(r'<!--.*?-->', '', line)
        if '<!--' in line:
            line, comment = line.split('<!--')[0], True
        result.append(line)
    return result


def prose(path):
    """The same, lines of code by indentation empty, too: behind an empty line, and not in a list."""
    result, in_list, code, blank = [], False, False, True
    for line in without_fences_and_comments(path):
        if line.strip():
            indented = line.startswith(('    ', '\t'))
            code = indented and not in_list and (blank or code)
            if ITEM.match(line) and not code:
                in_list = True
            elif blank and not line.startswith(' '):
                in_list = False
        blank = not line.strip()
        result.append('' if code else line)
    return result


def kind_of(line):
    if line.lstrip().startswith('|'):
        return 'row'
    if re.match(r'#{1,6} ', line):
        return 'heading'
    return 'item' if ITEM.match(line) else 'text'


def chunks(path):
    result, fresh = [], True
    for number, line in enumerate(prose(path), 1):
        line = re.sub(r'^(> ?)+', '', line)
        if not line.strip():
            fresh = True
            continue
        kind = kind_of(line)
        if kind == 'text' and not fresh:
            last = result.pop()
            result.append(last._replace(text=f'{last.text} {squeezed(line)}'))
        else:
            result.append(Chunk(number, kind, squeezed(line)))
        fresh = kind in ('row', 'heading')
    return result


def tables(path):
    """Each table as its rows of cells, the first with the columns' names; the row of dashes is left out."""
    result, last = [], None
    for chunk in chunks(path):
        if chunk.kind != 'row':
            continue
        cells = [cell.strip() for cell in re.split(r'(?<!\\)\|', chunk.text.strip('|'))]
        if last is None or chunk.line != last + 1:
            result.append([])
        if not all(re.fullmatch(r':?-+:?', cell) for cell in cells):
            result[-1].append(cells)
        last = chunk.line
    return result


def tables_by(path, *names):
    """The rows below the first of all tables whose first column has one of these names."""
    return [row for table in tables(path) if table and table[0][0].lower() in names for row in table[1:]]


def headings(path):
    """The level and the words of each heading."""
    return [(len(chunk.text.split()[0]), visible(chunk.text.lstrip('#').strip()))
            for chunk in chunks(path) if chunk.kind == 'heading']


def anchors(path):
    """The names by which a link may lead to a heading, as GitHub makes them, and those that are set by hand."""
    result = set(re.findall(r'<a (?:id|name)="([^"]+)"', read(path)))
    for _, words in headings(path):
        name = re.sub(r'[^\w\- ]', '', words.lower()).replace(' ', '-')
        again = [name, *(f'{name}-{number}' for number in range(1, 100))]
        result.add(next(one for one in again if one not in result))
    return result
