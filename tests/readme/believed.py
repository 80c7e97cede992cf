"""What has to be read to believe the demands: the README's table of files, against what the statements cite.

A definition is believed where a statement of crates/demands cites it, or another believed definition does. That is told
by the imports, file by file, so that the table may name a little more than is cited, and never less.
"""
import os
import re

from documents import README, read, squeezed, tables_by

STATEMENTS = ('crates/demands/proofs/Demands.antt', 'crates/demands/proofs/EndingSteps.antt',
              'crates/demands/proofs/HandedOut.antt', 'crates/demands/proofs/StockSheet.antt',
              'crates/demands/proofs/SheetByHolder.antt', 'crates/demands/proofs/RegionKeepers.antt',
              'crates/demands/proofs/LostTold.antt')
IMPORT = re.compile(r'^(?:unfoldable )?(?:pub )?use Rattle\.(\w+)\.specs\.(\w+)', re.M)


def path_of(crate, name):
    return f'crates/{crate}/specs/{name}.antt'


def cited():
    """The files of definitions that the statements import, and those that these import in turn."""
    found, left = set(), [path_of(*pair) for file in STATEMENTS for pair in IMPORT.findall(read(file))]
    while left:
        path = left.pop()
        if path in found or not os.path.exists(path):  # an enum that the code declares has no such file
            continue
        found.add(path)
        left += [path_of(*pair) for pair in IMPORT.findall(read(path))]
    return found


def lines_of(path):
    """The lines that are no comment, no import and not empty."""
    return sum(not re.match(r'\s*(--|(unfoldable )?(pub )?use |$)', line) for line in read(path).splitlines())


def files_of(cell):
    """The files of a cell: `plain/specs/State`, `Moves` are two files of one folder."""
    result, folder = [], ''
    for name in re.findall(r'`([^`]+)`', cell):
        if '/' in name:
            folder, name = name.rsplit('/', 1)
        result.append(f'crates/{folder}/{name}.antt')
    return result


def table():
    """Each row's files are there, it tells their lines, and all rows together are what is cited."""
    rows, told, result, total = tables_by(README, 'read'), [], [], 0
    for row in rows:
        files = files_of(row[1])
        told += files
        lines = sum(lines_of(path) for path in files if os.path.exists(path))
        total += lines
        if row[2].replace(',', '') != str(lines):
            result.append(f'{README}: {row[0]}: {row[2]} lines are told, {lines} are there')
    result += [f'{README}: {path} is told and not cited' for path in told if path not in cited()]
    result += [f'{README}: {path} is cited and not told' for path in sorted(cited()) if path not in told]
    if f'{total:,} lines' not in squeezed(read(README)):
        result.append(f'{README} does not say that they are {total:,} lines')
    return result
