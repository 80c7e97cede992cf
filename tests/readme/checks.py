"""The checks of the documents, each by name. A check answers what is wrong, as lines; it passes with none.

Called from the repository's root with the library's file. The last line is 'N passed, M failed'.
"""
import sys

import believed
import commands
import definitions
import examples
import figures
import pool
import references
import tables

CHECKS = [
    ("the README's program as C11", examples.as_c),
    ("the README's program as C++11", examples.as_cpp),
    ("the README's schedules give its tables", examples.on_the_stand),
    ("the README's sheets are those of its examples", examples.sheets),
    ("the README's forms by holder are those of its examples", examples.forms),
    ("the README's keepers are those of its examples", examples.keepers),
    ('definitions and statements are quoted as they stand', examples.quoted),
    ('links lead to files and headings', references.links),
    ('paths in backticks exist', references.paths),
    ('names are defined in the files that are said', references.names),
    ('no paragraph or list item above 600 characters', references.lengths),
    ("the README's commands name what there is", commands.known),
    ("the edits of the README's tour are must-fail edits", commands.tour),
    ("the README's table of crates is crates.txt", tables.crates),
    ('the tables of codes have the numbers of the header', tables.codes),
    ('the table of columns is the layout, and the constants are', tables.layout),
    ('the gaps are the bytes outside all columns', tables.gaps),
    ('the table of places is the step list', tables.places),
    ('the numbers of the pool, and the constants of the header', pool.limits),
    ('the classes and their blocks', pool.classes),
    ('the leading bits and the classes', pool.bits),
    ('the sizes of the quarter limit', pool.waste),
    ("the bench table's sizes", pool.bench),
    ('the regions that are drawn', pool.drawn),
    ('the order of the tests', pool.orders),
    ('the examples for regions add up', pool.regions),
    ('definitions begin with their section of docs/POOL.md', definitions.sections),
    ("the README's table of what to read is what the statements cite", believed.table),
    ("the README's sha256 is the library's", figures.library_sum),
    ("the README's kit is KIT-ID", figures.kit),
    *figures.numbers(),
]
SHOWN = 100  # lines of what is wrong, of one check


def tried(check):
    """A check that breaks off has failed, and the others still run."""
    try:
        return check()
    except Exception as error:  # whatever it is
        return [f'{type(error).__name__}: {error}']


def main():
    passed = failed = 0
    for name, check in CHECKS:
        wrong = tried(check)
        if wrong is None:
            print(f'left out: {name}')
            continue
        for line in wrong[:SHOWN]:
            print(f'  {line}')
        if wrong[SHOWN:]:
            print(f'  and {len(wrong) - SHOWN} more')
        print(f'FAILED: {name}' if wrong else f'passed: {name}', flush=True)
        passed += not wrong
        failed += bool(wrong)
    print(f'{passed} passed, {failed} failed')
    return 1 if failed else 0


sys.exit(main())
