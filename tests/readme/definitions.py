"""The definitions of the crates: where a name is defined, and the sections of docs/POOL.md that they belong to."""
import glob
import os
import re

from documents import POOL, headings, read

WORDS = ('pub', 'abbrev', 'unfoldable', 'data', 'record', 'module', 'mod', 'fn', 'struct', 'const', 'static', 'enum',
         'type', 'impl', 'trait', 'extern', '"C"', 'unsafe')
SECTION = re.compile(r'-- docs/POOL\.md, ("[^"]+"(?:(?:, and |, | and )"[^"]+")*)')


def defined_in(path, name):
    """Whether a line of the file defines the name: at the line's start, or further in as a field or a constructor."""
    before, word = f'(?:(?:{"|".join(WORDS)})\\s+)', re.escape(name)
    outer = rf'^{before}*{word}(?=[\s:;,({{<]|$)'
    inner = rf'^\s+(?:{before}+{word}(?=[\s:;,({{<]|$)|{word}(?=\s*:|,))'
    return bool(re.search(f'{outer}|{inner}', read(path), re.M))


def sections():
    """The first line of each file of definitions names the section, or the sections, that it makes exact."""
    if not os.path.exists(POOL):
        return [f'there is no {POOL}']
    known = {words for level, words in headings(POOL) if level in (2, 3)}
    result = []
    for path in sorted(glob.glob('crates/*/specs/**/*.antt', recursive=True)):
        if os.path.basename(path) == 'Lib.antt':
            continue
        found = SECTION.match(read(path))
        if not found:
            result.append(f'{path}: the first line does not begin with -- {POOL}, "SECTION"')
            continue
        result += [f'{path}: {POOL} has no section "{words}"'
                   for words in re.findall(r'"([^"]+)"', found.group(1)) if words not in known]
    return result
