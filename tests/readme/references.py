"""What the documents refer to: files, headings, and names in files; and how long their paragraphs are."""
import glob
import os
import re
from urllib.parse import unquote

from documents import PAST, anchors, chunks, documents, squeezed, visible
from definitions import defined_in

LONGEST = 600
FOLDERS = ('crates/', 'docs/', 'tests/', 'bench/', 'include/', 'examples/', 'tools/')
FILES = ('./stand', '.ci/run', 'KIT-ID', 'crates.txt')
CODE = re.compile(r'`([^`]+)`')
TARGET = re.compile(r'\]\(<?([^)\s>]+)>?(?:\s+"[^"]*")?\)|^\[[^\]]+\]: (\S+)|(?:href|src)="([^"]+)"')
# `a`, `b` and `c` of `path`. A comma before the "and" ends what is said of the path.
NAMES = re.compile(r'((?:`[^`]+`(?:, | and | or ))*`[^`]+`) (?:of|in) `([^`]+\.(?:antt|rt))`')


def wrong_link(document, target):
    """What is wrong with a link to a place in the repository, if anything is."""
    if re.match(r'[a-z]+:', target):
        return None
    path, _, anchor = unquote(target).partition('#')
    path = os.path.normpath(os.path.join(os.path.dirname(document), path)) if path else document
    if not os.path.exists(path):
        return f'there is no {path}'
    if anchor and not (path.endswith('.md') and anchor in anchors(path)):
        return f'{path} has no heading #{anchor}'
    return None


def links():
    result = []
    for document in documents():
        for chunk in chunks(document):
            for found in TARGET.finditer(CODE.sub('code', chunk.text)):
                target = next(group for group in found.groups() if group)
                wrong = wrong_link(document, target)
                if wrong:
                    result.append(f'{document}:{chunk.line}: {target}: {wrong}')
    return result


def alternatives(path):
    """A path with {a,b} in it as several."""
    braces = re.search(r'\{([^{}]*)\}', path)
    if not braces:
        return [path]
    ways = [path[:braces.start()] + way + path[braces.end():] for way in braces.group(1).split(',')]
    return [other for way in ways for other in alternatives(way)]


def missing(word):
    """The paths that a word of code means and that are not there. NAME in it stands for any name."""
    word = word.rstrip(',;:)')
    if not (word.startswith(FOLDERS) or word in FILES):
        return []
    return [path for path in alternatives(re.sub(r'\bNAME\b', '*', word)) if not glob.glob(path)]


def paths():
    return [f'{document}:{chunk.line}: there is no {path}'
            for document in documents() if document != PAST
            for chunk in chunks(document)
            for code in CODE.findall(chunk.text)
            for word in code.split()
            for path in missing(word)]


def by_file(document, text):
    """The text with a link to a source file written as that file's path."""
    def path(found):
        return '`' + os.path.normpath(os.path.join(os.path.dirname(document), found.group(1))) + '`'
    return visible(re.sub(r'\[[^\[\]]*\]\(([^()]+\.(?:antt|rt))\)', path, text))


def files_of(path):
    """The files that a path names: as it stands, or by its end where a document says only that."""
    if os.path.exists(path):
        return [path]
    return [file for file in glob.glob('crates/**/*', recursive=True) if file.endswith('/' + path)]


def undefined(listed, path):
    """The names of a list that are defined in none of the files that the path may mean."""
    files = files_of(path)
    for code in CODE.findall(listed):
        name = code.split()[0].split('::')[-1].removesuffix('()')
        if '/' in name or name.endswith(('.antt', '.rt')):
            continue
        if not any(defined_in(file, name) for file in files):
            yield f'{path} has no definition of {name}' if files else f'there is no {path}, of {name}'


def names():
    return [f'{document}:{chunk.line}: {wrong}'
            for document in documents() if document != PAST
            for chunk in chunks(document)
            for listed, path in NAMES.findall(by_file(document, chunk.text))
            for wrong in undefined(listed, path)]


def lengths():
    result = []
    for document in documents():
        for chunk in chunks(document):
            length = len(squeezed(visible(chunk.text)))
            if chunk.kind in ('text', 'item') and length > LONGEST:
                result.append(f'{document}:{chunk.line}: {length} characters: {chunk.text[:60]}')
    return result
