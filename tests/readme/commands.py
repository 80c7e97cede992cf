"""The commands of the README: each names what there is, and the edits of its tour are must-fail edits."""
import os
import re
import shutil
import subprocess
import tempfile

from documents import README, read

WORDS = {'check', 'ci', 'must-fail', 'run', 'lib', 'test', 'try', 'all', 'verdict', 'fmt', 'tidy', 'expand', 'plant',
         'lemma', 'new', 'seed', 'names', 'selftest', 'doc', 'version', 'help'}
TAKE_CRATES = ('ci', 'must-fail')
STEPS = 'crates/plain/specs/Steps.antt'
WITHIN = re.compile(r'\(cd crates/(\S+) && (.*)\)')
# The edits of the tour, in their order.
EDITS = ['crates/plain/must-fail/one_block_for_all.edit',
         'crates/agreement/must-fail-below-long/anchor_compared_without_its_length.edit']


def code():
    """The lines of code by indentation, and the words in backticks; a line that ends with a backslash goes on."""
    text = re.sub(r'\\\n\s*', '', re.sub(r'^```.*?^```$', '', read(README), flags=re.M | re.S))
    return re.findall(r'^    (\S.*)$', text, re.M) + re.findall(r'`([^`\n]+)`', text)


def known():
    """Every rt WORD [CRATE] has a word of the toolchain; its crate, and the one it is run in, are of crates.txt."""
    crates = re.findall(r'^(\w+)(?: staticlib)?:', read('crates.txt'), re.M)
    result = []
    for line in code():
        within = WITHIN.fullmatch(line)
        words = (within.group(2) if within else line).split()
        if words[0] != 'rt' or len(words) < 2:
            continue
        result += [f'{README}: {line}: rt has no such word'] * (words[1] not in WORDS)
        named = [within.group(1)] if within else []
        named += words[2:3] if words[1] in TAKE_CRATES else []
        result += [f'{README}: {line}: there is no crate {crate}' for crate in named if crate not in crates]
    return result


def edited_by(edit):
    """The file of the steps with the replacements of a must-fail edit."""
    text = read(STEPS)
    for old, new in re.findall(r'^old: (.*)\nnew: (.*)$', read(edit), re.M):
        assert text.count(old) == 1, f'{edit}: {old}'
        text = text.replace(old, new)
    return text


def tour():
    """Each sed of the tour leaves what its must-fail edit leaves, so that what the prover says of it is tried."""
    lines = [line for line in code() if line.startswith('sed -i ')]
    if len(lines) != len(EDITS):
        return [f'{README} has {len(lines)} edits by sed, and {len(EDITS)} are known']
    result = []
    for line, edit in zip(lines, EDITS):
        with tempfile.TemporaryDirectory() as folder:
            os.makedirs(f'{folder}/{os.path.dirname(STEPS)}')
            shutil.copy(STEPS, f'{folder}/{STEPS}')
            subprocess.run(['bash', '-c', line], cwd=folder, check=True)
            if read(f'{folder}/{STEPS}') != edited_by(edit):
                result.append(f'{README}: {line}: it does not leave what {edit} leaves')
    return result
