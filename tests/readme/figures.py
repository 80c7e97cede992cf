"""Numbers of the documents that have a source: those of tests/readme/numbers, the library's sum, the kit."""
import hashlib
import os
import re
import shutil
import subprocess
import sys

from documents import README, read, squeezed
from tables import LIMITS, named, value

LINES = 'tests/readme/numbers'
STAND = 'target/bin/stand'
FIRSTS = 'crates/plain/proofs/BenchFirsts.antt'
NUMBER = r'((?:\d{1,3}(?:,\d{3})+|\d+)(?:\.\d+)?(?!\d|[.,]\d))'  # 174, 9,001 or 9001, 2.5


def printed(command):
    """What the source prints, as a number; `library` is the library's file to it. NAME of FILE is a defined number."""
    constant = re.fullmatch(r'([A-Z0-9_]+) of (\S+\.antt)', command)
    if constant:
        return float(value(constant.group(1), named(LIMITS, constant.group(2))))
    done = subprocess.run(['bash', '-o', 'pipefail', '-c', command], capture_output=True, text=True, check=False,
                          env={**os.environ, 'library': sys.argv[1], 'limits': LIMITS, 'firsts': FIRSTS})
    text = done.stdout.strip()
    if done.returncode != 0 or not re.fullmatch(NUMBER, text):
        raise ValueError(f'the source prints no number: {text or done.stderr.strip()}: {command}')
    return float(text.replace(',', ''))


def compared(document, text, command):
    """Every place of the document that has the text has the number of the source, and there is such a place."""
    before, _, after = squeezed(text).partition('<N>')
    if not before + after or '<N>' not in text or '<N>' in after:
        return [f'{LINES}: <N> stands for the number, once, with words beside it: {text}']
    told = re.findall(rf'(?<![\d,.]){NUMBER}'.join([re.escape(before), re.escape(after)]), squeezed(read(document)))
    if not told:
        return [f'{document} has no text: {text}']
    source = printed(command)
    return [f'{document} says {number}; the source says {source:,.15g}: {command}'
            for number in told if float(number.replace(',', '')) != source]


def check_of(line):
    """The name of a line's check, and what it does. It answers None where a program that it needs is missing."""
    parts = [part.strip() for part in line.split('\t') if part.strip()]
    if len(parts) not in (3, 4):
        return f'{LINES}: {line}', lambda: [f'{LINES}: three or four parts, with tabs between: {line}']
    document, text, command = parts[:3]
    lacking = [program for program in ' '.join(parts[3:]).split() if not shutil.which(program)]
    if lacking:
        return f'{document}: {text} (there is no {", ".join(lacking)})', lambda: None
    return f'{document}: {text}', lambda: compared(document, text, command)


def numbers():
    return [check_of(line) for line in read(LINES).splitlines() if line.strip() and not line.startswith('#')]


def sum_of(path):
    with open(path, 'rb') as file:
        return hashlib.sha256(file.read()).hexdigest()


def library_sum():
    """Every sum of the README is the library's or that of the stand's program, and the library's is among them."""
    told, due = re.findall(r'\b[0-9a-f]{64}\b', read(README)), sum_of(sys.argv[1])
    known = [due] + [sum_of(path) for path in [STAND] if os.path.exists(path)]
    result = [f'{README} has {one}; the library has {due}' for one in told if one not in known]
    return result if due in told else [*result, f'{README} does not have the sha256 of the library, {due}']


def kit():
    text, due = squeezed(read(README)), read('KIT-ID').strip()
    result = [f'{README} has {one}; KIT-ID has {due}'
              for one in re.findall(r'\brattle-kit\S* logic [0-9a-f]+', text) if one != due]
    return result if due in text else [*result, f'{README} does not name the kit of KIT-ID, {due}']
