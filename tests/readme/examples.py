"""The examples of the README, for C and for the stand, and what the documents quote of the sources."""
import difflib
import glob
import os
import re
import subprocess
import sys

from documents import README, blocks, documents, read

OUT = 'target/readme'
STRICT = ['-Wall', '-Wextra', '-Werror', '-pedantic']


def differences(due, printed):
    return list(difflib.unified_diff(due, printed, README, 'printed', lineterm=''))


def built_and_run(compiler, standard, suffix):
    """The first program for C prints the first block of text behind it."""
    programs = blocks(read(README), 'c')
    texts = blocks(read(README).split(programs[0], 1)[1], 'text') if programs else []
    if not texts:
        return ['README.md has no block ```c with a block ```text behind it']
    os.makedirs(OUT, exist_ok=True)
    source, program = f'{OUT}/example.{suffix}', f'{OUT}/example_{suffix}'
    with open(source, 'w', encoding='utf-8') as file:
        file.write(programs[0])
    command = [compiler, f'-std={standard}', *STRICT, '-Iinclude', source, sys.argv[1], '-o', program]
    build = subprocess.run(command, capture_output=True, text=True, check=False)
    if build.returncode != 0:
        return build.stderr.splitlines()
    done = subprocess.run([program], capture_output=True, text=True, check=False, timeout=60)
    wrong = differences(texts[0].splitlines(), done.stdout.splitlines())
    if done.returncode != 0:
        wrong.append(f'the program ended with status {done.returncode}')
    return wrong


def as_c():
    return built_and_run('gcc', 'c11', 'c')


def as_cpp():
    return built_and_run('g++', 'c++11', 'cpp')


def played(schedule, table):
    """The stand names what it reads in its first line; where the README names a file there, that line may differ."""
    done = subprocess.run(['./stand', '--text'], input=schedule, capture_output=True, text=True, check=False)
    due, printed = table.splitlines(), done.stdout.splitlines()
    if due and printed and 'standard input' in printed[0] and 'standard input' not in due[0]:
        due, printed = due[1:], printed[1:]
    wrong = differences(due, printed)
    return wrong + done.stderr.splitlines() if wrong else []


def on_the_stand():
    schedules, due = blocks(read(README), 'schedule'), blocks(read(README), 'table')
    if not schedules or len(schedules) != len(due):
        return [f'README.md has {len(schedules)} blocks ```schedule and {len(due)} blocks ```table']
    return [line for schedule, table in zip(schedules, due) for line in played(schedule, table)]


def reported(report):
    """A block of a report is the file beside the example that its first line names. tests/stand tests that file."""
    shown = blocks(read(README), report)
    beside = [re.sub(r'\.txt, read as text$', f'.{report}', table.splitlines()[0]) for table in shown]
    wrong = [f'{README}: it does not show {path}' for path, table in zip(beside, shown) if read(path) != table]
    return wrong if shown else [f'{README} has no block ```{report}']


def sheets():
    return reported('sheet')


def forms():
    return reported('holders')


def keepers():
    return reported('keepers')


def quoted():
    """A block ```antt is parts of the sources as they stand there, with empty lines between."""
    sources = [read(path) for path in glob.glob('crates/*/*/*.antt')]
    return [f'{document}: no source has: {part.strip().splitlines()[0]}'
            for document in documents()
            for block in blocks(read(document), 'antt')
            for part in block.strip().split('\n\n')
            if not any(part.strip() + '\n' in source for source in sources)]
