"""The instructions of a function, as objdump lists them."""
import re
import subprocess

LINE = re.compile(r'^\s*([0-9a-f]+):\s+(\S+)\s*([^#<]*?)\s*(?:[#<].*)?$')

# The registers by their names in 64, 32, 16 and 8 bits.
NAMES = [('rax', 'eax', 'ax', 'al'), ('rbx', 'ebx', 'bx', 'bl'), ('rcx', 'ecx', 'cx', 'cl'),
         ('rdx', 'edx', 'dx', 'dl'), ('rsi', 'esi', 'si', 'sil'), ('rdi', 'edi', 'di', 'dil'),
         ('rbp', 'ebp', 'bp', 'bpl'), ('rsp', 'esp', 'sp', 'spl')]
NAMES += [(f'r{n}', f'r{n}d', f'r{n}w', f'r{n}b') for n in range(8, 16)]
WHOLE = {name: names[0] for names in NAMES for name in names}
NARROW = {name for names in NAMES for name in names[2:]}
LOWEST = {names[3] for names in NAMES}


class NotKnown(Exception):
    """Something that is not followed, so that nothing can be said of the function."""


class Instruction:
    """One line: its address, its name and its operands, the destination last; and whether the linker completes it."""

    def __init__(self, address, name, text):
        self.address = address
        self.name = name
        self.text = f'{address:x}: {name} {text}'.strip()
        self.operands = [o.strip() for o in re.split(r',(?![^(]*\))', text)] if text else []
        self.relocated = False


def instructions(listing):
    """The instructions of the lines of a listing, in their order."""
    found = []
    for line in filter(str.strip, listing.splitlines()):
        match = LINE.match(line)
        if not match:
            raise NotKnown(line)
        address, name, text = match.groups()
        if name.startswith('R_'):
            found[-1].relocated = True
        else:
            found.append(Instruction(int(address, 16), name, text))
    return found


def function(library, symbol):
    """The listing of a function of the library; empty where it has no such symbol."""
    text = subprocess.run(['objdump', '-drz', '--no-show-raw-insn', library], capture_output=True, text=True,
                          check=True).stdout
    found = re.search(rf'^[0-9a-f]+ <{re.escape(symbol)}>:\n(.*?)(?:\n\n|\Z)', text, re.M | re.S)
    return found.group(1) if found else ''


def registers(operand):
    """The registers that an operand names, each by its whole."""
    names = set(re.findall(r'%(\w+)', operand)) - {'rip'}
    if not names <= WHOLE.keys():
        raise NotKnown(operand)
    return {WHOLE[name] for name in names}


def is_memory(operand):
    return not operand.startswith(('%', '$', '*'))


def is_whole(operand):
    """Whether an operand is a register with all its 64 bits."""
    return operand[1:] in WHOLE.values()
