#!/usr/bin/env python3
"""The longest path through the code of each call, in instructions, from the disassembly of the library.

A call makes at most so many instructions, whatever the memories hold and whatever a schedule reaches. The path that is
found need not be one that can be taken, so the number is a bound and not a measurement. A call of another function of
the library adds that function's longest path. A jump through a table may go to every entry of the table whose address
is taken right before it, or, where that is not seen, to every entry of every table of the function.

The loops and the functions that call themselves, with their bounds (crates/strip_tree/src, crates/steps_leave/src):

- `halve_low` halves from order 2 at most: as a function it is entered three times at most, one in the other. As a loop,
  which finds the word of a node by a shift of 6, it makes two turns.
- The search for the smallest sufficient piece of the strips looks at each order once, 0 to 7, and ends behind order 7.
  Six of the orders have their nodes in the first word: only for them it shifts, to the right and to the left. The back
  end makes several copies of this loop, and a path may take one behind the other.
- The halvings in the first word are at most five, from order 7 to order 2. The back end puts several of them into a
  turn, each a shift by a register, and makes those that are left over, fewer than such a turn has, in a loop of one
  each.
- The joinings in the first word are at most five, from order 2 to order 7, each with the test of a bit.
- The search for the next cache of a task that leaves reads the count of each of the thirteen classes once, two bytes.

Any other loop or recursion ends the script. The step has a second line, over the paths that meet none of the loops and
functions of strips: those of every step for a block and of leaving.

A line is workload, contender, measure, value.
"""
import re
import subprocess
import sys

LIBRARY = sys.argv[1]
NAMES = {
    "pool_begin_allocate": "longest path, beginning of an allocation",
    "pool_begin_free": "longest path, beginning of a free",
    "pool_begin_leave": "longest path, beginning of leaving",
    "pool_step": "longest path, step",
}
ENTRIES = {"strip_tree::halve::halve_low": 3}
WITHOUT_STRIPS = "longest path without strips, step"
ORDERS, FIRST_WORD_ORDERS, HALVINGS, LOW_HALVINGS, JOININGS, CLASSES = 8, 6, 5, 2, 5, 13
IMPOSSIBLE = -(1 << 32)


def lines(*options):
    command = ["objdump", *options, "--no-show-raw-insn", LIBRARY]
    return subprocess.run(command, check=True, capture_output=True, text=True).stdout.splitlines()


def read_code():
    """For each function its instructions in order: address, text, the function called, the jump table taken."""
    code, current, function = {}, None, None
    for line in lines("-d", "-r"):
        name = re.match(r"[0-9a-f]+ <(.*)>:$", line)
        instruction = re.match(r"\s+([0-9a-f]+):\s+(\S.*)$", line)
        call = re.match(r"\s+[0-9a-f]+: R_X86_64_(?:PLT32|PC32)\s+(\S+?)-0x4$", line)
        table = re.match(r"\s+[0-9a-f]+: R_X86_64_PC32\s+\.rodata\.(\S+?)([+-]0x[0-9a-f]+)$", line)
        if name:
            current, function = code.setdefault(name.group(1), []), name.group(1)
        elif call and current[-1][1].startswith(("call", "jmp")):
            current[-1][2] = call.group(1).replace(".text.", "")
        elif table and table.group(1) == function:
            current[-1][3] = int(table.group(2), 16) + 4
        elif instruction and ": R_X86_64_" not in line:
            itself = re.match(r"call\s+0 <([^+]*)>$", instruction.group(2))
            current.append([int(instruction.group(1), 16), instruction.group(2), itself and itself.group(1), None])
    return code


def read_tables():
    """For each function the entries of its jump tables: where the entry stands, and the number in it."""
    tables, current = {}, None
    for line in lines("-r"):
        section = re.match(r"RELOCATION RECORDS FOR \[\.rodata\.(.*)\]:", line)
        if line.startswith("RELOCATION"):
            current = tables.setdefault(section.group(1), []) if section else None
        entry = re.match(r"([0-9a-f]+) R_X86_64_PC32\s+\.text\.(.*)\+0x([0-9a-f]+)$", line)
        if entry and current is not None:
            current.append((int(entry.group(1), 16), int(entry.group(3), 16)))
    return tables


def table_targets(start, starts, entries):
    """The targets of the table that begins at `start`: an entry is its target plus its distance from the start."""
    end = min([other for other in starts if other > start], default=1 << 32)
    return {number - (place - start) for place, number in entries if start <= place < end}


def parts_of(register):
    """A pattern for the names of a register of 64 bits and of its parts."""
    name = register[2:]
    return rf"%r{name}[dwb]?" if name.isdigit() else rf"%(?:[re]?{name}|{name[0]}[lh]|{name}l)"


def tables_taken(jump, body, entered):
    """The tables that a jump may go through: the one that the straight code before it adds, else all of them.

    Backward from the jump, the last write of its register adds another one, whose last write is the table's address. An
    instruction writes its last operand; those that write another one end the search.
    """
    sought, added = re.search(r"\*(%\w+)", body[jump][1]).group(1), False
    before = [] if body[jump][0] in entered else reversed(body[:jump])
    for address, line, _, table in before:
        text = line.split("#")[0].strip()
        if text.startswith(("j", "ret", "ud2", "call", "mul", "imul", "div", "idiv", "cqto", "cltd", "xchg")):
            break
        if re.search(rf"[\s,]{parts_of(sought)}$", text):
            base = re.match(rf"add\s+(%\w+),{sought}$", text)
            if added and table is not None and text.startswith("lea"):
                return {table}
            if added or not base:
                break
            sought, added = base.group(1), True
        if address in entered:
            break
    return {line[3] for line in body if line[3] is not None}


def successors(function, code, tables):
    """Where each instruction can go on."""
    body = code[function]
    following = dict(zip([line[0] for line in body], [line[0] for line in body[1:]]))
    starts = {line[3] for line in body if line[3] is not None}
    jumps = {line[0]: re.match(r"(j\w+)\s+([0-9a-f]+)", line[1]) for line in body}
    entered = {int(target.group(2), 16) for target in jumps.values() if target}
    entered |= {target for start in starts for target in table_targets(start, starts, tables[function])}
    after = {}
    for index, (address, text, called, _) in enumerate(body):
        if text.startswith("ret") or text.startswith("ud2"):
            after[address] = set()
        elif text.startswith("jmp") and "*" in text:
            after[address] = {target for start in tables_taken(index, body, entered)
                              for target in table_targets(start, starts, tables[function])}
        elif jumps[address]:
            after[address] = {int(jumps[address].group(2), 16)}
            if jumps[address].group(1) != "jmp":
                after[address].add(following[address])
        else:
            after[address] = {following[address]}
        if text.startswith("jmp") and (called or not after[address]):
            sys.exit(f"{function}: a jump that is not known, at {address:x}")
    return after


class Loop:
    """A loop: its instructions, those of them that do the work that is counted, and how often a path may pass them."""

    def __init__(self, part, texts):
        self.part = part
        left, right, orders, counts, words, bits = [
            {one for one in part if re.match(pattern, texts[one])} for pattern in (
                r"shl\s+%cl,", r"shr\s+%cl,", rf"cmp\s+\$0x{ORDERS:x},", r"movzwl \S*\(%\w+,%\w+,2\),",
                r"shr\s+\$0x6,", r"bt\s+%")]
        self.halves = bool(left) and not right | words | bits
        if left and not right and (words or bits):
            most = LOW_HALVINGS if words else JOININGS
            self.work, self.work_most, self.turns_most = left, most, most
        elif self.halves:
            self.work, self.work_most, self.turns_most = left, HALVINGS, HALVINGS
        elif left and orders:
            self.work, self.work_most, self.turns_most = left, FIRST_WORD_ORDERS, ORDERS
        else:
            self.work, self.work_most, self.turns_most = counts if not left | right else set(), CLASSES, CLASSES
        self.of_strips = bool(left)


def bound_halvings(loops_found):
    """How many turns the loops of halvings make: all halvings, or in turns of one each what the larger turns leave."""
    halving = [loop for loop in loops_found if loop.halves]
    largest = max((len(loop.work) for loop in halving), default=1)
    for loop in halving:
        one_each = len(loop.work) == 1 and largest > 1
        loop.turns_most = largest - 1 if one_each else HALVINGS // len(loop.work)


def loops(function, code, after):
    """The loops, each by its first instruction. A loop has one way in."""
    number, low, stack, found = {}, {}, [], {}
    texts = {line[0]: line[1] for line in code[function]}

    def visit(address):
        number[address] = low[address] = len(number)
        stack.append(address)
        for next_one in after[address]:
            if next_one not in number:
                visit(next_one)
            if next_one in stack:
                low[address] = min(low[address], low[next_one])
        if low[address] == number[address]:
            part = set(stack[stack.index(address):])
            del stack[stack.index(address):]
            if len(part) > 1 or address in after[address]:
                add(part)

    def add(part):
        ways = {to for one in after if one not in part for to in after[one] if to in part}
        loop = Loop(part, texts)
        if len(ways) != 1 or not loop.work:
            sys.exit(f"{function}: a loop that is not known, at {min(part):x}")
        found[ways.pop()] = loop

    visit(code[function][0][0])
    bound_halvings(found.values())
    return found


def entries_left(called, function, entries):
    """How often a function that is called can still be entered, one in the other."""
    if called == function:
        if function not in ENTRIES:
            sys.exit(f"{function} calls itself")
        return entries - 1
    return ENTRIES.get(called, 1)


def longest(function, code, tables, entries=1, strips=True):
    """Each pass through a loop's first instruction is a turn. The halvings of all loops are counted together."""
    after = successors(function, code, tables)
    found = loops(function, code, after)
    within = {one: loop for loop in found.values() for one in loop.part}
    called = {line[0]: line[2] for line in code[function] if line[2] in code}
    lengths = {}

    def inside(address):
        if address not in called:
            return 0
        left = entries_left(called[address], function, entries) if strips or called[address] not in ENTRIES else 0
        return longest(called[address], code, tables, left, strips) if left > 0 else IMPOSSIBLE

    def length(address, halvings, turns, work):
        """From here on, with so many halvings made, and so many turns and so much work in the loop that this is in."""
        loop = within.get(address)
        if loop:
            turns += address in found
            work += address in loop.work
            halvings += loop.halves and address in loop.work
            if turns > loop.turns_most or work > loop.work_most or halvings > HALVINGS:
                return IMPOSSIBLE
            if loop.of_strips and not strips:
                return IMPOSSIBLE
        state = (address, halvings, turns, work)
        if state not in lengths:
            best = max([length(next_one, halvings, *((turns, work) if within.get(next_one) is loop else (0, 0)))
                        for next_one in after[address]], default=0)
            lengths[state] = 1 + best + inside(address)
        return lengths[state]

    return length(code[function][0][0], 0, 0, 0)


def main():
    sys.setrecursionlimit(100000)
    code, tables = read_code(), read_tables()
    for function, name in NAMES.items():
        print(f"{name}\tlibrary\tinstructions\t{longest(function, code, tables)}")
    print(f"{WITHOUT_STRIPS}\tlibrary\tinstructions\t{longest('pool_step', code, tables, strips=False)}")


if __name__ == "__main__":
    main()
