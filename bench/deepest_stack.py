#!/usr/bin/env python3
"""The deepest stack of each call, in bytes, from the disassembly of the library.

It is counted from the caller's stack pointer on: the call's return address, what is pushed and reserved, and the same
of a function that is called, as often as it can be entered. Of memset and memcpy, which a start and a report call and
the firmware brings, the return address alone counts.
Every path through the code is looked at, also those that cannot be taken, so the number is a bound.

A line is workload, contender, measure, value, as of longest_path.py.
"""
import re
import sys

sys.dont_write_bytecode = True  # nothing is left among the sources
from longest_path import entries_left, read_code, read_tables, successors  # noqa: E402

ADDRESS = 8  # bytes of a return address, and of a register that is pushed
NAMES = {
    "pool_start": "deepest stack, start",
    "pool_begin_allocate": "deepest stack, beginning of an allocation",
    "pool_begin_free": "deepest stack, beginning of a free",
    "pool_begin_leave": "deepest stack, beginning of leaving",
    "pool_step": "deepest stack, step",
    "pool_sheet": "deepest stack, sheet",
    "pool_holders": "deepest stack, form",
    "pool_keepers": "deepest stack, keepers",
}


def growth(text):
    """By how many bytes an instruction makes the stack deeper."""
    if text.startswith(("push", "pop")):
        return ADDRESS if text.startswith("push") else -ADDRESS
    moved = re.match(r"(sub|add)\s+\$(-?0x[0-9a-f]+),%rsp$", text)
    if moved:
        return int(moved.group(2), 16) * (1 if moved.group(1) == "sub" else -1)
    if re.search(r"^(?!cmp|test).*,%rsp$", text):
        sys.exit(f"an instruction that is not known: {text}")
    return 0


def below(called, function, code, tables, entries):
    """The stack of a function that is called; nothing where it cannot be entered once more."""
    if called not in code:
        return ADDRESS
    left = entries_left(called, function, entries)
    return deepest(called, code, tables, left) if left > 0 else 0


def deepest(function, code, tables, entries=1):
    """The depth is the same on every path to an instruction, so that each is looked at once."""
    after = successors(function, code, tables)
    body = {line[0]: line for line in code[function]}
    first = code[function][0][0]
    depths, waiting, most = {first: ADDRESS}, [first], ADDRESS
    while waiting:
        address = waiting.pop()
        _, text, called, _ = body[address]
        depth = depths[address] + growth(text)
        unreserved = re.search(r"-0x([0-9a-f]+)\(%rsp", text)
        most = max(most, depth + (int(unreserved.group(1), 16) if unreserved else 0))
        if called and text.startswith("call"):
            most = max(most, depth + below(called, function, code, tables, entries))
        for next_one in after[address]:
            if next_one not in depths:
                depths[next_one] = depth
                waiting.append(next_one)
            elif depths[next_one] != depth:
                sys.exit(f"{function}: two depths at {next_one:x}")
    return most


def main():
    code, tables = read_code(), read_tables()
    for function, name in NAMES.items():
        print(f"{name}\tlibrary\tbytes\t{deepest(function, code, tables)}")


main()
