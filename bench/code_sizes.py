#!/usr/bin/env python3
"""The code of the reports, in bytes with their constants: what the linker leaves out where no report is called.

A section is kept where a function that is called leads to it, over any number of relocations. Counted are the sections
to which one report alone leads, those to which several lead, all of these together, and all to which a report leads,
for a program that calls no other; never one that another call needs, too. The constants of vectors are one section for
all functions, which a start needs.

A line is workload, contender, measure, value, as of longest_path.py.
"""
import re
import subprocess
import sys

LIBRARY = sys.argv[1]
REPORTS = {"sheet": "pool_sheet", "form": "pool_holders", "keepers": "pool_keepers"}


def lines(option):
    done = subprocess.run(["objdump", option, "--wide", LIBRARY], check=True, capture_output=True, text=True)
    return done.stdout.splitlines()


def sizes():
    """The bytes of each section."""
    found = [re.match(r"\s+\d+ (\S+)\s+([0-9a-f]{8})\s", line) for line in lines("-h")]
    return {one.group(1): int(one.group(2), 16) for one in found if one}


def homes():
    """The section of each symbol; a section is its own."""
    found = [re.match(r"[0-9a-f]{16} .{7} (\.\S+)\t[0-9a-f]{16} (?:\.hidden )?(\S+)$", line) for line in lines("-t")]
    return {one.group(2): one.group(1) for one in found if one}


def references():
    """For each section the names to which its relocations lead, without what is added to them."""
    names, current = {}, None
    for line in lines("-r"):
        section = re.match(r"RELOCATION RECORDS FOR \[(.*)\]:", line)
        entry = re.match(r"[0-9a-f]{16} R_X86_64_\S+\s+(\S+?)(?:[+-]0x[0-9a-f]+)?$", line)
        if section:
            current = names.setdefault(section.group(1), set())
        elif entry:
            current.add(entry.group(1))
    return names


def kept(function, home, names):
    """The sections to which a function leads, its own with them."""
    found, waiting = set(), [home[function]]
    while waiting:
        section = waiting.pop()
        if section not in found:
            found.add(section)
            waiting += [home[name] for name in names.get(section, ()) if name in home]
    return found


def needed(home, names):
    """For each report the sections to which it leads and no other call does."""
    calls = {name for name in home if re.fullmatch(r"pool_\w+", name)}
    if not set(REPORTS.values()) < calls:
        sys.exit("a report is not there")
    others = {section for call in calls - set(REPORTS.values()) for section in kept(call, home, names)}
    return {name: kept(call, home, names) - others for name, call in REPORTS.items()}


def main():
    size, home, names = sizes(), homes(), references()
    of_report = needed(home, names)
    every = set().union(*of_report.values())
    alone = {name: own - set().union(*(of_report[other] for other in REPORTS if other != name))
             for name, own in of_report.items()}
    counted = {f"{name} alone": sections for name, sections in alone.items()}
    counted["shared by reports"] = every - set().union(*alone.values())
    counted["all reports"] = every
    counted.update({f"no report but the {name}": sections for name, sections in of_report.items()})
    for name, sections in counted.items():
        print(f"code, {name}\tlibrary\tbytes\t{sum(size[section] for section in sections)}")


main()
