#!/usr/bin/env python3
"""Prints how many lines of 64 octets a message touches in each block of the library's heap, with the
places of these octets in the block.

usage: lines.py PROGRAM

PROGRAM is lines.c with the library. Valgrind's lackey traces its accesses.
"""

import re
import subprocess
import sys


def ranges(places):
    """The places as ranges, those closer than 8 octets joined."""
    found = []
    for place in sorted(places):
        if found and place <= found[-1][1] + 8:
            found[-1][1] = place
        else:
            found.append([place, place])
    return " ".join(f"{first}-{last}" for first, last in found)


def main(program):
    call = ["valgrind", "--tool=lackey", "--trace-mem=yes", program]
    ran = subprocess.run(call, capture_output=True, text=True)
    if ran.returncode:
        sys.exit(f"{program} failed under valgrind: {ran.stderr[-500:]}")
    marker = int(re.search(r"marker (\w+)", ran.stdout)[1], 16)
    blocks = [(int(at, 16), int(size)) for at, size in re.findall(r"block (\w+) (\d+)", ran.stdout)]
    touched, inside = {block: set() for block in blocks}, False
    for access, at, size in re.findall(r"^ ([LSM]) (\w+),(\d+)$", ran.stderr, re.M):
        at, size = int(at, 16), int(size)
        if access == "S" and at == marker:
            inside = not inside
        if inside:
            for block in blocks:
                if block[0] <= at < block[0] + block[1]:
                    touched[block].update(range(at - block[0], at - block[0] + size))
    total = 0
    for (at, size), places in touched.items():
        lines = {(at + place) // 64 for place in places}
        total += len(lines)
        if lines:
            print(f"{len(lines):>6} of a block of {size:>6} octets: {ranges(places)}")
    print(f"{total:>6} lines of 64 octets of the library's heap for a message")


main(*sys.argv[1:])
