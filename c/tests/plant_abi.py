#!/usr/bin/env python3
"""plant_abi.py: changes the ABI of a copy of liblapd in several ways, and checks that check_abi.py accepts those alone that raise
LAPD_VERSION and LAPD_ABI as docs/C.md requires. It runs in c/, over out/liblapd.a."""

import os
import re
import shutil
import subprocess
import sys
import tempfile

VERSION = re.search(r'LAPD_VERSION_STRING "(\d+)\.(\d+)', open("lapd.h", encoding="utf-8").read())
ABI = int(re.search(r"LAPD_ABI (\d+)", open("lapd.h", encoding="utf-8").read())[1])
NEXT = f"{VERSION[1]}.{int(VERSION[2]) + 1}"
OLD_NODES = re.findall(r"^(LAPD_[\d.]+) \{", open("lapd.map", encoding="utf-8").read(), re.M)

RAISED = [("lapd.h", r'(LAPD_VERSION_STRING) ".*"', rf'\1 "{NEXT}.0"')]
RAISED_ABI = RAISED + [
    ("lapd.h", r"(define LAPD_ABI) \d+", rf"\1 {ABI + 1}"),
    ("lapd.map", r"(?ms)^LAPD_[\d.]+ \{.*", f"LAPD_{NEXT} {{ global: lapd_*; local: *; }};\n"),
]
NEW_CALL = [
    ("lapd.h", r"(uint32_t lapd_version\(void\);)", rf"\1\n\n/* A new call. Since {NEXT}. */\nuint32_t lapd_new(void);"),
    ("new.c", r"$", "unsigned lapd_new(void);\nunsigned lapd_new(void) { return 0; }\n"),
]
IN_NEXT = [("lapd.map", r"$", f"LAPD_{NEXT} {{ global: lapd_new; }} {OLD_NODES[-1]};\n")]
GROWN = [("lapd.h", r"uint64_t reserved\[8\];", "uint64_t reserved[9];")]
IN_ROOM = [("lapd.h", r"uint64_t reserved\[8\];", "uint64_t lost; uint64_t reserved[7];")]
BUSY = r"\n[^\n]*\nlapd_result lapd_side_busy\([^)]*\);"

# what is done; the changes, each a file, a pattern and its replacement; whether the check accepts them
PLANTS = [
    ("nothing", [], True),
    ("a greater patch alone", [("lapd.h", r'(LAPD_VERSION_STRING) "(.*)\.\d+"', r'\1 "\2.99"')], True),
    ("a field is added in the padding", [("lapd.h", r"(uint16_t waiting;)", r"\1 uint16_t more;")], False),
    ("a struct grows", GROWN, False),
    ("a struct grows, with a greater minor version", GROWN + RAISED, False),
    ("a struct grows, with a greater ABI", GROWN + RAISED_ABI, True),
    ("a field takes a part of `reserved`", IN_ROOM, False),
    ("the same, with a greater minor version", IN_ROOM + RAISED, True),
    ("a field becomes wider", [("lapd.h", r"uint8_t rc; ", "uint16_t rc;")], False),
    ("two fields change places", [("lapd.h", r"uint8_t sapi;(.*\n.*)uint8_t tei;", r"uint8_t tei;\1uint8_t sapi;")], False),
    ("a code changes its number", [("lapd.h", "LAPD_NO_LINK = 11", "LAPD_NO_LINK = 12")], False),
    ("a kind is removed", [("lapd.h", r"LAPD_TEI_FAILED = 18,", "")], False),
    ("a code is added", [("lapd.h", "(LAPD_NO_LINK = 11,)", r"\1 LAPD_NEW = 14,")], False),
    ("the same, with a greater minor version", [("lapd.h", "(LAPD_NO_LINK = 11,)", r"\1 LAPD_NEW = 14,")] + RAISED, True),
    ("LAPD_MOST_FRAME is less", [("lapd.h", "(LAPD_MOST_FRAME) 264", r"\1 263")], False),
    ("a call is removed from the header", [("lapd.h", BUSY, "")], False),
    ("a call is removed from the library", [("lapd.map", "local:", "local: lapd_side_busy;")], False),
    ("a call is removed, with a greater minor version", [("lapd.h", BUSY, ""), ("lapd.map", "local:", "local: lapd_side_busy;")] + RAISED, False),
    ("a parameter changes its type", [("lapd.h", "uint8_t tei, uint8_t on,", "uint8_t tei, uint32_t on,")], False),
    ("a call is added", NEW_CALL, False),
    ("the same in the old block of lapd.map, with a greater minor version", NEW_CALL + RAISED, False),
    ("the same in a block of its own", NEW_CALL + RAISED + IN_NEXT, True),
    ("another heap", [("lapd_heap.h", r"size_t kept, ", "")], False),
    ("a smaller version", [("lapd.h", r'(LAPD_VERSION_STRING) ".*"', r'\1 "0.0.9"')], False),
    ("a greater ABI without a greater version", RAISED_ABI[1:], False),
]


def edited(place, changes):
    for file, pattern, replacement in changes:
        name = os.path.join(place, file)
        with open(name, encoding="utf-8") as source:
            text = source.read()
        changed, count = re.subn(pattern, replacement, text, count=1)
        if count != 1:
            sys.exit(f"plant_abi: {file} has no {pattern}")
        with open(name, "w", encoding="utf-8") as target:
            target.write(changed)


def linked(place):
    """The shared library of the changed files."""
    abi = re.search(r"define LAPD_ABI (\d+)", open(os.path.join(place, "lapd.h"), encoding="utf-8").read())[1]
    library = os.path.join(place, "library")
    words = ["-shared", f"-Wl,-soname,liblapd.so.{abi}", f"-Wl,--version-script={place}/lapd.map", "-o", library]
    words += [f"{place}/new.c", "-Wl,--whole-archive", "out/liblapd.a", "-Wl,--no-whole-archive"]
    subprocess.run([os.environ.get("CC", "cc"), *words], check=True)
    return library


def main():
    wrong = 0
    for what, changes, is_accepted in PLANTS:
        with tempfile.TemporaryDirectory() as place:
            for file in ("lapd.h", "lapd_heap.h", "lapd.map", "abi.txt"):
                shutil.copy(file, place)
            open(os.path.join(place, "new.c"), "w", encoding="utf-8").close()
            edited(place, changes)
            words = [sys.executable, "tests/check_abi.py", "--write", place, linked(place), os.path.join(place, "abi.txt")]
            done = subprocess.run(words, capture_output=True, text=True, check=False)
            if done.returncode == 0:
                done = subprocess.run([words[0], words[1], *words[3:]], capture_output=True, text=True, check=False)
        if done.returncode not in (0, 1) or (done.returncode == 0) != is_accepted:
            wrong += 1
            print(f"plant_abi: {what}: status {done.returncode}\n{done.stdout}{done.stderr}")
        elif "-v" in sys.argv:
            print(f"{what}: {'accepted' if is_accepted else 'refused'}\n{done.stdout}")
    print(f"plant_abi: {len(PLANTS) - wrong} of {len(PLANTS)} changes are judged as docs/C.md says")
    return 1 if wrong else 0


sys.exit(main())
