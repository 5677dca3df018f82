#!/usr/bin/env python3
"""check_abi.py [--write] HEADERS LIBRARY TABLE: checks that the ABI of liblapd is that of a table, which names its version.

HEADERS is the folder of lapd.h and lapd_heap.h. The table has the size of each struct, each field with its offset, its size and
its type, each constant with its value, and each call with its prototype, the version that first had it, and its version in the
shared library. If anything differs, the check fails. --write writes the table, if LAPD_VERSION and LAPD_ABI are raised as the
change requires: the minor version if calls, constants or fields in the place of `reserved` are added, and LAPD_ABI and the minor
or major version for any other change. Layouts are those of 64-bit machines. Exit status 0 or 1."""

import os
import re
import subprocess
import sys
import tempfile

HEAD = "# The ABI of liblapd. `make abi` writes this file, if the version is raised as docs/C.md says.\n"
# Constants that are not part of the ABI: they number it.
NUMBERS = {"LAPD_VERSION", "LAPD_VERSION_STRING", "LAPD_ABI", "LAPD_H"}
PROTOTYPE = r"^(?:LAPD_MUST_USE )?((?:struct )?\w+) (\w+)\(([^;{}]*)\);"


def read(name):
    with open(name, encoding="utf-8") as file:
        return file.read()


def run(*words):
    return subprocess.run(words, capture_output=True, text=True, check=True).stdout


def without_comments(text):
    return re.sub(r"/\*.*?\*/", " ", text, flags=re.S)


def parameters(text):
    """The types of a prototype's parameters."""
    types = [re.sub(r"\w+$", "", " ".join(p.split())).strip() if p.strip() != "void" else "void" for p in text.split(",")]
    return ", ".join(types)


def fields_of(body):
    """The fields of a struct: type and name, and the number of elements of an array."""
    fields = []
    for kind, names in re.findall(r"([\w ]+?[ *]+)(\w[\w\[\], ]*);", body):
        for name in names.split(","):
            found = re.fullmatch(r"(\w+)(?:\[(\d+)\])?", name.strip())
            fields.append((" ".join(kind.split()) + (f"[{found[2]}]" if found[2] else ""), found[1]))
    return fields


def probed(headers, texts):
    """The entries of structs, types and constants, from a program that prints them."""
    lines = ['#include "lapd.h"', '#include "lapd_heap.h"', "#include <stdio.h>", "int main(void) {"]
    for text in texts:
        for name, body in re.findall(r"^(?:typedef )?struct (\w+) \{(.*?)\}", text, re.M | re.S):
            type_ = f"struct {name}"
            lines.append(f'printf("struct {name}|size %zu, aligned to %zu\\n", sizeof({type_}), _Alignof({type_}));')
            for kind, field in fields_of(body):
                at = f"offsetof({type_}, {field}), sizeof((({type_} *)0)->{field})"
                lines.append(f'printf("field {name}.{field}|at %zu, size %zu, {kind}\\n", {at});')
        constants = re.findall(r"\b(LAPD_\w+) = \d+", text)
        constants += [n for n in re.findall(r"^#define (LAPD_\w+) +[A-Z0-9_]+ *$", text, re.M) if n not in NUMBERS]
        for name in constants:
            lines.append(f'printf("constant {name}|%llu\\n", (unsigned long long){name});')
    lines.append('printf("type lapd_result|size %zu\\n", sizeof(lapd_result));')
    with tempfile.TemporaryDirectory() as place:
        program = os.path.join(place, "probe")
        with open(program + ".c", "w", encoding="utf-8") as file:
            file.write("\n".join(lines + ["return 0; }"]) + "\n")
        run(os.environ.get("CC", "cc"), f"-I{headers}", "-o", program, program + ".c")
        printed = run(program)
    return dict(line.split("|") for line in printed.splitlines())


def since_of(header):
    """The version that first had each call, from the comment before it."""
    since = {}
    for comment, prototypes in re.findall(r"/\*((?:(?!\*/).)*)\*/\n((?:[^\n/#]+\n)+)", header, re.S):
        found = re.search(r"\bSince (\d+\.\d+)\.", comment)
        for _, name, _ in re.findall(PROTOTYPE, prototypes, re.M):
            since[name] = found[1] if found else None
    return since


def symbols_of(library):
    """The calls of the shared library, each with its version there, and the library's name."""
    found = re.findall(r" T (lapd_\w+)@@(\S+)", run("nm", "-D", "--defined-only", library))
    name = re.search(r"SONAME\s+(\S+)", run("objdump", "-p", library))
    return dict(found), name[1] if name else None


def entries_of(headers, library):
    header, heap = read(os.path.join(headers, "lapd.h")), read(os.path.join(headers, "lapd_heap.h"))
    texts = [without_comments(header), without_comments(heap)]
    entries = probed(headers, texts)
    since, (symbols, soname) = since_of(header), symbols_of(library)
    entries["library"] = soname
    prototypes = re.findall(PROTOTYPE, texts[0], re.M)
    for result, name, taken in prototypes:
        entries[f"call {name}"] = f"{result} ({parameters(taken)}), since {since.get(name)}, {symbols.get(name)}"
    for name in set(symbols) - {name for _, name, _ in prototypes}:
        entries[f"call {name}"] = f"no prototype, {symbols[name]}"
    for result, name, taken in re.findall(PROTOTYPE, texts[1], re.M):
        entries[f"heap {name}"] = f"{result} ({parameters(taken)})"
    return entries


def numbers_of(headers):
    text = read(os.path.join(headers, "lapd.h"))
    version = re.search(r'LAPD_VERSION_STRING "(\d+)\.(\d+)\.(\d+)"', text)
    return tuple(map(int, version.groups())), int(re.search(r"LAPD_ABI (\d+)", text)[1])


def written(version, abi, first, entries):
    lines = [f"version|{'.'.join(map(str, version))}", f"abi|{abi}, since {first}"]
    return HEAD + "\n".join(lines + [f"{key}|{value}" for key, value in entries.items()]).replace("|", ": ") + "\n"


def read_table(text):
    entries = dict(line.split(": ", 1) for line in text.splitlines() if line and not line.startswith("#"))
    abi, first = re.fullmatch(r"(\d+), since (\d+\.\d+)", entries.pop("abi")).groups()
    return tuple(map(int, entries.pop("version").split("."))), int(abi), first, entries


def room_of(entries, struct):
    """The begin and the end of the `reserved` of a struct."""
    found = re.match(r"at (\d+), size (\d+),", entries.get(f"field {struct}.reserved", ""))
    return (int(found[1]), int(found[1]) + int(found[2])) if found else (0, 0)


def is_addition(key, old, new):
    """Whether this entry differs as an addition may."""
    field = re.fullmatch(r"field (\w+)\.(\w+)", key)
    struct = field[1] if field else key.removeprefix("struct ")
    if (field or key == f"struct {struct}") and f"struct {struct}" not in old:
        return True
    if field and (key not in old or field[2] == "reserved"):
        low, high = room_of(old, field[1])
        found = re.match(r"at (\d+), size (\d+),", new[key]) if key in new else None
        return low < high and (found is None or low <= int(found[1]) and int(found[1]) + int(found[2]) <= high)
    return key not in old and key != "library" and not key.startswith(("struct ", "heap ", "type "))


def wrong_calls(entries, version, abi, first):
    """Calls that lack a prototype, a version, or a symbol of the right version."""
    wrong = [] if entries["library"] == f"liblapd.so.{abi}" else [f"the library is named {entries['library']}"]
    for key, value in entries.items():
        found = re.fullmatch(r".*\), since (\S+), (\S+)", value) if key.startswith("call ") else None
        if key.startswith("call ") and (not found or found[1] == "None"):
            wrong.append(f"{key}: {value}; its comment in the header has to say Since")
        elif found:
            since, least = (tuple(map(int, v.split("."))) for v in (found[1], first))
            node = f"LAPD_{'.'.join(map(str, max(since, least)))}"
            if since > version[:2] or found[2] != node:
                wrong.append(f"{key}: {value}; its symbol has to be of {node}, by lapd.map")
    return wrong


def main():
    is_writing = sys.argv[1] == "--write"
    headers, library, table = sys.argv[1 + is_writing :]
    entries, (version, abi) = entries_of(headers, library), numbers_of(headers)
    own = f"{version[0]}.{version[1]}"
    if not os.path.exists(table):
        old_version, old_abi, first, old = (0, 0, 0), -1, own, {}
    else:
        old_version, old_abi, first, old = read_table(read(table))
    differing = [k for k in {**old, **entries} if old.get(k) != entries.get(k)]
    others = [k for k in differing if not is_addition(k, old, entries)]
    if abi > old_abi:
        first = own
    wrong = wrong_calls(entries, version, abi, first)
    is_greater = version[:2] > old_version[:2]
    if version < old_version or abi < old_abi:
        wrong.append(f"LAPD_VERSION or LAPD_ABI is less than that of the table, {'.'.join(map(str, old_version))} and {old_abi}")
    if others and not (abi > old_abi and is_greater):
        wrong.append("the change needs a greater LAPD_ABI, and a greater minor or major version:")
        wrong += [f"  {k}: {old.get(k, 'not there')} -> {entries.get(k, 'not there')}" for k in others]
    elif differing and not is_greater:
        wrong.append("the change needs a greater minor version:")
        wrong += [f"  {k}: {old.get(k, 'not there')} -> {entries.get(k, 'not there')}" for k in differing]
    text = written(version, abi, first, entries)
    if is_writing and not wrong:
        with open(table, "w", encoding="utf-8") as file:
            file.write(text)
    elif not wrong and text != read(table):
        wrong.append(f"{table} is not that of version {'.'.join(map(str, version))}: write it by `make abi`")
    for line in wrong:
        print(f"check_abi: {line}")
    if not wrong:
        print(f"check_abi: {len(entries)} entries as in the table of version {'.'.join(map(str, version))}, ABI {abi}")
    return 1 if wrong else 0


sys.exit(main())
