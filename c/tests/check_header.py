#!/usr/bin/env python3
"""check_header.py CRATE LAPD.h ARCHIVE: checks that the header agrees with the crate's exports.

The header declares each export with the C types and names that correspond to its Rattle parameters,
in order. Its result is a lapd_result, and that of lapd_version a number. A handle is const exactly
if the contract says that the side is unchanged. Each struct has the fields of its Rattle struct, in
order, and each code and kind has its number and its name in the crate's definitions. The version is
one. The archive exports only these functions, and requires only memcpy, similar functions and the
heap, which lapd_heap.h declares. Exit status 0 or 1."""

import re
import subprocess
import sys

NUMBERS = {
    "u8": "uint8_t", "u16": "uint16_t", "u32": "uint32_t", "u64": "uint64_t", "usize": "size_t", "bool": "bool",
}
STRUCTS = {
    "Handle": "lapd_side", "Settings": "lapd_settings", "FlatPrimitive": "lapd_primitive", "LinkState": "lapd_link_state",
    "FlatCounters": "lapd_link_counters",
}
# The struct of each of these files of the crate.
FILES = {
    "settings": "Settings", "flat_primitive": "FlatPrimitive", "link_state": "LinkState", "link_counters": "FlatCounters",
}
# Parameters with another name in C, because the crate's name would be less clear.
NAMES = {"handle": "side", "known": "teis", "fixed": "tei", "delivered": "primitive"}
# The clauses of the crate by which a call leaves the side unchanged.
QUERIES = r"Returns(?:Deadline|Discarded|Terminal|Teis|StateOf|LinksThrough|CountersThrough)\b"
# The symbols that the archive may require of the program that it is linked into.
ASKED = {"memcpy", "memmove", "memset", "memcmp", "bcmp", "malloc", "realloc", "free"}
HEAP = {"rattle_alloc", "rattle_realloc", "rattle_dealloc"}
# The call whose result is a number and not a code.
NUMBER = "lapd_version"


def c_type(rattle):
    return {**NUMBERS, **STRUCTS}[rattle]


def crossed(name, rattle, is_query):
    """The C parameters for a parameter of a query, or of another call, each as (type, name); the name
    is None if any is accepted."""
    if rattle == "Global":
        return []  # zero-sized: not passed
    name = NAMES.get(name, name)
    found = re.fullmatch(r"&(mut )?\[(\w+)\]", rattle)
    if found:
        return [(("" if found[1] else "const ") + c_type(found[2]) + " *", None), ("size_t", None)]
    found = re.fullmatch(r"&(mut )?(\w+)", rattle)
    if found:
        is_const = not found[1] or found[2] == "Handle" and is_query
        return [(("const " if is_const else "") + c_type(found[2]) + " *", None if found[2] in NUMBERS else name)]
    return [(c_type(rattle), name)]


def exports_of(source):
    exports = {}
    for name, parameters, result, clauses in re.findall(
        r'pub extern "C" fn (\w+)\((.*?)\)(?:\s*->\s*(\w+))?(\s*\n\s*(?:ensures|requires|where|\{).*?)\n\{', source, re.S
    ):
        is_query = re.search(QUERIES, clauses) is not None
        found = re.findall(r"(\w+):\s*(&(?:mut )?\[\w+\]|&?(?:mut )?\w+)", parameters)
        returned = "void" if not result else c_type(result) if name == NUMBER or result != "u32" else "lapd_result"
        exports[name] = (returned, [p for n, t in found for p in crossed(n, t, is_query)])
    return exports


def prototypes_of(header):
    prototypes = {}
    for result, name, parameters in re.findall(r"^(?:LAPD_MUST_USE )?(\w+) (lapd_\w+)\(([^)]*)\);", header, re.M):
        found = []
        for parameter in parameters.split(","):
            match = re.fullmatch(r"((?:const )?\w+ \*?)(\w+)", parameter.strip())
            if match:
                found.append((match[1].strip(), match[2]))
            elif parameter.strip() != "void":
                found.append((parameter.strip(), "?"))
        prototypes[name] = (result, found)
    return prototypes


def agree(export, prototype):
    return (
        export is not None
        and prototype is not None
        and export[0] == prototype[0]
        and len(export[1]) == len(prototype[1])
        and all(a == c and b in (None, d) for (a, b), (c, d) in zip(export[1], prototype[1]))
    )


def fields_of_rattle(source, name):
    body = re.search(r"#\[repr\(C\)\][^{]*?struct " + name + r" \{(.*?)\n\}", source, re.S)[1]
    body = re.sub(r"//[^\n]*", "", body)
    fields = []
    for field, kind, element, count in re.findall(r"(\w+): (?:(\w+)|\[(\w+); (\d+)\]),", body):
        if kind in NUMBERS:
            fields.append((c_type(kind), field))
        elif kind:
            fields += fields_of_rattle(source, kind)  # its fields are at the same places in C
        else:
            fields.append((c_type(element), f"{field}[{count}]"))
    return fields


def fields_of_c(header, name):
    body = re.search(r"typedef struct " + name + r" \{(.*?)\} " + name + ";", header, re.S)[1]
    fields = []
    for kind, names in re.findall(r"(\w+) ([\w, \[\]]+);", body):
        fields += [(kind, n.strip()) for n in names.split(",")]
    return fields


def numbers_of_c(header, name):
    body = re.search(r"enum " + name + r" \{(.*?)\};", header, re.S)[1]
    return sorted(int(n) for n in re.findall(r"= (\d+)", body))


def names_of_c(header, name):
    body = re.search(r"enum " + name + r" \{(.*?)\};", header, re.S)[1]
    return {int(number): word for word, number in re.findall(r"(\w+) = (\d+)", body)}


def names_of_rattle(source, function):
    body = re.search(r"fn " + function + r"\(.*?\n\}\n", source, re.S)[0]
    return {int(number): word for number, word in re.findall(r'(\d+) => "(\w+)"', body)}


def numbers_of_rattle(source, pattern):
    return sorted({int(n) for n in re.findall(pattern, source)})


def main():
    crate, header, archive = sys.argv[1:4]

    def read(name):
        with open(name, encoding="utf-8") as file:
            return file.read()

    def source(name):
        return read(f"{crate}/src/{name}.rt")

    text = re.sub(r"/\*.*?\*/", "", read(header), flags=re.S)
    wrong = []
    exports, prototypes = exports_of(source("lib")), prototypes_of(text)
    for name in sorted(set(exports) | set(prototypes)):
        if not agree(exports.get(name), prototypes.get(name)):
            wrong.append(f"{name}: the crate has {exports.get(name)}, the header {prototypes.get(name)}")
    for file, name in FILES.items():
        rattle, c = fields_of_rattle(source(file), name), fields_of_c(text, STRUCTS[name])
        if rattle != c:
            wrong.append(f"{name}: the crate has {rattle}, the header {c}")
    codes = numbers_of_rattle(source("codes"), r"(?:u32 = |=> )(\d+)")
    if codes != numbers_of_c(text, "lapd_code"):
        wrong.append(f"codes: the crate has {codes}")
    kinds = numbers_of_rattle(re.sub(r"127", "0", source("flat_primitive")), r"(?:(?:What|TeiOut)::\w+(?:\(\w+\))? =>|u8 =) (\d+)")
    if kinds != numbers_of_c(text, "lapd_kind"):
        wrong.append(f"kinds: the crate has {kinds}")
    body = re.search(r"fn wrong_setting.*?\n    \}\n", source("settings"), re.S)[0]
    settings = numbers_of_rattle(body, r"\n +(\d+)\n")
    if settings != numbers_of_c(text, "lapd_setting"):
        wrong.append(f"settings: the crate has {settings}")
    for function, enum in (("code_name", "lapd_code"), ("kind_name", "lapd_kind")):
        names = names_of_rattle(source("names"), function)
        if names != names_of_c(text, enum):
            wrong.append(f"{function}: the crate has {names}")
    longest = max(len(word) for enum in ("lapd_code", "lapd_kind") for word in names_of_c(text, enum).values())
    if longest + 1 != int(re.search(r"LAPD_MOST_NAME (\d+)", text)[1]):
        wrong.append(f"LAPD_MOST_NAME: the longest name has {longest} characters")
    version = re.search(r'LAPD_VERSION_STRING "(\d+)\.(\d+)\.(\d+)"', text)
    number = int(version[1]) * 10000 + int(version[2]) * 100 + int(version[3])
    crates = re.search(r"fn lapd_version.*?\{\s*(\d+)\s*\}", re.sub(r"ensures \{.*?\}", "", source("lib")), re.S)[1]
    if not number == int(re.search(r"LAPD_VERSION (\d+)", text)[1]) == int(crates):
        wrong.append(f"version: the crate has {crates}, the text of the header is {number}")
    symbols = subprocess.run(["nm", archive], capture_output=True, text=True, check=True).stdout
    defined = set(re.findall(r" [A-Z] (\w+)$", symbols, re.M)) - set(re.findall(r" U (\w+)$", symbols, re.M)) - HEAP
    asked = set(re.findall(r" U (\w+)$", symbols, re.M)) - HEAP
    if defined != set(exports):
        wrong.append(f"the archive defines {sorted(defined ^ set(exports))} beside or without the exports")
    if asked - ASKED:
        wrong.append(f"the archive asks for {sorted(asked - ASKED)}")
    for line in wrong:
        print(line)
    print(f"check_header: {len(exports)} exports, {'not as' if wrong else 'as'} the header says")
    return 1 if wrong else 0


sys.exit(main())
