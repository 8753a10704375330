#!/usr/bin/env python3
"""Compares include/marruskil.h with the functions of crates/clibrary_c: their names and order, the number and the types of their parameters, their
results, and the constants. With the names that an archive defines after it as arguments, those too."""
import re
import sys
from pathlib import Path

ROOT = Path(__file__).resolve().parent.parent.parent

# How C has each type of the functions. A slice is a pointer and a length; text is char, and other bytes are uint8_t.
IN_C = {
    "&mut [u64; PLACES]": [["marruskil_state *"]],
    "&[u64; PLACES]": [["const marruskil_state *"]],
    "&[u8]": [["const char *", "size_t"], ["const uint8_t *", "size_t"]],
    "&mut [u8]": [["char *", "size_t"], ["uint8_t *", "size_t"]],
    "&mut u8": [["uint8_t *"]],
    "&mut u16": [["uint16_t *"]],
    "&mut usize": [["size_t *"]],
    "u64": [["uint64_t"]],
    "u16": [["uint16_t"]],
    "usize": [["size_t"]],
    "": [["void"]],
}


def stop(text):
    print("library: " + text)
    sys.exit(1)


def constant(file, pattern):
    found = re.findall(pattern, (ROOT / file).read_text(encoding="utf-8"))
    if not found:
        stop(f"{file} has no {pattern}")
    return int(found[0])


def exported():
    """The functions of the crate that are marked for C: name, types of the parameters, type of the result."""
    text = re.sub(r"//[^\n]*", "", (ROOT / "crates/clibrary_c/src/lib.rt").read_text(encoding="utf-8"))
    public = re.findall(r"\bpub\s+(?:extern\s+\S+\s+)?fn\s+(\w+)", text)
    marked = re.findall(r'#\[unsafe\(no_mangle\)\]\s*pub extern "C" fn (\w+)\(([^)]*)\)\s*(?:->\s*(\w+))?\s*ensures', text)
    if public != [name for name, _, _ in marked]:
        stop(f"not every public function of crates/clibrary_c is marked for C: {public}")
    return [(name, [p.split(":", 1)[1].strip() for p in parameters.split(",") if p.strip()], result) for name, parameters, result in marked]


def declared():
    """The functions that the header declares: name, types of the parameters, type of the result."""
    text = re.sub(r"/\*.*?\*/", "", (ROOT / "include/marruskil.h").read_text(encoding="utf-8"), flags=re.S)
    functions = []
    for result, name, parameters in re.findall(r"^(\w+) (marruskil_\w+)\(([^)]*)\);$", text, re.M):
        functions.append((name, [re.sub(r"\w+$", "", p.strip()).strip() for p in parameters.split(",")], result))
    if len(functions) != len(re.findall(r"\(", re.sub(r"#.*", "", text))):
        stop("the header declares a function in another form")
    return functions


def agree(types, there):
    """Do the C types stand for the function's, one after another?"""
    if not types:
        return not there
    ways = IN_C.get(types[0]) or stop(f"tests/library/header.py does not know the type {types[0]}")
    return any(there[: len(way)] == way and agree(types[1:], there[len(way) :]) for way in ways)


def main():
    inside, outside = exported(), declared()
    if [f[0] for f in inside] != [f[0] for f in outside]:
        stop(f"the header declares {[f[0] for f in outside]}, and the crate has {[f[0] for f in inside]}")
    for (name, types, result), (_, parameters, given) in zip(inside, outside):
        if not agree(types, parameters):
            stop(f"{name} takes {types}, and the header says {parameters}")
        if [given] not in IN_C.get(result, []):
            stop(f"{name} gives {result or 'nothing'}, and the header says {given}")
    for name, file, pattern in (
        ("PLACES", "crates/state/src/lib.rt", r"const PLACES: usize = (\d+);"),
        ("LONGEST_ANSWER", "crates/clibrary/src/lib.rt", r"const LONGEST_ANSWER: usize = (\d+);"),
        ("LONGEST_COMMAND", "crates/clibrary/src/lib.rt", r"const LONGEST_COMMAND: usize = (\d+);"),
        ("LONGEST_FILE", "crates/policyfile/src/lib.rt", r"const LONGEST_FILE: usize = (\d+);"),
    ):
        if constant("include/marruskil.h", rf"#define MARRUSKIL_{name} (\d+)") != constant(file, pattern):
            stop(f"MARRUSKIL_{name} is not what {file} has")
    if sys.argv[1:] and sorted(sys.argv[1:]) != sorted(f[0] for f in inside):
        stop(f"the archive defines {sys.argv[1:]}")
    print(f"library: the header declares the {len(inside)} functions as they are")


main()
