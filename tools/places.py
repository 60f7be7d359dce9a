#!/usr/bin/env python3
# SPDX-License-Identifier: Apache-2.0
"""Counts, in crates/*/src and crates/*/proofs, the marks of forms that an older language needed: places.py [--list] [TOP].

docs/DESIGN-PASS.md says what each point is. A mark is what a text search finds; what a place is, and whether it may stay, is said
there, by reading. With --list each mark is printed with its file and line.
"""
import collections
import glob
import os
import re
import sys

LIST = "--list" in sys.argv
words = [word for word in sys.argv[1:] if not word.startswith("--")]
TOP = words[0] if words else "."
SOURCES = sorted(glob.glob(f"{TOP}/crates/*/src/**/*.rt", recursive=True))
TEXT = {path: open(path).read() for path in SOURCES}
# thin static libraries repeat what they export, by the C interface
OWN = [path for path in SOURCES if not re.search(r"/c_\w+_c/src/", path)]


def where(path, start):
    return f"{os.path.relpath(path, TOP)}:{TEXT[path].count(chr(10), 0, start) + 1}"


def show(name, found):
    print(f"{len(found):5}  {name}")
    if LIST:
        for line in found:
            print("         " + line)


def marks(name, pattern, paths=OWN, flags=re.M):
    found = []
    for path in paths:
        for match in re.finditer(pattern, TEXT[path], flags):
            found.append(f"{where(path, match.start())}  {' '.join(match.group(0).split())[:110]}")
    show(name, found)


def enums():
    shaped, plain, total = [], [], []
    for path in OWN:
        for match in re.finditer(r"((?:^#\[[^\n]*\]\n)*)^(?:pub )?enum (\w+) \{\n(.*?)^\}", TEXT[path], re.M | re.S):
            body = re.sub(r"//.*", "", match.group(3))
            flat = re.sub(r"\s+", " ", body)
            variants = [v for v in re.split(r",(?![^{(]*[})])", flat) if v.strip()]
            payload = [v for v in variants if re.search(r"[({]", v)]
            line = f"{where(path, match.start(2))}  enum {match.group(2)}: {len(variants)} variants"
            total.append(line)
            if len(variants) == 2 and len(payload) == 1:
                shaped.append(line)
            if "PartialEq" not in match.group(1):
                plain.append(line)
    show("enums", total)
    show("enums of two variants, one with a value and one without", shaped)
    show("enums with no derived equality", plain)


def flagged():
    found = []
    for path in OWN:
        for match in re.finditer(r"^\s*(?:pub )?struct (\w+)(?:<[^>]*>)? \{\n(.*?)^\}", TEXT[path], re.M | re.S):
            fields = re.findall(r"^\s*(?:pub )?(\w+): ([^\n]+),$", match.group(2), re.M)
            flags = [name for name, kind in fields if kind == "bool"]
            if flags and len(flags) < len(fields):
                found.append(f"{where(path, match.start(1))}  struct {match.group(1)}: {', '.join(flags)}")
    show("structs with a flag beside other values", found)


def functions():
    for path in SOURCES:
        for match in re.finditer(r"^[ ]*(?:#\[.*\]\n\s*)*(?:pub(?:\(crate\))? )?(?:extern \"C\" )?fn (\w+)(?:<[^>]*>)?\((.*?)\)", TEXT[path], re.M | re.S):
            yield path, match


def twins():
    named = collections.defaultdict(list)
    for path, match in functions():
        if path in OWN and "/main_" not in path and "self" not in match.group(2).split(",")[0]:
            named[match.group(1)].append(where(path, match.start(1)))
    found = [f"{name}: {', '.join(places)}" for name, places in sorted(named.items()) if len(places) > 1]
    show("names of more than one free function", found)


def clauses():
    said = collections.defaultdict(set)
    for path in OWN:
        for match in re.finditer(r"^\s*requires (?:\w+ )?\{(.*?)\}$", TEXT[path], re.M | re.S):
            for fact in re.split(r" × ", " ".join(match.group(1).split())):
                bare = fact.strip().strip("()").strip()
                said[bare].add(where(path, match.start()))
    found = [f"{fact}: {len(places)}" for fact, places in sorted(said.items(), key=lambda x: -len(x[1])) if len(places) > 2]
    show("facts that three or more functions ask for", found)


def travelling():
    groups = collections.Counter()
    for path, match in functions():
        if path not in OWN:
            continue
        names = [part.split(":")[0].strip() for part in " ".join(match.group(2).split()).split(", ") if ":" in part]
        for size in (3, 4, 5):
            for start in range(len(names) - size + 1):
                groups[tuple(names[start : start + size])] += 1
    often = [(group, count) for group, count in groups.items() if count > 2]
    widest = [
        (group, count)
        for group, count in often
        if not any(count <= other and len(wide) > len(group) and any(wide[i : i + len(group)] == group for i in range(len(wide))) for wide, other in often)
    ]
    found = [f"({', '.join(group)}): {count}" for group, count in sorted(widest, key=lambda x: -x[1])]
    show("three or more parameters, in this order, of three or more functions", found)


def alike():
    found = []
    for path in OWN:
        for match in re.finditer(r"^\s*(?:pub )?struct (\w+)(?:<[^>]*>)? \{\n(.*?)^\}", TEXT[path], re.M | re.S):
            kinds = collections.Counter(re.findall(r"^\s*(?:pub )?\w+: ([^\n]+),$", match.group(2), re.M))
            for kind, count in kinds.items():
                if count > 3:
                    found.append(f"{where(path, match.start(1))}  struct {match.group(1)}: {count} of {kind}")
    show("structs of four or more fields of one type", found)


def proofs():
    answers = glob.glob(f"{TOP}/crates/*/proofs/**/Answers.antt", recursive=True)
    lemmas = [p for p in glob.glob(f"{TOP}/crates/*/proofs/**/*.antt", recursive=True) if os.path.basename(p) not in ("Answers.antt", "Invariants.antt", "Lib.antt")]
    goals = sum(len(re.findall(r"^(?:abbrev )?pub [\w-]+ :", open(p).read(), re.M)) for p in answers)
    print(f"{len(answers):5}  files of answers, with {goals} answers")
    print(f"{sum(open(p).read().count(chr(10)) for p in answers):5}  lines of answers")
    print(f"{len(lemmas):5}  files of lemmas and theorems, with {sum(open(p).read().count(chr(10)) for p in lemmas)} lines")


print("1. own Options and Results, flags, numbers")
enums()
flagged()
REFUSALS = r"(?:WRONG_\w+|UNKNOWN_\w+|UNKNOWN|LATE|SHORT_ANSWERS|PAST_THE_END|NOT_HELD|TOO_MANY\w*|EQUAL_SELECTS|IN_TRANSFER|LITTLE_ROOM|READ_OF_NONE|REFUSED)"
marks("refusals by a number", r"(?<!const )\b(?:return )?(?:\w+\((?:\w+, )?)?" + REFUSALS + r"\b(?: as u64)?\)*;", OWN)
marks("constants that number refusals, kinds or events", r"^(?:pub(?:\(crate\))? )?const \w+: (?:u8|u32|u64) = (?:0x)?\w+;")
print("2. twins")
twins()
print("3. loops that count by hand")
marks("while", r"^\s*while .*\{$")
marks("indices counted up", r"^\s*(?:i|at|done|clocks|month|place) (?:\+= .*|= \w+ \+ .*);$")
print("4. equality, order, copying, conversion, printing")
marks("fields copied to the same field", r"\b(\w+): \w+\.\1,")
marks("fields that repeat a local's name", r"\b(\w+): \1,")
marks("locals that copy a field of the same name", r"^\s*let (\w+) = (?:\w+\.)+\1;")
marks("patterns that name what they drop", r"\b\w+: _\b")
marks("bytes joined and split by hand", r"as u(?:16|32|64) \* (?:256|65536|0x100\w*)|/ 256\) as u8|% 256\) as u8|\* 0x100(?:_?00)*\b")
marks("arms that return true or false alone", r"=> (?:true|false),$")
marks("functions that widen, compare or choose by hand", r"\bfn (?:wide|same|flag|bit|byte|later|at_most|lined|changed|agrees|is_idle|same_master|number|digits|pair|copy|clear|row_end|next_long|low_four|low_byte)\b")
print("5. facts and parameters that travel together")
clauses()
travelling()
print("6. buffers with lengths, parallel fields")
marks("buffers with room to spare", r"\[0u8; \w+\]")
marks("a buffer and a place in it", r"&(?:mut )?\[u8\], (?:at|from|place): usize|\bfrom: usize\b|\bat: usize\b")
alike()
print("7. switches on which step to run")
marks("closures, and parameters that are functions", r"impl Fn|: Fn(?:Once|Mut)?\(|\|\w*\| ")
print("8. proofs")
proofs()
