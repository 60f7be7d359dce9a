#!/usr/bin/env python3
# SPDX-License-Identifier: Apache-2.0
"""Brings the names of definitions and lemmas to snake case, types and modules to camel case.

Run once, after the kit's own script, at the top of the repository. It renames what is declared in crates/*/specs and in the lemma
files of crates/*/proofs, in those files, in the proofs of functions, and in the clauses and `ghost use` lines of the sources.
What the toolchain makes (goals, steps, records of a function's context) is left. `--list` prints the names that would fall together.
`--map` prints every renaming.
"""
import collections
import glob
import re
import sys

START = r"A-Za-z_\u0370-\u03ff"
TOKEN = re.compile(r"(?<![" + START + r"0-9'\u2080-\u2089-])[" + START + r"][" + START + r"0-9'\u2080-\u2089\u1d00-\u1dbf\u207f-\u209f-]*")
COMMENT = re.compile(r"(^|\s)--(\s.*|$)")
DECLARED = re.compile(r"^\s*(?:(?:pattern|unfoldable|abbrev|pub|axiom|private)\s+)*(?:record\s+|data\s+)?([" + START + r"][^\s(){}:,;]*)(?:\s+\{[^}]*\})?(?:\s+[(\[{].*?)?\s*:\s")
KEPT = {"if-then-else"}


def snake(name):
    """lowerCamel and kebab to snake case."""
    out = re.sub(r"(?<=[a-z0-9\u2080-\u2089'])([A-Z])(?=[a-z0-9]|$|[_-])", lambda m: "_" + m.group(1).lower(), name)
    out = re.sub(r"(?<=[a-z0-9])([A-Z]+)", lambda m: "_" + m.group(1).lower(), out)
    return out.replace("-", "_")


def camel(name):
    """A type's name: words joined by a dash become one word in camel case."""
    parts = name.split("-")
    return "".join(p[:1].upper() + p[1:] for p in parts)


def files(pattern):
    return sorted(glob.glob(pattern, recursive=True))


def lemma_files():
    return [f for f in files("crates/*/proofs/**/*.antt") if not f.endswith(("/Proof.antt", "/Invariants.antt", "/Answers.antt"))]


def declared():
    names = set()
    for path in files("crates/*/specs/**/*.antt") + lemma_files():
        with open(path, encoding="utf-8") as f:
            for line in f:
                line = COMMENT.sub("", line)
                m = DECLARED.match(line)
                if m:
                    names.add(m.group(1))
                for field in re.findall(r"\bfield\s+([^\s:]+)", line):
                    names.add(field)
    return names


def mapping():
    out = {}
    for name in declared():
        if name in KEPT:
            continue
        if re.match(r"[A-Z]", name):
            if "-" in name and name.upper() != name:
                out[name] = camel(name)
            elif "-" in name:
                out[name] = name.replace("-", "_")  # a place of the image, named as the constant of the code
        elif snake(name) != name:
            out[name] = snake(name)
    return apart(out)


# Fields whose name is that of another crate's definition; no file names both.
BESIDE = {"all-high", "read-events", "write-events", "w-falls", "step-on"}


def apart(renamed):
    """Where a lemma would have its definition's name, it ends in `_lem`."""
    in_specs = set()
    for path in files("crates/*/specs/**/*.antt"):
        with open(path, encoding="utf-8") as f:
            for line in f:
                m = DECLARED.match(COMMENT.sub("", line))
                if m:
                    in_specs.add(m.group(1))
    for new, olds in list(falls_together(renamed)):
        camels = [o for o in olds if re.search(r"[a-z][A-Z]", o)]
        keeps = camels[0] if camels else new
        for old in olds:
            if old == keeps or old in BESIDE:
                continue
            if old == new and old in in_specs:
                raise SystemExit(f"snake_names: {olds} fall together in specs/")
            renamed[old] = new + "_lem"
    return renamed


def falls_together(renamed):
    by_new = collections.defaultdict(set)
    for old, new in renamed.items():
        by_new[new].add(old)
    every = declared()
    for new, olds in sorted(by_new.items()):
        if new in every:
            olds.add(new)
        if len(olds) > 1:
            yield new, sorted(olds)


def turn(text, renamed, projections):
    def one(m):
        word = m.group(0)
        before = text_before(m)
        if before == "." and not projections and (word not in FIELDS or renamed.get(word, "").endswith("_lem")):
            return word
        return renamed.get(word, word)

    def text_before(m):
        return m.string[m.start() - 1:m.start()]

    return TOKEN.sub(one, text)


FIELDS = set()


def fields():
    for path in files("crates/*/specs/**/*.antt") + lemma_files():
        with open(path, encoding="utf-8") as f:
            for line in f:
                m = re.match(r"^  (?:  )?(?:pub )?([" + START + r"][^\s(){}:,;]*) : ", COMMENT.sub("", line))
                if m:
                    FIELDS.add(m.group(1))


def main():
    renamed = mapping()
    fields()
    if "--map" in sys.argv:
        for old, new in sorted(renamed.items()):
            print(old, new)
        return
    if "--list" in sys.argv:
        for new, olds in falls_together(renamed):
            print(new, olds)
        return
    for path in files("crates/*/specs/**/*.antt") + files("crates/*/proofs/**/*.antt"):
        with open(path, encoding="utf-8") as f:
            text = f.read()
        proof = path.endswith(("/Proof.antt", "/Invariants.antt", "/Answers.antt"))
        out = []
        for line in text.split("\n"):
            m = COMMENT.search(line)
            code, comment = (line[:m.start()], line[m.start():]) if m else (line, "")
            code = turn(code, renamed, not proof)
            if proof:
                code = re.sub(r"\b([a-z][a-z0-9_-]*)-spec\b", lambda m: m.group(1).replace("-", "_") + "_spec", code)
            comment = TOKEN.sub(lambda m: renamed.get(m.group(0), m.group(0)) if re.search(r"[a-z][A-Z]", m.group(0)) or m.string[m.start() - 1:m.start()] == "`" or re.match(r"\s*--   ", m.string) and re.match(r"   *|, *", m.string[m.start() - 2:m.start()]) else m.group(0), comment)
            out.append(code + comment)
        if "\n".join(out) != text:
            with open(path, "w", encoding="utf-8") as f:
                f.write("\n".join(out))
    for path in files("crates/*/src/**/*.rt"):
        with open(path, encoding="utf-8") as f:
            text = f.read()
        out = []
        ghost = False
        depth = 0
        for line in text.split("\n"):
            stripped = line.strip()
            if stripped.startswith("//"):
                line = TOKEN.sub(lambda m: renamed.get(m.group(0), m.group(0)) if re.search(r"[a-z][A-Z]", m.group(0)) or m.string[m.start() - 1:m.start()] == "`" else m.group(0), line)
            elif ghost or re.match(r"(ghost|requires|ensures|invariant|pub ghost)\b", stripped):
                line = turn(line, renamed, True)
                depth += line.count("{") - line.count("}")
                ghost = depth > 0
                if not ghost:
                    depth = 0
            out.append(line)
        if "\n".join(out) != text:
            with open(path, "w", encoding="utf-8") as f:
                f.write("\n".join(out))
    for path in files("crates/*/must-fail/*.edit") + files("edits/**/*.edit") + files("twins/*.twin"):
        with open(path, encoding="utf-8") as f:
            text = f.read()
        out = []
        for line in text.split("\n"):
            if re.match(r"(old|new)\s*:", line):
                line = turn(line, renamed, True)
            out.append(line)
        if "\n".join(out) != text:
            with open(path, "w", encoding="utf-8") as f:
                f.write("\n".join(out))
    # In pages: words with a capital inside, and what a path to a definition or a theorem ends in.
    for path in files("docs/*.md") + ["README.md"]:
        with open(path, encoding="utf-8") as f:
            text = f.read()

        def quoted(m):
            return TOKEN.sub(lambda w: renamed.get(w.group(0), w.group(0)) if re.search(r"[a-z][A-Z]", w.group(0)) or re.search(r"/(specs|proofs)/[\w/]*\.$", w.string[:w.start()]) else w.group(0), m.group(0))

        after = re.sub(r"`[^`\n]*`", quoted, text)
        if after != text:
            with open(path, "w", encoding="utf-8") as f:
                f.write(after)


if __name__ == "__main__":
    main()
