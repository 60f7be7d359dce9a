#!/usr/bin/python3
# SPDX-License-Identifier: Apache-2.0
r"""twins.py [NAME...]: tries the twins of twins/, or those named: devices with a rule that is wrong in definition and code alike.
twins.py --page: writes docs/TWINS.md anew, from the twins and from how long each took when it was last refused here.

Nothing but a law in other words can refuse a twin, so it passes this test only if every crate below the law is proved with it and
the law is not: the crate that its head names is the first that fails, by no proof of code, and each law named is refused, or rests
on a lemma that is. A twin is a text: lines of `#` first, among them

    # Refused by: CRATE, `LAW` (proofs/FILE.antt).
    # Prove: CRATE

a line `# Not tried yet.` where no prover has seen it with the code as it stands: it is passed over, and said to be, unless it is
named; and then places, each `file:`, `old:` and `new:`, an `old` that stands there once; in both \n is the end of a line.

Each is tried by `rt ci` on a copy of the crates to be proved and of those below them, outside the repository and without edits.
What `rt ci` passed before on this machine is not proved again. What it said is in build/log/twins/NAME.txt.
"""
import os
import re
import shutil
import subprocess
import sys
import tempfile
import textwrap
import time

TOP = os.path.dirname(os.path.dirname(os.path.abspath(__file__)))


class Twin:
    """A twin as its file says it."""

    def __init__(self, path):
        text = open(path, encoding="utf-8").read()
        self.name = os.path.basename(path)[: -len(".twin")]
        refused = re.search(r"^# Refused by: (\w+), (.+)$", text, re.M)
        prove = re.search(r"^# Prove: (.+)$", text, re.M)
        places = re.findall(r"^file: (.+)\nold: (.+)\nnew: ?(.*)$", text, re.M)
        self.places = [(file, old.replace("\\n", "\n"), new.replace("\\n", "\n")) for file, old, new in places]
        if not (refused and prove and self.places):
            sys.exit(f"twins: {path} lacks who refuses it, what is to be proved, or a place")
        self.law = refused.group(1)
        self.laws = re.findall(r"`([\w-]+)`", refused.group(2))
        self.crates = prove.group(1).split()
        self.rule = " ".join(re.findall(r"^# (.+)$", text[: refused.start()], re.M))
        groups = re.findall(r"((?:`[\w-]+`(?:, | and )?)+) \(proofs/(\w+)\.antt\)", refused.group(2))
        self.cited = [f"`{self.law}/proofs/{file}.{law}`" for laws, file in groups for law in re.findall(r"`([\w-]+)`", laws)]
        self.is_tried = "\n# Not tried yet.\n" not in text

    def changed(self):
        """The crates that it changes."""
        return sorted({file.split("/")[1] for file, _, _ in self.places})

    def apply(self, folder):
        """Changes the crates of a copy; says what could not be changed."""
        for file, old, new in self.places:
            path = os.path.join(folder, file)
            text = open(path, encoding="utf-8").read()
            if text.count(old) != 1:
                return f"{file}: {old!r} stands there {text.count(old)} times"
            with open(path, "w", encoding="utf-8") as out:
                out.write(text.replace(old, new))
        return None

    def fault(self, said):
        """What is wrong with what the prover said; nothing if the law, and it alone, refused the twin."""
        unproved = re.findall(r"^rt: (\w+) NOT PROVED$", said, re.M)
        if not unproved:
            return "it was proved: no law refuses it" if re.search(r"^\d+ passed, 0 failed$", said, re.M) else "rt ci gave no verdict"
        if unproved[0] != self.law:
            return f"{unproved[0]} refused it, before {self.law}"
        if re.search(r"/(Proof|Answers|Invariants)\.antt:\d+:\d+: error|^fn \S+: (not proved|no proof)|: it is not proved that ", said, re.M):
            return f"its code does not meet its definition in {self.law}"
        # a law that rests on a refused lemma is not checked: the prover says so, but of many such it names the first alone
        unchecked = re.findall(r"error: .*(?:rejected|not admitted), (?:was|were) not checked: (.+)$", said, re.M)
        named = re.sub(r"\(via |\band \d+ more$", "", "\n".join(unchecked), flags=re.M)
        refused = {*re.findall(r"error: `([\w'-]+)`", said), *re.findall(r"[\w'-]+", named)}
        if named != "\n".join(unchecked):
            first = set(re.findall(r"/proofs/([\w/]+)\.antt:\d+:\d+: error: `([\w'-]+)`", said))
            refused |= {name for _, name in resting_on(first, os.path.join(TOP, "crates", self.law, "proofs"))}
        spared = [law for law in self.laws if law not in refused]
        if spared:
            return f"{self.law} refused it, but not by {', '.join(spared)}"
        return None


WORD = r"(?<![\w.'-])[^\W\d][\w'-]*"


def lemmas_of(folder):
    """The lemmas of a crate's files, each by its file and name, with those that its text cites."""
    texts = {}
    for file in sorted(os.listdir(folder)):
        if file.endswith(".antt"):
            lines = open(os.path.join(folder, file), encoding="utf-8").read().splitlines()
            texts[file[:-5]] = "\n".join(re.sub(r"(^|\s)--(\s.*|$)", "", line) for line in lines)
    head = r"^ *(?:pub |abbrev |unfoldable )*(?=[^\W\d][\w'-]*(?: \{[^}]*\})? : )"
    parts = {file: re.split(head, text, flags=re.M)[1:] for file, text in texts.items()}
    lemmas = {}
    for file, text in texts.items():
        places = {}
        for other, names in re.findall(r"^use Rattle\.\w+\.proofs\.(\w+)\.\{([^}]*)\}", text, re.M):
            places.update({name: (other, name) for name in re.findall(WORD, names)})
        own = [(re.match(WORD, part).group(), part) for part in parts[file]]
        places.update({name: (file, name) for name, _ in own})
        for name, part in own:
            cited = {places[word] for word in re.findall(WORD, part) if word in places}
            lemmas[file, name] = lemmas.get((file, name), set()) | cited
    return lemmas


def resting_on(refused, folder):
    """The refused lemmas, each by its file and name, and those of the folder's files that rest on one of them."""
    lemmas = lemmas_of(folder)
    while True:
        more = {lemma for lemma, cited in lemmas.items() if lemma not in refused and cited & refused}
        if not more:
            return refused
        refused = refused | more


def lines_of_crates():
    """The lines of crates.txt, by the crate that each is of."""
    lines = open(os.path.join(TOP, "crates.txt"), encoding="utf-8").read().splitlines()
    return {line.split(":")[0].split()[0]: line for line in lines if ":" in line and not line.startswith("#")}


def copy(twin, folder):
    """Copies the crates that are to be proved and those below them, without edits."""
    below = subprocess.run([os.path.join(TOP, "tools/crates-below.sh"), *twin.crates], text=True, capture_output=True, check=True)
    lines = lines_of_crates()
    with open(os.path.join(folder, "crates.txt"), "w", encoding="utf-8") as out:
        out.write("".join(lines[crate] + "\n" for crate in below.stdout.split()))
    for crate in below.stdout.split():
        left_out = shutil.ignore_patterns("out", "must-fail")
        shutil.copytree(os.path.join(TOP, "crates", crate), os.path.join(folder, "crates", crate), ignore=left_out)


def log_of(name):
    return os.path.join(TOP, "build/log/twins", name + ".txt")


def tried(twin):
    """Tries a twin on a copy of its own; what is wrong, or nothing."""
    with tempfile.TemporaryDirectory() as folder:
        copy(twin, folder)
        fault = twin.apply(folder)
        if fault:
            return fault
        for crate in twin.changed():
            subprocess.run(["rt", "fmt"], cwd=os.path.join(folder, "crates", crate), text=True, capture_output=True, check=True)
        ran = subprocess.run(["rt", "ci"], cwd=folder, text=True, stdout=subprocess.PIPE, stderr=subprocess.STDOUT)
        said = ran.stdout
        with open(log_of(twin.name), "w", encoding="utf-8") as out:
            out.write(said)
        return twin.fault(said)


def seconds_of(twin, page):
    """How long the last trial here took, if the law refused the twin; else what the page says."""
    said = open(log_of(twin.name), encoding="utf-8").read() if os.path.exists(log_of(twin.name)) else ""
    here = re.search(r"^twin: refused by \w+ \((\d+) s\)$", said, re.M)
    there = re.search(rf"^- `twins/{twin.name}` \((\d+) s\)$", page, re.M)
    if not twin.is_tried:
        return " (not tried)"
    found = here or there
    return f" ({found.group(1)} s)" if found else ""


def point_of(twin, page):
    """A twin on the page: its rule and the laws that refuse it below its name."""
    wrapped = lambda text: textwrap.fill(text, 128, initial_indent="  - ", subsequent_indent="    ", break_long_words=False, break_on_hyphens=False)
    return "\n".join([f"- `twins/{twin.name}`{seconds_of(twin, page)}", wrapped(twin.rule), wrapped("refused by: " + ", ".join(twin.cited)), ""])


def write_page(twins):
    """Writes the points of docs/TWINS.md; what stands above them stays."""
    path = os.path.join(TOP, "docs/TWINS.md")
    page = open(path, encoding="utf-8").read()
    points = [point_of(twin, page) for twin in twins]
    with open(path, "w", encoding="utf-8") as out:
        out.write(page[: page.index("- `twins/")] + "".join(points))
    print(f"twins: docs/TWINS.md has {len(points)}")
    return 0


def main(names):
    folder = os.path.join(TOP, "twins")
    twins = [Twin(os.path.join(folder, file)) for file in sorted(os.listdir(folder)) if file.endswith(".twin")]
    if names == ["--page"]:
        return write_page(twins)
    untried = [] if names else [twin.name for twin in twins if not twin.is_tried]
    names = names or [twin.name for twin in twins if twin.is_tried]
    failed = 0
    os.makedirs(os.path.dirname(log_of("")), exist_ok=True)
    for number, name in enumerate(names, 1):
        twin = Twin(os.path.join(folder, name + ".twin"))
        began = time.time()
        fault = tried(twin)
        failed += fault is not None
        verdict = f"NOT REFUSED AS MEANT: {fault}" if fault else f"refused by {twin.law}"
        verdict = f"{verdict} ({time.time() - began:.0f} s)"
        print(f"twin {number} of {len(names)}: {name}: {verdict}", flush=True)
        with open(log_of(name), "a", encoding="utf-8") as out:
            out.write(f"twin: {verdict}\n")
    if untried:
        print(f"twins: passed over, not tried yet: {', '.join(untried)}")
    print(f"twins: {len(names) - failed} passed, {failed} failed")
    return 1 if failed else 0


if __name__ == "__main__":
    sys.exit(main(sys.argv[1:]))
