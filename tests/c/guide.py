#!/usr/bin/python3
# SPDX-License-Identifier: Apache-2.0
"""guide.py FOLDER: follows docs/GUIDE.md to the letter, from the top of the repository on, in one shell.

A line behind "$" is typed. What the guide shows below it must come out, "..." standing for any lines; where it shows nothing,
anything may come out, and the command must end well. A program stands in the block after the words "Save this as `NAME`", and is
saved where the shell then is. The lines of Python are tried where the first of them stands. The guide goes into a scratch folder
by `mktemp`, which is removed at the end. FOLDER is made anew: the programs in C are left in it.
"""

import difflib
import os
import pathlib
import re
import shutil
import subprocess
import sys
import tempfile

GUIDE = pathlib.Path("docs/GUIDE.md")
COMMAND = re.compile(r"^( {4,})\$ (.*)$")
SAVE = re.compile(r"ave this as\s+`([^`]+)`")


class Typed:
    """A command, the line that it stands in, and what the guide shows below it."""

    def __init__(self, line, command):
        self.line, self.command, self.shown = line, command, []


class Saved:
    """A program, and the name that it is saved by."""

    def __init__(self, name):
        self.name, self.text = name, ""


def blocks(lines):
    """The steps of the guide, in their order."""
    steps, program, depth, python, before = [], None, 0, False, ""
    for number, line in enumerate(lines, 1):
        if line.startswith("```"):
            if program is None and line != "```":
                found = SAVE.findall(before)
                program = Saved(found[-1]) if found else Saved("")
            else:
                steps += [program] if program and program.name else []
                program = None
            before, depth = "", 0
            continue
        if program is not None:
            program.text += line + "\n"
            continue
        typed = COMMAND.match(line)
        if typed:
            depth = len(typed[1])
            steps.append(Typed(number, typed[2]))
        elif depth and (line.startswith(" " * depth) or not line):
            steps[-1].shown.append(line[depth:])
        else:
            depth = 0
            if line.startswith("    >>> ") and not python:
                python = True
                steps.append(Typed(number, f'/usr/bin/python3 -B -m doctest "{GUIDE.resolve()}"'))
        before = before + "\n" + line if line else before if before.rstrip().endswith("`:") else ""
    return [trimmed(step) for step in steps]


def trimmed(step):
    """Without the empty lines that end the block of a command."""
    while isinstance(step, Typed) and step.shown and not step.shown[-1]:
        step.shown.pop()
    return step


def fits(shown, said):
    """Whether lines are those that are shown."""
    if not shown:
        return not said
    if shown[0] == "...":
        return any(fits(shown[1:], said[place:]) for place in range(len(said) + 1))
    return bool(said) and shown[0] == said[0] and fits(shown[1:], said[1:])


def script_of(steps, folder):
    """One script for all steps, each with what it says in a file of its own."""
    parts = []
    for number, step in enumerate(steps):
        if isinstance(step, Saved):
            file = folder / f"{number}.file"
            file.write_text(step.text)
            parts.append(f'mkdir -p "$(dirname {step.name})" && cp "{file}" {step.name}\n')
            if step.name.endswith(".c"):
                parts.append(f'cp "{file}" "{folder}/{step.name}"\n')
        else:
            said = folder / f"{number}.said"
            parts.append(f'{{ {step.command}\n}} >"{said}" 2>&1 </dev/null\necho $? >"{said}.status"\n')
    return "".join(parts)


def fault_of(step, number, folder):
    """What is wrong with a step, or nothing."""
    said = folder / f"{number}.said"
    if not said.exists():
        return "it was not reached"
    lines = said.read_text().splitlines()
    if step.shown and not fits(step.shown, lines):
        return "\n".join(difflib.unified_diff(step.shown, lines, "shown", "said", lineterm=""))
    status = pathlib.Path(f"{said}.status").read_text().strip()
    if not step.shown and status != "0":
        return f"status {status}\n" + "\n".join(lines[-20:])
    return ""


def main(folder):
    shutil.rmtree(folder, ignore_errors=True)
    folder.mkdir(parents=True)
    steps = blocks(GUIDE.read_text().splitlines())
    typed = [step for step in steps if isinstance(step, Typed)]
    if len(typed) < 30 or len(steps) - len(typed) < 4:
        sys.exit(f"guide.py: {len(typed)} commands and {len(steps) - len(typed)} programs are few")
    with tempfile.TemporaryDirectory() as scratch:
        # Debian has i2c-tools in a folder that is on root's PATH alone.
        environment = {**os.environ, "TMPDIR": scratch, "PATH": os.environ["PATH"] + ":/usr/sbin"}
        subprocess.run(["bash", "-c", script_of(steps, folder.resolve())], env=environment, check=False)
    for number, step in enumerate(steps):
        fault = fault_of(step, number, folder) if isinstance(step, Typed) else ""
        if fault:
            sys.exit(f"guide.py: {GUIDE}:{step.line}: {step.command}: DIFFERENT\n{fault}")
    print(f"ctest: docs/GUIDE.md was followed: {len(typed)} commands and {len(steps) - len(typed)} programs do what it shows")


if len(sys.argv) != 2:
    sys.exit("usage: guide.py FOLDER")
main(pathlib.Path(sys.argv[1]))
