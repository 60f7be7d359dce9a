#!/usr/bin/python3
# SPDX-License-Identifier: Apache-2.0
"""web-page.py MODULE TARGET: makes one file of the page in web/page, the modules of web/, the scripts of scripts/ and MODULE,
the compiled device. The file needs no other and no network.

A module becomes a function that returns what it exports, and an import takes it from there. For that, imports and exports must
be written in the plainest way, and it is an error if one is not understood:

    import { one, other } from './module.mjs';
    export function name, export const name, export class name, export async function name
"""

import base64
import json
import pathlib
import re
import sys

TOP = pathlib.Path(__file__).resolve().parents[1]
WEB = TOP / "web"
IMPORT = re.compile(r"^import \{([^}]*)\} from '(\.[^']*)';$", re.M)
EXPORT = re.compile(r"^export (?=(?:async )?(?:function\*?|const|class) (\w+))", re.M | re.A)
LEFT = re.compile(r"^\s*(?:import\s[^(]|export\s).*$", re.M)


def variable_of(path):
    """The variable that holds what a module exports."""
    return "module_" + re.sub(r"\W", "_", str(path.relative_to(WEB).with_suffix("")), flags=re.A)


def imported(path, name):
    """The path of the module that a module imports by a name."""
    return (path.parent / name).resolve()


def wrapped(path, text, is_last):
    """A module as a function that returns what it exports; the last one is run as it is."""
    names = EXPORT.findall(text)
    body = IMPORT.sub(lambda it: f"const {{{it[1]}}} = {variable_of(imported(path, it[2]))};", text)
    body = EXPORT.sub("", body)
    left = LEFT.search(body)
    if left:
        sys.exit(f"web-page: {path.relative_to(TOP)}: not understood: {left[0]}")
    return body if is_last else f"const {variable_of(path)} = (() => {{\n{body}\nreturn {{ {', '.join(names)} }};\n}})();\n"


def bundle(path, done, is_last=True):
    """All modules that one needs, each after those that it imports."""
    if path in done:
        return ""
    done.add(path)
    text = path.read_text("utf-8")
    below = "".join(bundle(imported(path, name), done, False) for _, name in IMPORT.findall(text))
    return below + wrapped(path, text, is_last)


def examples():
    """The scripts of scripts/ by name: for one device, for sets, and for two masters."""
    paths = sorted(path for path in (TOP / "scripts").iterdir() if path.suffix in (".bus", ".set", ".masters"))
    return {path.name: path.read_text("utf-8") for path in paths}


def page(module):
    """The page with the module in it."""
    said = json.dumps(examples(), ensure_ascii=False, separators=(",", ":"))
    constants = f"const EXAMPLES = {said};\nconst MODULE = '{base64.b64encode(module).decode()}';\n"
    script = constants + bundle(WEB / "page/page.mjs", set())
    parts = {"@STYLE@": (WEB / "page/page.css").read_text("utf-8"), "@SCRIPT@": script.replace("</script", "<\\/script")}
    return re.sub(r"@(?:STYLE|SCRIPT)@", lambda it: parts[it[0]], (WEB / "page/page.html").read_text("utf-8"))


if len(sys.argv) != 3:
    sys.exit("usage: web-page.py MODULE TARGET")
pathlib.Path(sys.argv[2]).write_text(page(pathlib.Path(sys.argv[1]).read_bytes()), "utf-8")
