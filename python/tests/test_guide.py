# SPDX-License-Identifier: Apache-2.0
"""The lines of Python in docs/GUIDE.md do what the guide shows."""

import doctest
import pathlib
import shutil
import subprocess
import sys

from fm3130 import _library

TOP = pathlib.Path(__file__).resolve().parents[2]


def test_the_guides_lines():
    outcome = doctest.testfile(str(TOP / "docs/GUIDE.md"), module_relative=False)
    assert outcome.attempted >= 15
    assert outcome.failed == 0


def test_package_and_library_are_enough(tmp_path):
    """As `make python` puts them together: found beside each other, with nothing in the environment."""
    package = tmp_path / "fm3130"
    package.mkdir()
    for source in (TOP / "python/fm3130").glob("*.py"):
        shutil.copy(source, package)
    shutil.copy(_library.library()._name, package / "libfm3130.so")
    program = "import fm3130; print(fm3130.script('[ A0 ]')); print(fm3130._library.library()._name)"
    told = subprocess.run([sys.executable, "-B", "-c", program], cwd=tmp_path, env={}, capture_output=True, text=True)
    assert told.stderr == ""
    assert told.stdout.splitlines()[-1] == str(package / "libfm3130.so")
    assert "slave byte: memory, write" in told.stdout
