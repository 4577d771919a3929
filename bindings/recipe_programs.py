"""Runs the programs of docs/RECIPES.md, and compares their output with the page.

A program is run if an indented block with its output follows it. One that imports a package which is
missing is skipped.

usage: recipe_programs.py FOLDER    (after bindings/python/build)
"""

import importlib.util
import pathlib
import re
import sys

from arrow_programs import compare, programs_of, run_python

COUNT = 9  # programs that the page has


def missing(program):
    """Return the packages that a program imports and that aren't there."""
    names = re.findall(r"(?m)^import (\w+)$", program)
    return [name for name in names if not importlib.util.find_spec(name)]


def main():
    folder, seen = pathlib.Path(sys.argv[1]), 0
    for language, program, printed in programs_of("docs/RECIPES.md", "python"):
        seen += 1
        if missing(program):
            print(f"{language}: skipped, there is no {missing(program)[0]}")
        else:
            compare(language, run_python(program, folder), printed)
    if seen != COUNT:
        print(f"{seen} programs, expected {COUNT} ... FAIL")


if __name__ == "__main__":
    main()
