"""Runs the programs of docs/CHUNKS.md, and compares their output with the page.

A program of a store whose package is missing is skipped.

usage: chunk_programs.py FOLDER LIBRARY    (after bindings/python/build; with numpy)
"""

import importlib.util
import pathlib
import re
import sys

from arrow_programs import HERE, compare, programs_of, run_c, run_python, run_rust

HEADER = HERE.parent / "include" / "vortex_chunks.h"
STORES = "h5py zarr tables xarray".split()
# How many programs the page has in each language.
COUNTS = {"python": 6, "c": 1, "rust": 1}


def missing(program):
    """The packages that a program imports and that aren't there."""
    names = re.findall(r"(?m)^import (\w+)$", program)
    return [name for name in names if name in STORES and not importlib.util.find_spec(name)]


def loop():
    """The loop in the header's comment."""
    head = HEADER.read_text().split("*/")[0]
    return "\n".join(line[6:] for line in head.splitlines() if line.startswith(" *    "))


def main():
    folder, library = map(pathlib.Path, sys.argv[1:])
    calls = {
        "python": lambda program: run_python(program, folder),
        "c": lambda program: run_c(program, folder, [library]),
        "rust": lambda program: run_rust(program, folder, "chunks"),
    }
    seen = []
    for language, program, printed in programs_of("docs/CHUNKS.md", "python c rust"):
        seen.append(language)
        if missing(program):
            print(f"{language}: skipped, there is no {missing(program)[0]}")
        else:
            compare(language, calls[language](program), printed)
        if language == "c":
            print(f"the loop of the header ... {'ok' if loop() in program else 'FAIL'}")
    if {language: seen.count(language) for language in seen} != COUNTS:
        print(f"languages {seen} ... FAIL")


if __name__ == "__main__":
    main()
