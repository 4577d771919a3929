"""Writes a random sample of the mutants of C, in the order of the draw.

usage: prepare_c.py CLONE LIST ORDERED COUNT [SEED]

A line's "is" says what the mutant is: "uncompiled" (it fails the project's own flags), "equal" (it gives the
same object code as the original, cc -O2) or "mutant". The draw ends after COUNT lines of "mutant".
"""

import hashlib
import json
import pathlib
import random
import subprocess
import sys
import tempfile

C99 = ["cc", "-std=c99", "-Wall", "-Wextra", "-Werror", "-Wpedantic", "-fsyntax-only"]
CXX = ["c++", "-x", "c++", "-std=c++11", "-Wall", "-Wextra", "-Wpedantic", "-Werror", "-fsyntax-only"]


def passes(words):
    return subprocess.run(words, stdout=subprocess.DEVNULL, stderr=subprocess.DEVNULL).returncode == 0


class Judge:
    """Tells what a mutant is by compiling it in a folder."""

    def __init__(self, clone, folder):
        self.shim, self.folder = clone / "shim", folder
        self.include = [f"-I{clone / 'include'}", f"-I{self.shim}"]
        self.originals = {}

    def code_of(self, name, text):
        """The object code of a file with this text."""
        source, out = self.folder / name, self.folder / "out.o"
        source.write_text(text)
        subprocess.run(["cc", "-std=c99", "-O2", "-w", *self.include, "-c", source, "-o", out], check=True)
        return hashlib.sha256(out.read_bytes()).hexdigest()

    def compiles(self, name):
        """Whether a file compiles as C99 and, except for memory.c, as C++11."""
        words = [*self.include, self.folder / name]
        return passes([*C99, *words]) and (name == "memory.c" or passes([*CXX, *words]))

    def judge(self, m):
        name, text = m["file"], (self.shim / m["file"]).read_text()
        assert text[m["start"] : m["end"]] == m["old"], m
        if name not in self.originals:
            self.originals[name] = self.code_of(name, text)
        changed = text[: m["start"]] + m["new"] + text[m["end"] :]
        (self.folder / name).write_text(changed)
        if not self.compiles(name):
            return "uncompiled"
        return "equal" if self.code_of(name, changed) == self.originals[name] else "mutant"


def main():
    clone, listed, ordered = map(pathlib.Path, sys.argv[1:4])
    seed = int(sys.argv[5]) if len(sys.argv) > 5 else 20261201
    mutants = [json.loads(line) for line in listed.read_text().splitlines()]
    random.Random(seed).shuffle(mutants)
    left = int(sys.argv[4])
    with tempfile.TemporaryDirectory() as place, open(ordered, "w") as out:
        judge = Judge(clone, pathlib.Path(place))
        while mutants and left:
            m = mutants.pop(0)
            m["is"] = judge.judge(m)
            left -= m["is"] == "mutant"
            out.write(json.dumps(m) + "\n")
            out.flush()


main()
