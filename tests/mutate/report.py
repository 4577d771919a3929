"""Prints what became of mutants by file, and the line of each survivor as it is and as the mutant has it.

usage: report.py SOURCES LIST LOG [EQUAL]
(SOURCES: the folder of the files; EQUAL: a file of IDs that change no behaviour, which count as equivalent)
"""

import collections
import json
import pathlib
import sys


def lines_of(path):
    return [json.loads(line) for line in path.read_text().splitlines()]


def show(sources, m):
    data = (sources / m["file"]).read_bytes().decode()
    start, end = data.rfind("\n", 0, m["start"]) + 1, data.find("\n", m["end"])
    changed = data[start : m["start"]] + m["new"] + data[m["end"] : end]
    print(f"- {m['id']} {m['file']}:{m['line']}\n  - `{data[start:end].strip()}`\n  - `{changed.strip()}`")


def main():
    sources, listed, log = map(pathlib.Path, sys.argv[1:4])
    equal = set(pathlib.Path(sys.argv[4]).read_text().split()) if len(sys.argv) > 4 else set()
    mutants = {m["id"]: m for m in lines_of(listed)}
    ends = collections.defaultdict(collections.Counter)
    survivors = []
    for made in lines_of(log):
        end = "equivalent" if made["id"] in equal else made["end"]
        ends[made["file"]][end] += 1
        ends["all"][end] += 1
        if end == "survived":
            survivors.append(mutants[made["id"]])
    print("| file | killed | survived | equivalent | uncompiled | killed of 100 |\n|---|---|---|---|---|---|")
    for name in sorted(ends, key=lambda name: (name == "all", name)):
        c = ends[name]
        real = c["killed"] + c["survived"]
        share = round(100 * c["killed"] / real) if real else "-"
        print(f"| {name} | {c['killed']} | {c['survived']} | {c['equivalent']} | {c['uncompiled']} | {share} |")
    print()
    for m in survivors:
        show(sources, m)


main()
