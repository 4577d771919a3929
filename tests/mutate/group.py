"""Plants many mutants at once in a copy of a clone. The slow tests can then run once over all survivors.

usage: group.py c|py|rust CLONE LIST FOLDER ID..    (FOLDER is written anew)
"""

import json
import pathlib
import shutil
import sys

kind, clone, listed, folder = sys.argv[1], *map(pathlib.Path, sys.argv[2:5])
wanted = set(sys.argv[5:])
base = {"c": "shim", "py": "bindings/python/src/vortex_select", "rust": "bindings/rust/vortex-select/src"}[kind]
for name in "bindings", "include", "docs", "shim":
    shutil.rmtree(folder / name, ignore_errors=True)
    shutil.copytree(clone / name, folder / name, ignore=shutil.ignore_patterns("__pycache__", "target"))
by_file = {}
for m in map(json.loads, listed.read_text().splitlines()):
    if m["id"] in wanted:
        by_file.setdefault(m["file"], []).append(m)
left = []
for name, mutants in by_file.items():
    path = folder / base / name
    data = path.read_bytes()
    start = len(data) + 1
    for m in sorted(mutants, key=lambda m: (-m["start"], m["end"])):
        if m["end"] > start:
            left.append(m["id"])
            continue
        assert data[m["start"] : m["end"]].decode() == m["old"]
        data = data[: m["start"]] + m["new"].encode() + data[m["end"] :]
        start = m["start"]
    path.write_bytes(data)
print("planted", sum(map(len, by_file.values())) - len(left), "left out for their overlap:", " ".join(left))
