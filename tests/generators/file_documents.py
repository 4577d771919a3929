"""The rows of `rows_of_documents` for the command `file`, worked out from the definitions alone.

Prints the rows, each with what it must give below it; with `counts`, each family's heading and how
many rows it has. docs/FORMAT.md has the blocks, docs/DOCUMENT.md what a document means.
"""

import json
import sys
from struct import pack

SIZES = {"u8": (0, 1), "u16": (1, 2), "u32": (2, 4), "u64": (3, 8)}
MOST_ROWS = 2**24


def header(kind, count):
    return b"VXCOL001" + bytes([SIZES[kind][0]]) + pack("<Q", count)


def spelling_at(digits, base, offsets):
    fields = sum(n << (j * digits) for j, n in enumerate(offsets))
    return bytes([digits]) + pack("<Q", base) + fields.to_bytes(128 * digits, "little")


def spelling(rows):
    rows = rows + [rows[-1]] * (1024 - len(rows))
    low = min(rows)
    return spelling_at((max(rows) - low).bit_length(), low, [n - low for n in rows])


def file_of(kind, rows):
    return [header(kind, len(rows))] + [spelling(rows[k : k + 1024]) for k in range(0, len(rows), 1024)]


def equal(number):
    """A block of equal numbers: nine bytes."""
    return spelling([number])


def steps_of(steps):
    return [{name: value} for name, value in steps]


def broken_by(step, count):
    """The rule that a step breaks over so many rows, as the program tells it."""
    name, value = step
    if name == "slice" and not (value[0] <= value[1] <= count):
        return f"BadRange {value[0]}..{value[1]} of {count}"
    if name == "filter" and len(value) != count:
        return f"BadMask {len(value)} of {count}"
    if name == "take":
        for index in value:
            if index is not None and not 0 <= index < count:
                return f"OutOfBounds {index} of {count}"
    return None


def after(step, picks):
    name, value = step
    if name == "slice":
        return picks[value[0] : value[1]]
    if name == "filter":
        return [p for p, bit in zip(picks, value) if bit == "1"]
    return [None if i is None else picks[i] for i in value]


def answer(kind, count, rows, steps):
    """The lines of the answer: of the first broken step, or of the rows and the reads."""
    picks = list(range(count))
    for number, step in enumerate(steps):
        cause = broken_by(step, len(picks))
        if cause:
            return ["= 1", f"= step {number}: {cause}"]
        picks = after(step, picks)
    touched = sorted({1 + p // 1024 for p in picks if p is not None})
    nullable = "?" if any(name == "take" and None in value for name, value in steps) else ""
    lines = ["= 0", f"= {kind}{nullable}"]
    lines += ["= null" if p is None else f"= {rows(p)}" for p in picks]
    lines.append("= reads:" + "".join(f" {b}" for b in touched))
    return lines + [f"=? block {b}" for b in [0] + touched]


FAMILIES = []


def family(heading):
    FAMILIES.append((heading, []))


def row(document, lines, words="file", piece=4096, reads="", writes=""):
    text = document if isinstance(document, str) else json.dumps(document, separators=(",", ":"))
    FAMILIES[-1][1].append([f"{words}|{piece}|{reads}|{writes}|{text}"] + lines)


def document(blocks, steps, **more):
    return {"file": [b if isinstance(b, str) else b.hex() for b in blocks], "steps": steps_of(steps), **more}


def right(kind, rows, steps, blocks=None, **more):
    blocks = blocks or file_of(kind, rows)
    row(document(blocks, steps, **more), answer(kind, len(rows), lambda p: rows[p], steps))


OWN = list(range(3000))
TAKEN = [("take", [2047, 0, None, 2047])]
TENS = [10 * (1 + p // 1024) for p in range(5000)]
WHOLE = [header("u8", 5000)] + [equal(10 * k) for k in range(1, 6)]

family("# rows of a file")
right("u32", OWN, TAKEN)
right("u8", [5, 7, 6], [])
right("u8", [5, 7, 6], [("slice", [1, 3]), ("take", [1, 0, 1])])
right("u16", [65535, 0, 300], [("filter", "101")])
right("u64", [2**64 - 1, 0], [])
right("u64", [2**64 - 1], [])
right("u32", [7, 7, 7], [])
right("u8", [], [])
right("u8", [], [("slice", [0, 0]), ("filter", ""), ("take", [])])
right("u8", [], [("take", [None, None])])
right("u16", TENS, [("slice", [1023, 1025])], [header("u16", 5000)] + WHOLE[1:])
right("u8", TENS, [("slice", [1024, 2048]), ("slice", [1, 2])], WHOLE)
right("u8", TENS, [("take", [4999, 0, 1023, 4999, 1024])], WHOLE)
right("u8", TENS, [("take", [None, None, None])], WHOLE)
right("u8", TENS, [("take", [None, 4999]), ("take", [0, None])], WHOLE)
right("u8", TENS, [("take", [3000, 4999]), ("filter", "01")], WHOLE)
right("u8", TENS, [("slice", [2047, 2050]), ("take", [2, 0])], WHOLE)
for policy in ["vortex", {}, {"min_average_run": 0}, {"in_place_min": [0, 1], "sparse_w1": 0}]:
    right("u8", TENS, [("slice", [1022, 1026]), ("filter", "0110")], WHOLE, policy=policy)


def stepped(steps, picks, nullable=""):
    """Steps that are spelled here, over the whole file of tens, and the picks that they leave."""
    touched = sorted({1 + p // 1024 for p in picks if p is not None})
    lines = ["= 0", f"= u8{nullable}"] + [f"= {'null' if p is None else TENS[p]}" for p in picks]
    lines.append("= reads:" + "".join(f" {b}" for b in touched))
    blocks = [b if k == 0 or k in touched else "ff" for k, b in enumerate(WHOLE)]
    row(document(blocks, steps), lines + [f"=? block {b}" for b in [0] + touched])


def column(kind, values, **more):
    return {"layout": "Primitive", "type": kind, "values": values, **more}


family("# every form of a step over a file; the blocks that hold no picked row are damaged")
PIECES = {"starts": [0, 4998, 7], "lengths": [3, 2, 0], "multipliers": [1500, 1, 9], "len": 5}
stepped([("take", {"pieces": PIECES})], [0, 1500, 3000, 4998, 4999])
ONE = {"layout": "Constant", "type": "u16", "value": 4999, "len": 3}
stepped([("take", ONE)], [4999] * 3)
stepped([("take", {**ONE, "nullable": True, "value": None})], [None] * 3, "?")
stepped([("take", {**ONE, "nullable": True})], [4999] * 3, "?")
DICT = {"layout": "Dict", "codes": column("u8", [1, 0, 1]), "values": column("u16", [1023, 1024])}
stepped([("take", DICT)], [1024, 1023, 1024])
stepped([("take", column("i16", [3071, 3072], validity="AllValid"))], [3071, 3072], "?")
stepped([("take", column("u16", [2047, 65535], validity=[True, False]))], [2047, None], "?")
stepped([("take", column("u16", [65535, 65534], validity="AllInvalid"))], [None, None], "?")
LAZY = {"layout": "Filter", "child": {"layout": "Primitive", "type": "u16", "ramp": 5000}}
stepped([("take", {**LAZY, "mask": {"len": 5000, "set": [4095, 4096]}})], [4095, 4096])
stepped([("filter", {"len": 5000, "set": [0, 4999]})], [0, 4999])
stepped([("filter", {"len": 5000, "runs": [[1023, 1025], [3071, 3072]]})], [1023, 1024, 3071])
stepped([("filter", {"len": 5000, "every": True}), ("slice", [4096, 4098])], [4096, 4097])
stepped([("filter", {"len": 5000, "every": False})], [])
stepped([("slice", [2045, 2051]), ("filter", {"bits": "011001", "offset": 2})], [2046, 2047, 2050])
TRUE = {"layout": "Bool", "values": [True, None, False, True]}
stepped([("slice", [3070, 3074]), ("filter_by", TRUE)], [3070, 3073])
stepped([("take", [0, None, 4999]), ("filter_by", {"layout": "Bool", "values": "011"})], [None, 4999], "?")

family("# a block that holds no picked row is never looked at")
own = file_of("u32", OWN)
right("u32", OWN, TAKEN, own[:3] + ["00"])
right("u32", OWN, TAKEN, own[:3])
right("u32", OWN, TAKEN, own[:3] + [""])
right("u32", OWN, TAKEN, own + ["ff", "", "00"])
right("u8", TENS, [("take", [2048])], [WHOLE[0], "", "ff", WHOLE[3]])
right("u8", TENS, [("take", [4999])], [WHOLE[0], "09", b"\x41" + bytes(8), "", "", WHOLE[5]])
right("u8", TENS, [("slice", [7, 7])], WHOLE[:1])
right("u8", TENS, [("take", [None])], WHOLE[:1])

family("# a broken step is told whatever the blocks hold")
for steps in [
    [("slice", [0, 5001])],
    [("slice", [3, 2])],
    [("filter", "11")],
    [("take", [5000])],
    [("take", [-1])],
    [("slice", [0, 10]), ("take", [9]), ("take", [1])],
]:
    for blocks in [WHOLE, WHOLE[:1], WHOLE[:1] + ["ff"] * 5]:
        right("u8", TENS, steps, blocks)
right("u32", OWN, [("slice", [2999, 3001])])

MALFORMED = ["= 2"]
PAIR = [0] * 1023 + [1]

family("# each damage of a block that holds a picked row")
GOOD = spelling_at(2, 5, [0, 1, 2, 3] * 256)
for kind, bad in [
    ("u8", ""),
    ("u8", "00"),
    ("u8", equal(7)[:8]),
    ("u8", GOOD[:-1]),
    ("u8", b"\x02" + bytes(8)),
    ("u8", GOOD + b"\x00"),
    ("u8", equal(7) + b"\x00"),
    ("u8", b"\x09" + bytes(8)),
    ("u8", b"\x09" + bytes(8) + bytes(128 * 9)),
    ("u16", b"\x11" + bytes(8)),
    ("u32", b"\x21" + bytes(8)),
    ("u64", b"\x41" + bytes(8)),
    ("u64", b"\xff" + bytes(8)),
    ("u8", spelling_at(1, 0, [1] * 1024)),
    ("u8", spelling_at(2, 0, [1, 2] * 512)),
    ("u8", spelling_at(1, 0, [0] * 1024)),
    ("u8", spelling_at(2, 0, PAIR)),
    ("u8", spelling_at(0, 256, [])),
    ("u8", spelling_at(1, 255, PAIR)),
    ("u16", spelling_at(1, 65535, PAIR)),
    ("u32", spelling_at(1, 2**32 - 1, PAIR)),
    ("u64", spelling_at(1, 2**64 - 1, PAIR)),
    ("u8", spelling_at(0, 2**64 - 1, [])),
]:
    row(document([header(kind, 1024), bad], []), MALFORMED)
row(document([header("u32", 3000)], []), MALFORMED)
row(document(own[:2] + [""] + own[3:], TAKEN), MALFORMED)
row(document(own[:2], TAKEN), MALFORMED)
row(document(WHOLE[:5], [("take", [4095, 4096])]), MALFORMED)
row(document([WHOLE[0], equal(256)], [("take", [0])]), MALFORMED)
right("u16", [256] * 3, [], [header("u16", 3), equal(256)])
right("u8", [254, 255], [], [header("u8", 2), spelling_at(1, 254, [0] + [1] * 1023)])

family("# the fill of the last block may hold anything")
right("u8", [5, 7], [], [header("u8", 2), spelling_at(2, 5, [0, 2] + [1, 3] * 511)])
right("u8", [9], [], [header("u8", 1), spelling_at(3, 2, [7] + [0] * 1023)])

family("# each fault of a header")
for head in [
    "",
    header("u8", 0)[:-1],
    header("u8", 0) + b"\x00",
    b"VXCOL002" + header("u8", 0)[8:],
    b"vxcol001" + header("u8", 0)[8:],
    b"VXCOL001\x04" + bytes(8),
    b"VXCOL001\x08" + bytes(8),
    b"VXCOL001\xff" + bytes(8),
    header("u8", MOST_ROWS + 1),
    header("u64", 2**64 - 1),
    equal(0),
]:
    row(document([head], []), MALFORMED)
    row(document([head], [("slice", [1, 0])]), MALFORMED)
row(document([], []), MALFORMED)
right("u8", range(MOST_ROWS), [("slice", [5, 5])], [header("u8", MOST_ROWS)])
right("u8", range(MOST_ROWS), [("slice", [0, MOST_ROWS + 1])], [header("u8", MOST_ROWS)])
row(
    document([header("u8", MOST_ROWS)] + [""] * 16383 + [equal(3)], [("take", [MOST_ROWS - 1])]),
    ["= 0", "= u8", "= 3", "= reads: 16384", "=? block 0", "=? block 16384"],
)

family("# documents of a file without a meaning")
three = [b.hex() for b in file_of("u32", [7, 7, 7])]
for bad in [
    {"file": three},
    {"steps": []},
    {"file": three, "steps": [], "rows": 1},
    {"file": three, "steps": [], "column": {"layout": "Null", "len": 1}},
    {"column": {"layout": "Null", "len": 1}, "steps": []},
    {"chunks": {"type": "u8", "offset": 0, "len": 1, "values": [1]}, "steps": []},
    {"file": three[0], "steps": []},
    {"file": {}, "steps": []},
    {"file": None, "steps": []},
    {"file": 3, "steps": []},
    {"file": three + [None], "steps": []},
    {"file": three + [3], "steps": []},
    {"file": three + [[]], "steps": []},
    {"file": three + ["0"], "steps": []},
    {"file": three + ["0g"], "steps": []},
    {"file": three + ["0x"], "steps": []},
    {"file": three + [" 0"], "steps": []},
    {"file": three + ["é"], "steps": []},
    {"file": three + ["00" * 8202], "steps": []},
    {"file": three + ["0" * 16403], "steps": []},
    {"file": three, "steps": {}},
    {"file": three, "steps": [{"slice": [0]}]},
    {"file": three, "steps": [{"take": "0"}]},
    {"file": three, "steps": [{"slice": [0, 1], "take": [0]}]},
    {"file": three, "steps": [], "policy": "other"},
    {"file": three, "steps": [], "policy": {"min_average_run": -1}},
    [],
    3,
    None,
]:
    row(bad, MALFORMED)
for bad in ["", "{", json.dumps(document(three, []))[:-1], "file"]:
    row(bad, MALFORMED)
row({"file": three, "steps": []}, MALFORMED, words="rows")
right("u32", [7, 7, 7], [("take", [2])], three + ["00" * 8201])
right("u32", [7, 7, 7], [("take", [2])], [three[0].upper(), three[1].upper()])

family("# words of unions in a document of a file")
row({"file": three, "steps": [{"take": {"layout": "Union"}}]}, MALFORMED)
row({"file": ["0"], "steps": [], "variants": 1}, MALFORMED)

family("# faults of a source and of a sink, at a file")
good = document([header("u8", 5000)] + WHOLE[1:], [("take", [1024, None])])
reads = ["=? block 0", "=? block 2"]
row(good, ["= 4"], piece=16, reads="0")
row(good, ["= 4"], piece=16, reads="3")
row(good, ["= 5"] + reads, piece=16, writes="0")
row(good, ["= 5", "= u8?", "=\\ 20"] + reads, piece=6, writes="1")
row(good, ["= 5", "= u8?", "= 20", "= null", "= reads: 2"] + reads, writes="1")
row(good, ["= 0", "= u8?", "= 20", "= null", "= reads: 2"] + reads, piece=1)
row(document(WHOLE, [("slice", [0, 5001])]), ["= 5", "=\\ step 0"], piece=6, writes="1")
row(document(WHOLE[:1], []), MALFORMED, writes="0")

family("# words beside `file`")
for words in ["file 1", "file file", "files", "File", "file rows", "rows file", "made file"]:
    row(good, ["= 3"], words=words, reads="0")

for heading, rows in FAMILIES:
    print(heading)
    if sys.argv[1:] == ["counts"]:
        print(f"{len(rows)} rows as told")
        continue
    for lines in rows:
        print("\n".join(lines))
