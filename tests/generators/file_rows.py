"""The rows of files in `crates/rows_of_selections/stdin`, worked out from the definition of a column file alone.

    python3 tests/generators/file_rows.py | diff - <(sed -n '/^# blocks of files/,$p' crates/rows_of_selections/stdin)
"""

from json import dumps
from struct import pack


def header(kind, rows, front=b"VXCOL001"):
    return front + bytes([kind]) + pack("<Q", rows)


def lengths(n):
    rows = [list(range(k, min(k + 1024, n))) for k in range(0, n, 1024)]
    return [17] + [9 + 128 * (r[-1] - r[0]).bit_length() for r in rows] + [0]


def row(call, answers, **members):
    print(dumps({"call": call, **members}, separators=(",", ":")))
    for answer in answers:
        print(f"= {answer}")


def cut(*range_of):
    return {"slice": list(range_of)}


STEADY = {"reader": "SteadyBlocks"}
PICKS = [2047, 0, None, 2047]
TAKE = {"take": {"layout": "Primitive", "type": "u32", "values": [2047, 0, 9, 2047],
                 "validity": [True, True, False, True]}}
TAKEN = ["u32?"] + ["null" if p is None else p for p in PICKS]
TOUCHED = sorted({1 + p // 1024 for p in PICKS if p is not None})


def selected(answers, reads, steps=(TAKE,), room=9, failing=(), **members):
    row("select_file", [*answers, reads, reads], reader="MemoryBlocks", rows=3000, failing=list(failing),
        room=room, steps=list(steps), **members)


def broken(step, start, end, length):
    return f"Broken {{ step: {step}, cause: BadRange {{ start: {start}, end: {end}, len: {length} }} }}"


print("# blocks of files")
for k, n in enumerate(lengths(3000)):
    row("block_len", [n], **STEADY, rows=3000, at=k)
row("read_block", [list(header(2, 3000))], **STEADY, rows=3000, at=0)
for k, n in enumerate(lengths(0)):
    row("block_len", [n], **STEADY, rows=0, at=k)
row("read_block", [[7, 8, 9]], **STEADY, blocks=["070809"], at=0)

print("# headers")
GOOD = [(0, 0, "(U8, 0)"), (1, 258, "(U16, 258)"), (3, 2 ** 24, "(U64, 16777216)")]
BAD = [[header(3, 2 ** 24 + 1)], [header(4, 1)], [header(8, 1)], [header(0, 1, b"VXCOL002")],
       [header(0, 1, b"VXCOL0010")], [header(0, 1, b"VXCOL00")], []]
for kind, rows, shape in GOOD:
    row("open_file", [shape], **STEADY, blocks=[header(kind, rows).hex()], times=1)
for blocks in BAD:
    row("open_file", ["BadHeader"], **STEADY, blocks=[b.hex() for b in blocks], times=1)

print("# readers that fail")
row("open_file", ["ReadFault", "(U32, 9)", "[0, 0]", "[0, 0]"], reader="MemoryBlocks", rows=9, failing=[0], room=9,
    times=2)
row("reads", ["[]"], reader="no reader")
row("open_file", ["ReadFault", "(U32, 9)"], reader="Flaky", rows=9, times=2)

print("# rows of files, and the blocks that are read for them")
READS = [0] + TOUCHED
selected(TAKEN, READS)
selected(TAKEN, READS, empty=3)
selected(["Damaged { block: 2 }"], [0, 1, 2], empty=2)
selected(["ReadFault"], [0, 1], failing=[1])
selected(["ReadFault"], [0, 1, 2], failing=[2])
selected(TAKEN, READS, failing=[3])
selected(["u32", 2999], [0, 1 + 2999 // 1024], steps=[cut(2999, 3000)])
selected(["u32"], [0], steps=[cut(5, 5)])
selected([broken(0, 2999, 3001, 3000)], [0], steps=[cut(2999, 3001)])
selected([broken(2, 0, 3, 2)], [0], steps=[cut(1024, 2048), cut(3, 5), cut(0, 3)])
LEFT = list(range(3000))[1022:2050][1:1027][1024:1026]
selected(["u32", *LEFT], [0] + sorted({1 + p // 1024 for p in LEFT}),
         steps=[cut(1022, 2050), cut(1, 1027), cut(1024, 1026)])
selected(TAKEN, [0], room=1)
row("select_file", TAKEN, **STEADY, rows=3000, steps=[TAKE])
row("select_file", ["Damaged { block: 2 }"], **STEADY, rows=3000, empty=2, steps=[TAKE])
