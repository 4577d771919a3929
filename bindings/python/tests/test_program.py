"""Compares what steps leave of a column in memory with what the program answers to the same column and
steps as a document.
"""

import decimal
import json
import os
import random
import unittest

import vortex_select
from arrow_model import Layout, after, random_row, random_steps, random_type, wrapped
from arrow_model import _data
from vortex_select import BrokenStep, select
from vortex_select._types import decimal_of


CALLS = int(os.environ.get("VORTEX_ARROW_CALLS", "3000"))
WHOLE = dict(zip("CSILcsil", "u8 u16 u32 u64 i8 i16 i32 i64".split()))
FLOATS = {"e": "f16", "f": "f32", "g": "f64"}
TEXTS = {"u": "utf8", "U": "utf8", "vu": "utf8", "z": "binary", "Z": "binary", "vz": "binary"}
SOME = {"b": False, "u": "", "U": "", "vu": "", "z": b"", "Z": b"", "vz": b""}


def is_known(of):
    """Whether documents have such columns."""
    form = of.format
    if of.dictionary is not None:
        return is_known(of.dictionary)
    if form[0] == "+":
        return form[:2] in ("+s", "+l", "+L", "+w", "+v", "+m") and all(is_known(child) for _, child in of.children)
    return form in WHOLE or form in FLOATS or form in TEXTS or form == "b" or form[:2] == "d:"


def some(of):
    """A row of the type that isn't null."""
    form = of.format
    if form == "+s":
        return {name: None for name, _ in of.children}
    if form[:2] == "+w":
        return [None] * int(form[3:])
    if form[:2] == "d:":
        return decimal.Decimal(0)
    return [] if form[0] == "+" else SOME.get(form, 0)


def values_of(of, rows):
    """The members of a column of values."""
    form = of.format
    if form == "b":
        return {"layout": "Bool", "values": rows}
    if form in WHOLE:
        return {"layout": "Primitive", "type": WHOLE[form], "values": rows}
    if form in TEXTS:
        values = rows if form[-1] in "uU" else [row.hex() for row in rows]
        layout = "VarBinView" if form[0] == "v" else "VarBin"
        return {"layout": layout, "type": TEXTS[form], "values": values}
    data = _data(of, rows)
    width = len(data) // len(rows) if rows else 1
    values = [data[at : at + width].hex() for at in range(0, len(data), width)]
    if form in FLOATS:
        return {"layout": "Primitive", "type": FLOATS[form], "values": values}
    precision, scale, bits = decimal_of(form)
    return {"layout": "Decimal", "precision": precision, "scale": scale, "width": bits // 8, "values": values}


def lists_of(of, rows):
    """The members of a column of lists, whose elements stand end to end."""
    items, ends = [], [0]
    for row in rows:
        items += row
        ends.append(len(items))
    elements = document_of(of.children[0][1], items)
    if of.format[:2] == "+w":
        return {"layout": "FixedSizeList", "size": int(of.format[3:]), "len": len(rows), "elements": elements}
    if of.format[:2] == "+v":
        sizes = list(map(len, rows))
        return {"layout": "ListView", "offsets": ends[:-1], "sizes": sizes, "elements": elements}
    return {"layout": "List", "offsets": ends, "elements": elements}


def maps_of(of, rows, valid):
    """A column of maps, of which a null is one of its list views."""
    pair = of.children[0][1]
    (key, of_key), (value, of_value) = pair.children
    items = [item for row in rows for item in row]
    fields = [[item[k] for item in items] for k in (0, 1)]
    entries = {
        "layout": "Struct",
        "len": len(items),
        "names": [key, value],
        "fields": [{**document_of(of_key, fields[0]), "validity": "NonNullable"}, document_of(of_value, fields[1])],
    }
    starts, sizes = [], list(map(len, rows))
    for size in sizes:
        starts.append(starts[-1] + sizes[len(starts) - 1] if starts else 0)
    views = {"layout": "ListView", "offsets": starts, "sizes": sizes, "elements": entries, "validity": valid}
    return {"layout": "Map", "entries": views}


def document_of(of, rows):
    """The column of these rows, all of whose types are nullable, as a document has it."""
    if of.dictionary is not None:
        return document_of(of.dictionary, rows)
    valid = [row is not None for row in rows]
    rows = [some(of) if row is None else row for row in rows]
    if of.format == "+m":
        return maps_of(of, rows, valid)
    if of.format == "+s":
        fields = [document_of(child, [row[name] for row in rows]) for name, child in of.children]
        made = {"layout": "Struct", "len": len(rows), "names": [name for name, _ in of.children], "fields": fields}
    else:
        made = lists_of(of, rows) if of.format[0] == "+" else values_of(of, rows)
    return {**made, "validity": valid}


def step_of(kind, said):
    """A step as a document has it, or none where it has none such."""
    if kind == "filter":
        return {"filter": "".join("01"[kept] for kept in said[0])}
    if kind == "slice":
        return {"slice": said} if all(0 <= bound < 2**64 for bound in said) else None
    fits = all(index is None or -(2**63) <= index < 2**63 for index in said[0])
    return {"take": said[0]} if fits else None


@unittest.skipUnless(vortex_select._native.HAS_PROGRAM, "the library of the program isn't linked")
class SameRows(unittest.TestCase):
    def printed(self, of, rows, steps):
        document = {"column": document_of(of, rows), "steps": steps}
        return vortex_select.program.rows(json.dumps(document).encode())

    def agrees(self, dice, of, seed):
        rows = [random_row(dice, of) for _ in range(dice.choice([0, 1, 8, dice.randrange(30)]))]
        steps, said = random_steps(dice, len(rows))
        spelled = [step_of(kind, list(rest)) for kind, *rest in said]
        if None in spelled:
            return False
        text = self.printed(of, rows, spelled)
        try:
            found = select(wrapped(of, Layout(dice).array(of, rows)), steps)
        except BrokenStep as why:
            line = b"step %d: %s" % (why.step, why.cause.encode())
            self.assertEqual((text.status, text.text[: len(line)]), (1, line), seed)
            self.assertEqual(after(rows, said)[1], (why.step, why.cause), seed)
            return True
        self.assertEqual(text.status, 0, seed)
        self.assertEqual(self.printed(of, found.to_pylist(), []), text, seed)
        return True

    def test_random_columns(self):
        """What the program prints of a select's rows is what it prints after the same steps of its own."""
        tried = 0
        for seed in range(CALLS):
            dice = random.Random(seed)
            of = random_type(dice, dice.randrange(4))
            tried += is_known(of) and self.agrees(dice, of, seed)
        self.assertGreater(tried, CALLS // 5)


if __name__ == "__main__":
    unittest.main()
