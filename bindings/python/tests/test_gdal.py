"""Selects from layers of GDAL, which hands them over as Arrow streams (`OGR_L_GetArrowStream`), and
compares the rows with GDAL's own features, read one by one. Wants GDAL 3.6 and its Python module.
"""

import ctypes
import datetime
import os
import random
import unittest

from osgeo import gdal, ogr

from arrow_model import after, random_steps
from producer import Stream, capsule
from vortex_select import BrokenStep, Filter, Slice, Take, _native, select
from vortex_select.columns import column_over

LISTS = int(os.environ.get("VORTEX_GDAL_LISTS", "100"))
ROWS = 1_000
EPOCH = datetime.datetime(1970, 1, 1)
TEXTS = ("", "a", "Rome", "é", "\U0001f600", "a text of more than twelve bytes")


def loaded():
    with open("/proc/self/maps") as maps:
        return ctypes.CDLL(next(line.split()[-1] for line in maps if "/libgdal.so" in line))


open_stream = loaded().OGR_L_GetArrowStream
open_stream.restype = ctypes.c_bool
open_stream.argtypes = [ctypes.c_void_p, ctypes.c_void_p, ctypes.POINTER(ctypes.c_char_p)]


class Layer:
    """A layer, handed over in batches of so many features."""

    def __init__(self, layer, batch):
        self.layer, self.batch = layer, batch

    def __arrow_c_stream__(self, requested_schema=None):
        stream = Stream()
        said = (ctypes.c_char_p * 2)(f"MAX_FEATURES_IN_BATCH={self.batch}".encode(), None)
        if not open_stream(int(self.layer.this), ctypes.addressof(stream), said):
            raise ValueError(gdal.GetLastErrorMsg())
        return capsule(stream)


class Batch:
    """The first batch of a layer."""

    def __init__(self, layer):
        _, batches = _native.read_stream(layer.__arrow_c_stream__())
        self.column = column_over(batches[:1])

    def __arrow_c_array__(self, requested_schema=None):
        return self.column.__arrow_c_array__()


# A field's name, its type and subtype, a value, and how it is read from a feature.
def _days(feature, name):
    year, month, day, *_ = feature.GetFieldAsDateTime(name)
    return (datetime.datetime(year, month, day) - EPOCH).days


def _milliseconds(feature, name):
    _, _, _, hour, minute, second, _ = feature.GetFieldAsDateTime(name)
    return (hour * 60 + minute) * 60_000 + round(1000 * second)


def _moment(feature, name):
    return _days(feature, name) * 86_400_000 + _milliseconds(feature, name)


FIELDS = [
    ("flag", ogr.OFTInteger, ogr.OFSTBoolean, lambda d: d.randrange(2), lambda f, n: f.GetFieldAsInteger(n) == 1),
    ("short", ogr.OFTInteger, ogr.OFSTInt16, lambda d: d.randrange(-(2**15), 2**15), ogr.Feature.GetFieldAsInteger),
    ("whole", ogr.OFTInteger, 0, lambda d: d.randrange(-(2**31), 2**31), ogr.Feature.GetFieldAsInteger),
    ("long", ogr.OFTInteger64, 0, lambda d: d.randrange(-(2**63), 2**63), ogr.Feature.GetFieldAsInteger64),
    ("real", ogr.OFTReal, 0, lambda d: d.random(), ogr.Feature.GetFieldAsDouble),
    ("single", ogr.OFTReal, ogr.OFSTFloat32, lambda d: d.randrange(99) / 4, ogr.Feature.GetFieldAsDouble),
    ("text", ogr.OFTString, 0, lambda d: d.choice(TEXTS), ogr.Feature.GetFieldAsString),
    ("bytes", ogr.OFTBinary, 0, lambda d: bytes(d.randrange(256) for _ in range(1 + d.randrange(9))),
     lambda f, n: bytes(f.GetFieldAsBinary(n))),
    # GDAL 3.6 hands dates before 1970 over as the day after.
    ("day", ogr.OFTDate, 0, lambda d: f"{d.randrange(1971, 2100)}/{d.randrange(1, 13):02}/{d.randrange(1, 29):02}", _days),
    ("time", ogr.OFTTime, 0, lambda d: f"{d.randrange(24):02}:{d.randrange(60):02}:{d.randrange(60):02}", _milliseconds),
    ("moment", ogr.OFTDateTime, 0, lambda d: f"{d.randrange(1900, 2100)}/03/{d.randrange(1, 29):02} 07:{d.randrange(60):02}:09", _moment),
    ("wholes", ogr.OFTIntegerList, 0, lambda d: [d.randrange(99) for _ in range(1 + d.randrange(4))],
     lambda f, n: f.GetFieldAsIntegerList(f.GetFieldIndex(n))),
    ("longs", ogr.OFTInteger64List, 0, lambda d: [d.randrange(2**40) for _ in range(1 + d.randrange(4))],
     lambda f, n: f.GetFieldAsInteger64List(f.GetFieldIndex(n))),
    ("reals", ogr.OFTRealList, 0, lambda d: [d.random() for _ in range(1 + d.randrange(4))],
     lambda f, n: f.GetFieldAsDoubleList(f.GetFieldIndex(n))),
    ("texts", ogr.OFTStringList, 0, lambda d: [d.choice(TEXTS) for _ in range(1 + d.randrange(4))],
     lambda f, n: f.GetFieldAsStringList(f.GetFieldIndex(n))),
]


def _set(feature, name, kind, value):
    place = feature.GetFieldIndex(name)
    if kind == ogr.OFTBinary:
        feature.SetFieldBinaryFromHexString(place, value.hex())
        return
    setters = {
        ogr.OFTInteger64: feature.SetFieldInteger64,
        ogr.OFTIntegerList: feature.SetFieldIntegerList,
        ogr.OFTInteger64List: feature.SetFieldInteger64List,
        ogr.OFTRealList: feature.SetFieldDoubleList,
        ogr.OFTStringList: feature.SetFieldStringList,
    }
    setters.get(kind, feature.SetField)(place, value)


def _made():
    """A layer in memory, and the data source that it lives in."""
    dice = random.Random(6)
    source = ogr.GetDriverByName("Memory").CreateDataSource("")
    layer = source.CreateLayer("people", None, ogr.wkbNone)
    for name, kind, subtype, _, _ in FIELDS:
        field = ogr.FieldDefn(name, kind)
        field.SetSubType(subtype)
        layer.CreateField(field)
    for _ in range(ROWS):
        feature = ogr.Feature(layer.GetLayerDefn())
        for name, kind, _, value, _ in FIELDS:
            if dice.random() < 0.2:
                feature.SetFieldNull(name)
            else:
                _set(feature, name, kind, value(dice))
        layer.CreateFeature(feature)
    return source, layer


def _features(layer):
    """The rows, as GDAL's features have them."""
    layer.ResetReading()
    for feature in layer:
        row = {"OGC_FID": feature.GetFID()}
        for name, _, _, _, read in FIELDS:
            is_there = feature.IsFieldSetAndNotNull(feature.GetFieldIndex(name))
            row[name] = read(feature, name) if is_there else None
        yield row


class Gdal(unittest.TestCase):
    @classmethod
    def setUpClass(cls):
        gdal.UseExceptions()
        cls.source, cls.layer = _made()
        cls.rows = list(_features(cls.layer))

    def agrees(self, source, rows, steps, said):
        wanted, broken = after(rows, said)
        try:
            found = select(source, steps)
        except BrokenStep as why:
            self.assertEqual((why.step, why.cause), broken)
            return
        self.assertIsNone(broken)
        self.assertEqual(found.to_pylist(), wanted)

    def test_type(self):
        made = select(Layer(self.layer, 100), [Slice(0, 1)])
        self.assertIn("texts: list<utf8>", made.type)
        self.assertIn("moment: timestamp[ms]", made.type)

    def test_all_rows(self):
        self.assertEqual(len(self.rows), ROWS)
        self.agrees(Layer(self.layer, 300), self.rows, [], [])

    def test_layers(self):
        """The steps go over all batches, end to end."""
        for seed in range(LISTS):
            dice = random.Random(seed)
            steps, said = random_steps(dice, ROWS)
            self.agrees(Layer(self.layer, dice.choice([1, 64, 300, 1000])), self.rows, steps, said)

    def test_batches(self):
        batch = Batch(Layer(self.layer, 200))
        for seed in range(LISTS):
            steps, said = random_steps(random.Random(-1 - seed), 200)
            self.agrees(batch, self.rows[:200], steps, said)

    def test_masks(self):
        """A column of GDAL's own as the mask."""
        flags = select(_Field(self.layer, "flag"), [])
        wanted = [row for row in self.rows if row["flag"]]
        self.assertEqual(select(Layer(self.layer, 1000), [Filter(flags)]).to_pylist(), wanted)
        self.assertEqual(len(select(flags, [Take([0, None])])), 2)


class _Field:
    """One field of the first batch of a layer."""

    def __init__(self, layer, name):
        self.batch, self.name = Batch(Layer(layer, ROWS)), name

    def __arrow_c_array__(self, requested_schema=None):
        array = self.batch.column._chunks[0]
        names = [child.name for child in array.node.children]
        return array.split()[names.index(self.name)].capsules()


if __name__ == "__main__":
    unittest.main()
