"""Types of columns: by name, such as `list<utf8>`, and as the format strings of Arrow."""

from __future__ import annotations

import difflib
import re
from typing import List, NamedTuple, Optional, Sequence, Tuple

_FLAT = {
    "null": "n",
    "bool": "b",
    "int8": "c",
    "uint8": "C",
    "int16": "s",
    "uint16": "S",
    "int32": "i",
    "uint32": "I",
    "int64": "l",
    "uint64": "L",
    "float16": "e",
    "float32": "f",
    "float64": "g",
    "utf8": "u",
    "large_utf8": "U",
    "binary": "z",
    "large_binary": "Z",
    "utf8_view": "vu",
    "binary_view": "vz",
    "date32": "tdD",
    "date64": "tdm",
    "time32[s]": "tts",
    "time32[ms]": "ttm",
    "time64[us]": "ttu",
    "time64[ns]": "ttn",
    "duration[s]": "tDs",
    "duration[ms]": "tDm",
    "duration[us]": "tDu",
    "duration[ns]": "tDn",
    "interval[months]": "tiM",
    "interval[days]": "tiD",
    "interval[nanoseconds]": "tin",
}
_NAMES = {form: name for name, form in _FLAT.items()}
_UNITS = {"s": "s", "ms": "m", "us": "u", "ns": "n"}
_LISTS = {"list": "+l", "large_list": "+L", "list_view": "+vl", "large_list_view": "+vL"}
_INDICES = "cCsSiIlL"
# How deep types may be nested, dictionaries counted, as in the C library.
LEVELS = 64


class Type(NamedTuple):
    """A format, the names and types of the children, and the type of a dictionary's values."""

    format: str
    children: Tuple[Tuple[str, Type], ...] = ()
    dictionary: Optional[Type] = None

    def __str__(self) -> str:
        return spelled(self)


def decimal_of(form: str) -> Tuple[int, int, int]:
    """Return the precision, the scale and the bits of a decimal's format."""
    precision, scale, *bits = map(int, form[2:].split(","))
    return precision, scale, bits[0] if bits else 128


def ids_of(form: str) -> bytes:
    """Return the type ids that the format of a union lists, a byte each."""
    return bytes(int(number) for number in form[4:].split(",") if number)


def _first_ids(children: Sequence[Tuple[str, Type]]) -> str:
    """Return the type ids of a union's children where a type lists none."""
    return ",".join(map(str, range(len(children))))


def _spelled_nested(of: Type) -> str:
    form, inner = of.format, [spelled(child) for _, child in of.children]
    named = ", ".join(f"{name}: {text}" for (name, _), text in zip(of.children, inner))
    for name, nested in _LISTS.items():
        if form == nested:
            return f"{name}<{inner[0]}>"
    if form.startswith("+w:"):
        return f"fixed_size_list<{inner[0]}, {form[3:]}>"
    if form == "+m":
        return f"map<{', '.join(spelled(child) for _, child in of.children[0][1].children)}>"
    if form == "+s":
        return f"struct<{named}>"
    if form[:4] in ("+us:", "+ud:"):
        ids = form[4:]
        listed = "" if ids == _first_ids(of.children) else f"[{ids}]"
        return f"{'sparse' if form[2] == 's' else 'dense'}_union{listed}<{named}>"
    return form


def spelled(of: Type) -> str:
    """Return the name of a type.

    >>> spelled(Type("+l", (("item", Type("u")),)))
    'list<utf8>'
    """
    form = of.format
    if of.dictionary is not None:
        return f"dictionary<{_NAMES.get(form, form)}, {spelled(of.dictionary)}>"
    if form[:1] == "+":
        return _spelled_nested(of)
    if form[:2] == "w:":
        return f"fixed_size_binary({form[2:]})"
    if form[:2] == "d:":
        precision, scale, bits = decimal_of(form)
        return f"decimal{bits}({precision}, {scale})"
    if form[:2] == "ts" and form[3:4] == ":":
        unit = next((name for name, letter in _UNITS.items() if letter == form[2]), form[2])
        return f"timestamp[{unit}{', ' + form[4:] if form[4:] else ''}]"
    return _NAMES.get(form, form)


# What other libraries call a type.
_OTHER_NAMES = {
    "string": "utf8", "str": "utf8", "large_string": "large_utf8", "string_view": "utf8_view",
    "bytes": "binary", "boolean": "bool", "int": "int64", "integer": "int64", "long": "int64",
    "float": "float64", "double": "float64", "half": "float16", "half_float": "float16",
    "date": "date32", "datetime": "timestamp[us]", "timestamp": "timestamp[us]",
    "time": "time64[us]", "duration": "duration[us]", "decimal": "decimal128(38, 0)",
    "none": "null", "array": "list", "fixed_list": "fixed_size_list", "dict": "dictionary",
    "union": "dense_union",
}
# Names that have types of children behind them.
_NESTED = [*_LISTS, "fixed_size_list", "map", "struct", "dictionary", "sparse_union", "dense_union"]
_WORDS = [*_FLAT, *_NESTED, "timestamp[us]", "decimal128(38, 0)", "fixed_size_binary(16)"]


def alike(word: str) -> str:
    """Return the name of a type that is most like a word, or an empty string.

    >>> alike("string"), alike("Int8"), alike("utf-8"), alike("thing")
    ('utf8', 'int8', 'utf8', '')
    """
    word = word.lower()
    if word in _OTHER_NAMES:
        return _OTHER_NAMES[word]
    return next(iter(difflib.get_close_matches(word, _WORDS, 1, 0.75)), "")


# A word, with the unit or the numbers behind it.
_WORD = re.compile(r"\s*([a-z_0-9]+(\[[^\]]*\]|\([^)]*\))?)")
_OTHER_WORD = re.compile(r"\s*([^<>,:\s]+)")


class _Parser:
    """Reads a type from a text, from the left."""

    def __init__(self, text: str):
        self.text, self.at, self.level = text, 0, 0

    def fault(self, expected: str) -> ValueError:
        """Return the exception of a text that has something else at this position."""
        rest = self.text[self.at :].lstrip()[:20]
        found = repr(rest) if rest else "the end"
        where = f"type {self.text[:80]!r}, position {self.at}"
        return ValueError(f"{where}: expected {expected}, got {found}")

    def unknown(self, start: int) -> ValueError:
        """Return the exception of a word from a position on that isn't a type."""
        word = _WORD.match(self.text, start) or _OTHER_WORD.match(self.text, start)
        self.at = start
        if word is None or len(word.group(1)) > 40:
            return self.fault("a type")
        found = word.group(1)
        if found in _NESTED:
            self.at = word.end()
            return self.fault("'<'")
        where = "" if found == self.text else f"type {self.text[:80]!r}, position {start}: "
        like = alike(found)
        hint = f"; did you mean {like}?" if like else ""
        return ValueError(f"{where}unknown type {found!r}{hint}")

    def is_next(self, mark: str) -> bool:
        while self.text[self.at : self.at + 1].isspace():
            self.at += 1
        found = self.text.startswith(mark, self.at)
        self.at += len(mark) if found else 0
        return found

    def need(self, mark: str) -> None:
        if not self.is_next(mark):
            raise self.fault(repr(mark))

    def number(self) -> int:
        found = re.compile(r"\s*([0-9]+)").match(self.text, self.at)
        if not found:
            raise self.fault("a number")
        self.at = found.end()
        return int(found.group(1))

    def type(self) -> Type:
        self.level += 1
        if self.level > LEVELS:
            raise ValueError(f"type: expected at most {LEVELS} levels, got more")
        found = self.type_here()
        self.level -= 1
        return found

    def type_here(self) -> Type:
        start, found = self.at, _WORD.match(self.text, self.at)
        if not found:
            raise self.unknown(start)
        word, self.at = found.group(1), found.end()
        if word in _FLAT:
            return Type(_FLAT[word])
        if self.is_next("<"):
            return self.nested(word, start)
        form = self.format(word)
        if form is None:
            raise self.unknown(start)
        return Type(form)

    def format(self, word: str) -> Optional[str]:
        """Return the format of a type that has numbers or a unit, or `None` for another word."""
        found = re.match(r"decimal(32|64|128|256)\(([0-9]+),\s*(-?[0-9]+)\)$", word)
        if found:
            bits, precision, scale = found.groups()
            return f"d:{precision},{scale}" + ("" if bits == "128" else "," + bits)
        found = re.match(r"fixed_size_binary\(([0-9]+)\)$", word)
        if found:
            return "w:" + found.group(1)
        found = re.match(r"timestamp\[(s|ms|us|ns)(?:,\s*(.*))?\]$", word)
        if found:
            return f"ts{_UNITS[found.group(1)]}:{found.group(2) or ''}"
        return None

    def nested(self, word: str, start: int) -> Type:
        if word == "struct":
            return Type("+s", self.fields())
        found = re.match(r"(sparse|dense)_union(?:\[([0-9]+(?:,[0-9]+)*)\])?$", word)
        if found:
            children = self.fields()
            return Type(f"+u{word[0]}:{found.group(2) or _first_ids(children)}", children)
        if word not in (*_LISTS, "fixed_size_list", "map", "dictionary"):
            raise self.unknown(start)
        at, inner = self.at, self.type()
        if word in _LISTS:
            made = Type(_LISTS[word], (("item", inner),))
        elif word == "fixed_size_list":
            self.need(",")
            made = Type(f"+w:{self.number()}", (("item", inner),))
        else:
            self.need(",")
            made = self.pair(word, inner, at)
        self.need(">")
        return made

    def pair(self, word: str, first: Type, at: int) -> Type:
        """Return a map or a dictionary, given its first type, which is at a position."""
        second = self.type()
        if word == "map":
            return Type("+m", (("entries", Type("+s", (("key", first), ("value", second)))),))
        if first.format not in _INDICES or first.dictionary:
            self.at = at
            raise self.fault("an integer type")
        return Type(first.format, (), second)

    def fields(self) -> Tuple[Tuple[str, Type], ...]:
        fields: List[Tuple[str, Type]] = []
        while not self.is_next(">"):
            if fields:
                self.need(",")
            found = re.compile(r"\s*([^:<>,]*?)\s*:").match(self.text, self.at)
            if not found:
                raise self.fault("a name and a colon")
            self.at = found.end()
            fields.append((found.group(1), self.type()))
        return tuple(fields)


def type_of(text: str) -> Type:
    """Return the type of a name.

    Raises:
        ValueError: The name isn't known. The exception has the position of the fault.

    >>> type_of("struct<id: int64, tags: list<utf8>>").children[0]
    ('id', Type(format='l', children=(), dictionary=None))
    """
    parser = _Parser(text)
    found = parser.type()
    if not parser.is_next("") or parser.at != len(text):
        raise parser.fault("the end")
    return found
