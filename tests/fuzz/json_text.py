"""JSON texts, as `serde_json` reads them: bytes to a value, or none.

A value is None, a bool, an int, a `Fraction`, a str, a list or a dict.  Of two members of one name
the last one counts.  What Python's own reader takes and `serde_json` doesn't is refused here: half
of a surrogate pair, numbers past those of 64 bits that are too great for a float, brackets that
nest 128 deep, and the words NaN and Infinity.
"""
import re

DEEPEST = 127
BLANKS = re.compile(r'[ \t\n\r]*')
NUMBER = re.compile(r'-?(0|[1-9][0-9]*)(\.[0-9]+)?([eE][-+]?[0-9]+)?')
PLAIN = re.compile(r'[^"\\\x00-\x1f]*')
HEX4 = re.compile(r'[0-9a-fA-F]{4}')
WORDS = {'null': None, 'true': True, 'false': False}
ESCAPES = {'"': '"', '\\': '\\', '/': '/', 'b': '\b', 'f': '\f', 'n': '\n', 'r': '\r', 't': '\t'}


class NoValue(Exception):
    """The bytes spell no JSON value."""


class Fraction:
    """A number that is held as a float: written with a point or an exponent, or past 64 bits, or -0."""


def read(data):
    """The value that bytes spell."""
    try:
        text = data.decode('utf-8')
    except UnicodeDecodeError:
        raise NoValue('no UTF-8') from None
    value, at = value_at(text, after_blanks(text, 0), 0)
    if after_blanks(text, at) != len(text):
        raise NoValue('something behind the value')
    return value


def after_blanks(text, at):
    return BLANKS.match(text, at).end()


def value_at(text, at, depth):
    """The value that begins at a place, and where it ends."""
    first = text[at:at + 1]
    if first == '{':
        return object_at(text, at + 1, depth + 1)
    if first == '[':
        return list_at(text, at + 1, depth + 1)
    if first == '"':
        return text_at(text, at + 1)
    for word, value in WORDS.items():
        if text.startswith(word, at):
            return value, at + len(word)
    return number_at(text, at)


def list_at(text, at, depth):
    if depth > DEEPEST:
        raise NoValue('too deep')
    items = []
    at = after_blanks(text, at)
    if text[at:at + 1] == ']':
        return items, at + 1
    while True:
        item, at = value_at(text, after_blanks(text, at), depth)
        items.append(item)
        at = after_blanks(text, at)
        if text[at:at + 1] == ']':
            return items, at + 1
        at = past(text, at, ',')


def object_at(text, at, depth):
    if depth > DEEPEST:
        raise NoValue('too deep')
    members = {}
    at = after_blanks(text, at)
    if text[at:at + 1] == '}':
        return members, at + 1
    while True:
        at = past(text, after_blanks(text, at), '"')
        name, at = text_at(text, at)
        at = past(text, after_blanks(text, at), ':')
        members[name], at = value_at(text, after_blanks(text, at), depth)
        at = after_blanks(text, at)
        if text[at:at + 1] == '}':
            return members, at + 1
        at = past(text, at, ',')


def past(text, at, mark):
    if text[at:at + 1] != mark:
        raise NoValue(f'no {mark}')
    return at + 1


def text_at(text, at):
    """The text whose first character, behind the quotation mark, is at a place."""
    parts = []
    while True:
        plain = PLAIN.match(text, at)
        parts.append(plain.group())
        at = plain.end()
        mark = text[at:at + 1]
        if mark == '"':
            return ''.join(parts), at + 1
        if mark != '\\':
            raise NoValue('a text without an end, or a control character in it')
        part, at = escape_at(text, at + 1)
        parts.append(part)


def escape_at(text, at):
    mark = text[at:at + 1]
    if mark in ESCAPES:
        return ESCAPES[mark], at + 1
    if mark != 'u':
        raise NoValue('no such escape')
    unit, at = unit_at(text, at + 1)
    if not 0xd800 <= unit < 0xe000:
        return chr(unit), at
    if unit >= 0xdc00 or not text.startswith('\\u', at):
        raise NoValue('half of a pair')
    low, at = unit_at(text, at + 2)
    if not 0xdc00 <= low < 0xe000:
        raise NoValue('half of a pair')
    return chr(0x10000 + ((unit - 0xd800) << 10) + (low - 0xdc00)), at


def unit_at(text, at):
    digits = HEX4.match(text, at)
    if not digits:
        raise NoValue('no four digits')
    return int(digits.group(), 16), at + 4


def number_at(text, at):
    number = NUMBER.match(text, at)
    if not number:
        raise NoValue('no value')
    spelled = number.group()
    if number.group(2) is None and number.group(3) is None and spelled != '-0' and len(spelled) < 25:
        whole = int(spelled)
        if -2 ** 63 <= whole < 2 ** 64:
            return whole, number.end()
    if abs(float(spelled)) == float('inf'):
        raise NoValue('a number past those of a float')
    return Fraction(), number.end()
