"""Tests the message of the program: its form, and that its place is one of the document."""
import json
import re

STEP = re.compile(
    rb'rows: step \d+: (BadRange: slice \d+\.\.\d+(, but \d+ rows?| starts after its end)'
    rb'|BadMask: mask of length \d+, but \d+ rows?|OutOfBounds: index -?\d+, but \d+ rows?'
    rb'|(NotBool|InvalidIndices|BadPieces): expected .+) \(status 1\)\n')
PLACE = r'the document|line \d+, column \d+|\w+(?:\[\d+\]|\.\w+)*'
DOCUMENT = re.compile(rf'rows: invalid document: ({PLACE}): expected .+, got .+ \(status 2\)\n', re.S)


def is_place(place, data):
    """Return whether a place is one of the document that some bytes are."""
    if place[:5] in ('line ', 'the d'):
        return True
    value = json.loads(data)
    for name, number in re.findall(r'(\w+)|\[(\d+)\]', place):
        try:
            value = value[int(number)] if number else value[name]
        except (KeyError, IndexError, TypeError):
            return False
    return True


def is_right(status, data, message):
    """Return whether a message is one of a status, and its place is there."""
    if status == 1:
        return bool(STEP.fullmatch(message))
    if status != 2:
        return (message == b'') == (status == 0)
    found = DOCUMENT.fullmatch(message.decode('utf-8', 'replace'))
    return bool(found) and is_place(found.group(1), data)
