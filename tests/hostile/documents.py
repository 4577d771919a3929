"""What a family of hostile documents is made of."""
import json
from dataclasses import dataclass
from typing import Callable

MIB = 1 << 20
# As many bytes as a document may have, and as many rows as a length in it may state.
MOST_BYTES = 16 * MIB
MOST_ROWS = 16 * MIB


@dataclass
class Document:
    """A document, and what the program must do with it."""

    name: str
    # Makes the document: a text, bytes, or an object that is spelled as JSON.
    make: Callable[[], object]
    words: str = 'rows'
    status: int = 0
    # Most seconds of the processor, and most MiB of memory.
    seconds: float = 5
    mib: int = 512
    # How many bytes are printed, where it is known, and which stand in front and at the end.
    printed: int | None = None
    front: bytes = b''
    back: bytes = b''

    def bytes(self):
        made = self.make()
        if isinstance(made, (bytes, bytearray)):
            return made
        return (made if isinstance(made, str) else spelled(made)).encode()


def spelled(value):
    """The shortest JSON text of a value."""
    return json.dumps(value, separators=(',', ':'))


def filled(front, item, back, size=MOST_BYTES):
    """`front`, as many items between commas as there is room for, `back`, and blanks up to `size`."""
    count = (size - len(front) - len(back) + 1) // (len(item) + 1)
    text = front + ','.join([item] * count) + back
    return text + ' ' * (size - len(text))
