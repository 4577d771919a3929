"""The whole program over memory, by its arguments and its standard input."""

from __future__ import annotations

from typing import TYPE_CHECKING, NamedTuple, Sequence

from . import _native
from ._buffers import view_of

if TYPE_CHECKING:
    from _typeshed import ReadableBuffer as Buffer

__all__ = ["Answer", "file", "made", "page", "rows", "run"]


class Answer(NamedTuple):
    """The result of the program.

    Attributes:
        status: The exit status: 0 done; 1 a step is invalid; 2 the document is invalid; 3 the
            arguments are invalid. It is 6 if memory ran out or the text would be too long. It is 7
            if the document has more than 16,777,216 bytes.
        text: The rows at status 0, the line of the invalid step at status 1, and else nothing.
    """

    status: int
    text: bytes


def run(words: Sequence[str], document: Buffer = b"") -> Answer:
    """Run the program with these arguments, and the document as its standard input.

    Args:
        words: The subcommand and its arguments.
        document: The bytes of the document.

    Raises:
        NotImplementedError: The module was built without the program.
        TypeError: An argument isn't a string, or the document isn't bytes.

    >>> run(["made", "7"]).text
    b'made 7 rows 500 nulls 45 sum 512344210835\\n'
    """
    if not _native.HAS_PROGRAM:
        raise NotImplementedError("expected a build with the program, got one without it")
    if isinstance(words, str):
        raise TypeError(f"words: expected a list of strings, got {words!r:.80}")
    for word in words:
        if not isinstance(word, str):
            raise TypeError(f"words: expected a list of strings, got {word!r:.80} in it")
    if any("\0" in word for word in words):
        return Answer(3, b"")
    # A copy, since no other thread may write to what is read.
    return Answer(*_native.program(list(words), bytes(view_of(document, "document"))))


def rows(document: Buffer) -> Answer:
    """Return the rows that a document asks for.

    Args:
        document: The bytes of the document.

    Raises:
        NotImplementedError: The module was built without the program.

    >>> column = b'{"layout":"Primitive","type":"u8","values":[5,6,7]}'
    >>> rows(b'{"column":%s,"steps":[{"slice":[1,3]}]}' % column)
    Answer(status=0, text=b'u8\\n6\\n7\\n')
    """
    return run(["rows"], document)


def page(number: int, length: int, document: Buffer) -> Answer:
    """Return a page of the table that a document asks for.

    Args:
        number: The number of the page, from 0.
        length: How many rows a page has.
        document: The bytes of the document. Its column is of structs, whose type has no null.

    Raises:
        NotImplementedError: The module was built without the program.

    >>> ids = b'{"layout":"Primitive","type":"u8","values":[5,6,7]}'
    >>> column = b'{"layout":"Struct","len":3,"names":["id"],"fields":[%s]}' % ids
    >>> page(1, 2, b'{"column":%s,"steps":[]}' % column).status
    0
    """
    return run(["page", str(number), str(length)], document)


def file(document: Buffer) -> Answer:
    """Return the rows that a document asks for of a file that it holds.

    Args:
        document: The bytes of the document, in which the blocks of the file are hexadecimal.

    Raises:
        NotImplementedError: The module was built without the program.

    >>> file(b'{"file":["00"],"steps":[]}').status
    2
    """
    return run(["file"], document)


def made(seed: int) -> Answer:
    """Return the line that sums up the rows made from a seed.

    Args:
        seed: A number from 0 to 2^32 - 1.

    Raises:
        NotImplementedError: The module was built without the program.

    >>> made(7).text
    b'made 7 rows 500 nulls 45 sum 512344210835\\n'
    """
    return run(["made", str(seed)])
