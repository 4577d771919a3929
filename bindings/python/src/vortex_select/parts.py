"""Selection over a table in parts, each of which is read where it is.

`select_parts` plans the steps by the lengths of the parts. A backend then has each part do its own
steps, and the results are put together. A backend is `map` or a function like it, `Processes`, or
a client of Dask. A worker gets a part, its steps, and functions of modules, which pickle. It sends
the rows that are left; with `write_parts` it writes them to a file and sends the path.
"""

from __future__ import annotations

import collections
import multiprocessing
import multiprocessing.connection
import os
import pickle
import struct
from typing import Any, Callable, Dict, Iterable, List, NamedTuple, Optional, Sequence, Tuple

from ._files import mapped, read_column, read_npy, write_column
from ._arrays import Field
from ._joining import difference
from ._plans import HeldFilter, Plan, plan, put_together
from ._sources import chosen, source_of
from ._steps import BrokenStep
from .columns import Column, select

__all__ = [
    "DamagedPart",
    "LostPart",
    "Processes",
    "Written",
    "load",
    "read_column",
    "select_parts",
    "write_column",
    "write_parts",
]


class DamagedPart(Exception):
    """A part can't be read, or is unlike its description.

    Attributes:
        part: The part's path, or its type.
        why: What was found.
    """

    def __init__(self, part: str, why: str):
        super().__init__(part, why)
        self.part, self.why = part, why

    def __str__(self) -> str:
        return f"part {self.part}: {self.why}"


class LostPart(Exception):
    """The processes that were asked for a part ended each time.

    Attributes:
        number: The number of the part.
        tries: How many processes were asked.
    """

    def __init__(self, number: int, tries: int):
        super().__init__(number, tries)
        self.number, self.tries = number, tries

    def __str__(self) -> str:
        return f"part {self.number}: {self.tries} processes ended before they returned"


def _is_npy(part: Any) -> bool:
    return os.fsdecode(part).endswith(".npy")


def load(part: Any) -> Any:
    """Return the rows of a part.

    Args:
        part: An object with `__arrow_c_array__`, which is returned; the path of an `.npy` file; or
            the path of a file of `write_column`.
    """
    if hasattr(part, "__arrow_c_array__"):
        return part
    return read_npy(part) if _is_npy(part) else read_column(part)


# What a worker does.


class Task(NamedTuple):
    """What a part is asked.

    Attributes:
        part: The part, as the caller gave it.
        load: The function that returns the part's rows.
        columns: Of a struct, the fields that are read.
        trusted: Whether the contents of a file are believed.
        rows: How many rows the part has, if that was said.
        steps: The steps over its rows, or `None` if the part is asked for its head alone.
        path: A file for the rows that the steps leave.
    """

    part: Any
    load: Callable[[Any], Any]
    columns: Optional[Sequence[str]] = None
    trusted: bool = False
    rows: Optional[int] = None
    steps: Optional[Sequence[Any]] = None
    path: Optional[str] = None


class Done(NamedTuple):
    """What a part returns: how many rows it has, their type, and what its steps leave of them.

    The result is a column, or the path of a file that holds it, or `None` if no steps were given.
    """

    rows: int
    field: Field
    result: Any = None


class _Opened:
    """A part's rows, of which at first the head alone is read where that is possible."""

    def __init__(self, task: Task):
        part, self._columns, self._trusted = task.part, task.columns, task.trusted
        self._mapped = None
        if task.load is load and not hasattr(part, "__arrow_c_array__") and not _is_npy(part):
            self._mapped = mapped(part, task.columns)
            self.rows, self.field = self._mapped.node.length, self._mapped.field
            return
        self._source = task.load(part)
        if task.columns is not None:
            self._source = chosen(self._source, task.columns)
        source = source_of(self._source)
        self.rows, self.field = len(source), source.field

    def column(self) -> Any:
        """Return the rows."""
        return self._source if self._mapped is None else self._mapped.column(self._trusted)


def _selected(column: Any, steps: Sequence[Any]) -> Column:
    """Return what steps leave of a column. Among them may be filters by the part's own masks."""
    before: List[Any] = []
    for step in steps:
        if not isinstance(step, HeldFilter):
            before.append(step)
            continue
        column, before = step.after(select(column, before)), []
    return select(column, before)


def name_of(part: Any) -> str:
    """Return how messages name a part: by its path, or by its type."""
    is_path = isinstance(part, (str, bytes, os.PathLike))
    return os.fsdecode(part) if is_path else f"of type {type(part).__name__}"


# What fails where a part isn't as it must be.
_OF_A_PART = (OSError, EOFError, ValueError, TypeError, OverflowError, LookupError, struct.error)


def _work(task: Task) -> Done:
    part = _Opened(task)
    if task.rows is not None and part.rows != task.rows:
        raise ValueError(f"expected {task.rows} rows, got {part.rows}")
    result = None if task.steps is None else _selected(part.column(), task.steps)
    return Done(part.rows, part.field, result)


def done(task: Task) -> Done:
    """Do a part's task, where the part is.

    A file of the result is there whole or not at all, also if two workers write it. A worker that
    is killed may leave a file with a longer name.

    Raises:
        DamagedPart: The part can't be read, or is unlike its description.
    """
    try:
        found = _work(task)
    except DamagedPart:
        raise
    except _OF_A_PART as why:
        raise DamagedPart(name_of(task.part), f"{type(why).__name__}: {why}") from None
    except (BrokenStep, SyntaxError) as why:
        raise DamagedPart(name_of(task.part), f"unlike its description: {why}") from None
    if task.path is None:
        return found
    write_column(task.path, found.result)
    return found._replace(result=task.path)


# Backends.


def _serve(link: Any) -> None:
    """Do one task after another, in a process of its own."""
    while True:
        try:
            function, task = link.recv()
        except EOFError:
            return
        said = _said_of(function, task)
        try:
            link.send(said)
        except (TypeError, AttributeError, pickle.PicklingError) as why:
            text = f"the result {said[1]!r:.200} doesn't pickle: {why}"
            link.send((False, RuntimeError(text)))


def _said_of(function: Callable[[Any], Any], task: Any) -> Tuple[bool, Any]:
    try:
        return True, function(task)
    except Exception as why:
        return False, why


class Processes:
    """Processes of this machine, each of which does one task at a time.

        with Processes(4) as pool:
            select_parts(pool, paths, steps)

    Args:
        count: How many processes run at most.
        tries: How many processes a task is given to at most. A task is given to another process if
            its process ends before it is done.
    """

    def __init__(self, count: int, tries: int = 3):
        if count < 1 or tries < 1:
            found = f"{count} and {tries}"
            raise ValueError(f"expected at least one process and one try, got {found}")
        self.count, self.tries = count, tries
        self._context = multiprocessing.get_context("spawn")
        self._idle: List[Any] = []
        self._busy: Dict[Any, Any] = {}

    def __enter__(self) -> Processes:
        return self

    def __exit__(self, *_: Any) -> None:
        for link, process in [*self._idle, *((link, at[0]) for link, at in self._busy.items())]:
            link.close()
            process.terminate()
            process.join()
        self._idle, self._busy = [], {}

    def _started(self) -> Tuple[Any, Any]:
        here, there = self._context.Pipe()
        process = self._context.Process(target=_serve, args=(there,), daemon=True)
        process.start()
        there.close()
        return here, process

    def _give(self, function: Callable[[Any], Any], number: int, task: Any) -> None:
        """Give a task to an idle process, or to a new one."""
        link, process = self._idle.pop() if self._idle else self._started()
        self._busy[link] = process, number
        try:
            link.send((function, task))
        except (BrokenPipeError, ConnectionResetError):
            pass  # The process has ended. Its link says so when it is read.

    def _heard(self, link: Any) -> Tuple[int, Optional[Tuple[bool, Any]]]:
        """Return the number of a link's task, and the result, or `None` if the process ended."""
        process, number = self._busy.pop(link)
        try:
            said = link.recv()
        except (EOFError, ConnectionResetError):
            link.close()
            process.join()
            return number, None
        self._idle.append((link, process))
        return number, said

    def map(self, function: Callable[[Any], Any], tasks: Iterable[Any]) -> List[Any]:
        """Return the results of a function over tasks, in their order.

        Raises:
            LostPart: The processes that a task was given to ended.
            Exception: The function failed. Then all processes are ended.
        """
        tasks = list(tasks)
        found: Dict[int, Any] = {}
        tried: Dict[int, int] = collections.Counter()
        waiting = collections.deque(range(len(tasks)))
        try:
            while len(found) < len(tasks):
                self._fill(function, tasks, waiting, tried)
                for link in multiprocessing.connection.wait(list(self._busy)):
                    number, said = self._heard(link)
                    if said is not None:
                        found[number] = _result(said)
                    elif tried[number] < self.tries:
                        waiting.appendleft(number)
                    else:
                        raise LostPart(number, tried[number])
        except BaseException:
            self.__exit__()
            raise
        return [found[number] for number in range(len(tasks))]

    def _fill(
        self, function: Callable[[Any], Any], tasks: List[Any], waiting: Any, tried: Dict[int, int]
    ) -> None:
        """Give tasks that wait to processes, as long as there may be more."""
        while waiting and len(self._busy) < self.count:
            number = waiting.popleft()
            tried[number] += 1
            self._give(function, number, tasks[number])


def _result(said: Tuple[bool, Any]) -> Any:
    """Return what a function returned, or raise what it raised."""
    is_done, value = said
    if not is_done:
        raise value
    return value


def _ran(backend: Any, function: Callable[[Task], Done], tasks: List[Task]) -> List[Done]:
    """Return the results of a function over tasks, by a backend."""
    if hasattr(backend, "submit") and hasattr(backend, "gather"):
        found: List[Done] = backend.gather(backend.map(function, tasks, pure=False))
        return found
    if isinstance(backend, Processes):
        return backend.map(function, tasks)
    return list(backend(function, tasks))


def _need_alike(tasks: Dict[int, Task], found: Dict[int, Done]) -> None:
    """Fail if a part has another type than the first part that was asked."""
    first = min(found)
    for k, each in found.items():
        types = difference(each.field, found[first].field)
        if types:
            other = name_of(tasks[first].part)
            why = f"expected type {types[1]}, as part {other} has, got {types[0]}"
            raise DamagedPart(name_of(tasks[k].part), why)


def _all_done(backend: Any, tasks: Dict[int, Task]) -> Dict[int, Done]:
    """Do tasks, which have the numbers of their parts, and compare the types of the parts."""
    try:
        found = dict(zip(tasks, _ran(backend, done, list(tasks.values()))))
    except LostPart as why:
        raise LostPart(list(tasks)[why.number], why.tries) from None
    _need_alike(tasks, found)
    return found


class _Selection(NamedTuple):
    """The steps over parts, and whether what the caller says of the parts is believed."""

    backend: Any
    tasks: Dict[int, Task]
    steps: Sequence[Any]
    trusted: bool

    def lengths(self, said: Optional[Sequence[int]]) -> List[int]:
        """Return the lengths that the parts have, or that are said of them."""
        if said is None:
            return [each.rows for each in _all_done(self.backend, self.tasks).values()]
        if len(said) != len(self.tasks):
            count = len(self.tasks)
            raise ValueError(f"expected a length of each of {count} parts, got {len(said)}")
        return list(said)

    def plan(self, lengths: Sequence[int], is_verified: bool) -> Plan:
        """Return the plan. Before it fails by lengths that aren't verified, the parts are asked."""
        try:
            return plan(lengths, self.steps)
        except BrokenStep:
            if not is_verified:
                _all_done(self.backend, self.with_rows(lengths))
            raise

    def with_rows(self, lengths: Sequence[int]) -> Dict[int, Task]:
        """Return tasks that verify the lengths."""
        return {k: task._replace(rows=lengths[k]) for k, task in self.tasks.items()}

    def done(self, said: Optional[Sequence[int]], folder: Optional[str]) -> Tuple[Plan, List[Any]]:
        """Return the plan, and the result of each part, or `None` if it returns no row.

        So that the result has a type, one part is asked at least.
        """
        lengths = self.lengths(said)
        is_verified = said is None or self.trusted
        asked = self.plan(lengths, is_verified)
        wanted = [k for k in self.tasks if asked.len_of(k)] or [0]
        tasks = {}
        for k, task in self.with_rows(lengths).items():
            path = None if folder is None or k not in wanted else os.path.join(folder, f"part{k}")
            if k in wanted or (asked.is_verified_by(k) and not self.trusted):
                tasks[k] = task._replace(steps=asked.steps_of(k), path=path)
            elif not is_verified:
                tasks[k] = task
        found = _all_done(self.backend, tasks)
        return asked, [found[k].result if k in wanted else None for k in self.tasks]


def _selection(
    backend: Any,
    parts: Sequence[Any],
    steps: Sequence[Any],
    columns: Optional[Sequence[str]],
    load: Callable[[Any], Any],
    trusted: bool,
) -> _Selection:
    tasks = {k: Task(part, load, columns, trusted) for k, part in enumerate(parts)}
    if not tasks:
        raise ValueError("expected at least one part, got none")
    return _Selection(backend, tasks, list(steps), trusted)


def select_parts(
    backend: Any,
    parts: Sequence[Any],
    steps: Sequence[Any] = (),
    columns: Optional[Sequence[str]] = None,
    load: Callable[[Any], Any] = load,
    lengths: Optional[Sequence[int]] = None,
    trusted: bool = False,
) -> Column:
    """Return the rows that steps leave of all parts, which are one column end to end.

    Every part is asked for its length and its type, unless the caller gives lengths and trusts
    them. Without lengths this is a task of its own for each part, before the steps are planned.
    With lengths, a part has one task: for its rows, or if it returns none, for its head alone.

    Args:
        backend: `map` or a function like it, `Processes`, or a client of Dask.
        parts: Paths, or whatever `load` makes an object with `__arrow_c_array__` of.
        steps: The steps over all rows: `Slice`, `Filter`, `Take` or `FilterEach`.
        columns: Of structs, the fields of the result.
        load: A function of a module, which is called where the part is.
        lengths: How many rows each part has.
        trusted: Whether the lengths, the counts of `FilterEach`, and the contents of files are
            believed. Then a part that returns no row isn't asked. A wrong number makes wrong rows.

    Raises:
        BrokenStep: A step is invalid. No part was asked for rows.
        DamagedPart: A part can't be read, or has another length, mask or type than was said.
        LostPart: The processes that were asked for a part ended.
        ValueError: There are no parts, or not as many lengths, or a `FilterEach` follows a take.
    """
    asked, found = _selection(backend, parts, steps, columns, load, trusted).done(lengths, None)
    return put_together(asked, found)


class Written(NamedTuple):
    """Files of the rows that parts returned.

    Attributes:
        paths: The file of each part, or `None` if it returns no row. If no step is a take, the
            files in their order hold the result.
        plan: The plan by which the files are put together.
    """

    paths: List[Optional[str]]
    plan: Plan

    def column(self) -> Column:
        """Return the whole result, of the files."""
        return put_together(self.plan, [path and read_column(path) for path in self.paths])


def write_parts(
    backend: Any,
    parts: Sequence[Any],
    steps: Sequence[Any],
    folder: Any,
    columns: Optional[Sequence[str]] = None,
    load: Callable[[Any], Any] = load,
    lengths: Optional[Sequence[int]] = None,
    trusted: bool = False,
) -> Written:
    """Have each part write the rows that steps leave of it, where the part is.

    The files are `part0`, `part1` and so on, for `read_column`. Other files of the folder stay.

    Args:
        folder: A folder that exists, and that all workers see.

    The other arguments and exceptions are those of `select_parts`.

    Raises:
        OSError: The folder doesn't exist, or a file can't be written.
    """
    selection = _selection(backend, parts, steps, columns, load, trusted)
    asked, found = selection.done(lengths, os.path.abspath(folder))
    return Written(found, asked)
