"""A model of the layer whose steps can be taken back. What is kept of a step is what it touched, so none costs a copy of all that there is.

Whatever a step changes it finds in a table: that of the processes, of the names, of the calls that wait, or of a process's descriptors. So a
table notes what stands in it as it is handed out, and what is put into it or taken out.
"""
from __future__ import annotations

from typing import Any, Callable, Dict, ItemsView, List, Set, TypeVar, ValuesView

from machine import Machine
from replies import Reply
from script import Request
from state import USUAL, Description, File, Limits, Pipe, Process
from waiting import Call

Key = TypeVar("Key")
Value = TypeVar("Value")


class Journal:
    """How to take back what was changed, the last change at the end."""

    def __init__(self) -> None:
        self.undos: List[Callable[[], object]] = []
        # the place of the first of them
        self.first = 0
        # what was kept since the last step began, by id: an undo holds each
        self._kept: Set[int] = set()

    @property
    def mark(self) -> int:
        """The place behind all changes until now."""
        return self.first + len(self.undos)

    def note(self, undo: Callable[[], object]) -> None:
        """Something is changed."""
        self.undos.append(undo)

    def back_to(self, mark: int) -> None:
        """Takes back what was changed behind a place."""
        self._kept.clear()
        while self.mark > mark:
            self.undos.pop()()

    def forget(self, mark: int) -> None:
        """Nobody goes back before this place any more. What is kept of earlier ones goes once it is the greater part."""
        if mark - self.first > len(self.undos) // 2:
            del self.undos[: mark - self.first]
            self.first = mark

    def begin(self) -> None:
        """A step begins."""
        self._kept.clear()

    def keep(self, thing: object) -> None:
        """Something is handed out that a step may change: it is kept as it is, with what it leads to."""
        if id(thing) in self._kept:
            return
        if isinstance(thing, Call):
            self._keep_fields(thing)
            for description in thing.kept:
                self.keep(description)
        elif isinstance(thing, Description):
            self._keep_fields(thing)
            self.keep(thing.node)
        elif isinstance(thing, (Pipe, File)):
            if not isinstance(thing.content, Content):
                thing.content = Content(self, thing.content)
            self._keep_fields(thing)

    def _keep_fields(self, thing: object) -> None:
        fields = dict(vars(thing))
        if "packets" in fields:
            fields["packets"] = list(fields["packets"])
        self._kept.add(id(thing))
        self.note(lambda: setattr(thing, "__dict__", fields))


class Content(bytearray):
    """The bytes of a pipe or a file. Of a change the bytes that it took away are kept."""

    def __init__(self, journal: Journal, data: bytes) -> None:
        super().__init__(data)
        self._journal = journal

    def _replace(self, start: int, end: int, data: bytes) -> None:
        before = bytes(self[start:end])
        super().__setitem__(slice(start, end), data)
        behind = slice(start, start + len(data))
        self._journal.note(lambda: super(Content, self).__setitem__(behind, before))

    def __iadd__(self, data: Any) -> "Content":
        self._replace(len(self), len(self), data)
        return self

    def __setitem__(self, place: Any, data: Any) -> None:
        start, end, _ = place.indices(len(self))
        self._replace(start, end, data)

    def __delitem__(self, place: Any) -> None:
        self[place] = b""

    def clear(self) -> None:
        """Loses all."""
        self._replace(0, len(self), b"")


class Table(Dict[Key, Value]):
    """A table that notes its changes, and keeps what it hands out."""

    def __init__(self, journal: Journal) -> None:
        super().__init__()
        self._journal = journal

    def __setitem__(self, key: Key, value: Value) -> None:
        self._note(key)
        if isinstance(value, Process):
            value.descriptors = Table(self._journal)
        super().__setitem__(key, value)

    def __delitem__(self, key: Key) -> None:
        self._note(key)
        super().__delitem__(key)

    def _note(self, key: Key) -> None:
        """What stands under a key is changed."""
        if key in self:
            value = super().__getitem__(key)
            self._journal.note(lambda: super(Table, self).__setitem__(key, value))
        else:
            self._journal.note(lambda: super(Table, self).__delitem__(key))

    def __getitem__(self, key: Key) -> Value:
        value = super().__getitem__(key)
        self._journal.keep(value)
        return value

    def get(self, key: Key, default: Any = None) -> Any:
        """What stands under a key, if anything does."""
        return self[key] if key in self else default

    def pop(self, key: Key, default: Any = None) -> Any:
        """Takes out what stands under a key, if anything does."""
        value = self.get(key, default)
        if key in self:
            del self[key]
        return value

    def values(self) -> ValuesView[Value]:
        """All that stands in it."""
        for value in super().values():
            self._journal.keep(value)
        return super().values()

    def items(self) -> ItemsView[Key, Value]:
        """All that stands in it, with its key."""
        self.values()
        return super().items()


class Layer(Machine):
    """A machine whose steps a journal notes."""

    def __init__(self, journal: Journal, limits: Limits = USUAL) -> None:
        super().__init__(limits)
        self._journal = journal
        self.processes, self.names, self.waiting = Table(journal), Table(journal), Table(journal)

    def make(self, request: Request) -> Reply:
        """Makes a step."""
        self._journal.begin()
        counts = self.next_call, self.live_descriptions
        self._journal.note(lambda: self._count_again(*counts))
        return request.step(self)

    def _count_again(self, next_call: int, live_descriptions: int) -> None:
        self.next_call, self.live_descriptions = next_call, live_descriptions
