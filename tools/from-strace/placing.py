"""The order of effects: each call had its effect between the lines where it began and returned, and its reply tells more.

Where a call returned at once, that is its place. One that would wait in the layer as it begins is parked there, and resumed at its return.
If the model of the rules then answers otherwise than the host did, other calls that had begun and not returned are tried before it,
and then other places of calls before it.
"""
from __future__ import annotations

from dataclasses import dataclass
from typing import Dict, Iterator, List, Optional, Tuple

from script import Version, parse_line, reply_text
from state import Limits, Pipe
from streams import filled, moved, read_through
from tables import Line, Node, Process
from turning import Operation
from undoing import Journal, Layer, Table

# how many calls may be tried before one that returns; how many places are gone back for a difference, and how many are tried
MOST_BEFORE = 3
MOST_CHOICES = 200
MOST_TRIES = 3000
# a reply is told as far as this
MOST_TOLD = 80


@dataclass(frozen=True)
class Said:
    """What stands in the script: a line with its reply, or a comment. Those behind it come first, as the list grows at its end."""

    operation: Operation
    words: str
    reply: Optional[str]
    before: Optional["Said"] = None


# a step of the search: an operation that went on, or so many of its parts
Action = Tuple[Operation, Optional[int]]


class State:
    """The layer at a moment, by the model, with what the script has until then. A journal takes it back to a moment before."""

    def __init__(self, streams: Dict[Node, bytes], limits: Limits) -> None:
        self.journal = Journal()
        self.machine = Layer(self.journal, limits)
        self.pids: Dict[Process, int] = Table(self.journal)
        self.parked: Dict[Operation, int] = Table(self.journal)
        self.done: Dict[Operation, bool] = Table(self.journal)
        self.said: Optional[Said] = None
        # what was read of each pipe on the host, and how much of it was taken by now
        self.streams = streams
        self.taken: Dict[Node, int] = Table(self.journal)
        # what led to this moment
        self.actions: List[Action] = []

    def act(self, operation: Operation, count: Optional[int] = None) -> None:
        """Notes what is done next."""
        self.actions.append((operation, count))
        self.journal.note(self.actions.pop)

    def act_again(self, actions: List[Action]) -> None:
        """Does what was done once at this very moment."""
        for operation, count in actions:
            if count is None:
                self.go_on(operation)
            else:
                self.part(operation, count)

    def have_said(self, said: Optional[Said]) -> None:
        """The script has this from now on."""
        before = self.said
        self.journal.note(lambda: setattr(self, "said", before))
        self.said = said

    def make(self, words: str) -> str:
        """Makes the step of a line, and tells its reply."""
        request = parse_line(words.encode("latin-1"), Version.TWO)
        assert request is not None
        return reply_text(self.machine.make(request), Version.TWO)

    def say(self, operation: Operation, words: str, reply: Optional[str]) -> None:
        """Adds to the script."""
        self.have_said(Said(operation, words, reply, self.said))

    def step(self, operation: Operation, line: Line, words: str) -> Tuple[bool, str]:
        """Makes a step that ends a line of an operation: whether its reply is the host's, and its text."""
        text = self.make(words)
        agrees = line.agrees(text) if line.agrees else line.reply in (None, text)
        self.say(operation, words, text if line.agrees and agrees else line.reply)
        return agrees, text

    def go_on(self, operation: Operation) -> str:
        """Takes an operation a step further: `done` as on the host, `parked`, `same` if it waits as before, or how it differs."""
        self.act(operation)
        pipe = filled(self.machine, self.pids.get(operation.process, 0), self.parked.get(operation), operation)
        held = len(pipe.content) if pipe is not None else 0
        outcome = self._again(operation) if operation in self.parked else self._begin(operation)
        if pipe is not None and operation.puts is not None and not self._is_as_read(operation.puts, pipe, held):
            return "other bytes than those that were read"
        if outcome == "done" and operation.takes is not None:
            self.taken[operation.takes] = self.taken.get(operation.takes, 0) + moved(operation)
        return outcome

    def _is_as_read(self, node: Node, pipe: Pipe, held: int) -> bool:
        """Whether the bytes behind those that a pipe held are the ones that were read later."""
        start = self.taken.get(node, 0) + held
        wanted = self.streams.get(node, b"")[start : start + len(pipe.content) - held]
        return pipe.content[held : held + len(wanted)] == wanted

    def _begin(self, operation: Operation) -> str:
        """Makes the lines of an operation."""
        if operation.comments:
            self.say(operation, "#", None)
        if operation.process not in self.pids and operation.name != "start":
            return "no process"
        for line in operation.lines:
            words = line.words if line.words == "start" else f"{self.pids[operation.process]} {line.words}"
            before = self.said
            agrees, text = self.step(operation, line, words)
            if text.startswith("parked "):
                self.have_said(before)
                self.say(operation, words, text)
                self.parked[operation] = int(text.split()[1])
                return "parked"
            if operation.child is not None and text.startswith("pid "):
                self.pids[operation.child] = int(text.split()[1])
            if not agrees:
                return text
        self.done[operation] = True
        return "done"

    def part(self, operation: Operation, count: int) -> None:
        """Makes the first parts of an operation: those that were made before aren't there any more."""
        self.act(operation, count)
        for line in operation.parts[:count]:
            words = f"{self.pids[operation.process]} {line.words}"
            before = self.said
            if self.step(operation, line, words)[1] != line.reply:
                self.have_said(before)

    def _again(self, operation: Operation) -> str:
        """A waiting call is tried again, or interrupted if a signal ended it on the host."""
        number, line = self.parked[operation], operation.lines[-1]
        taken = getattr(self.machine.waiting.get(number), "taken", None)
        before = self.said
        agrees, text = self.step(operation, line, f"{'interrupt' if operation.is_interrupted else 'resume'} {number}")
        if text == f"parked {number}":
            call = self.machine.waiting[number]
            self.have_said(before)
            if getattr(call, "taken", None) == taken:
                return "same"
            self.say(operation, f"resume {number}", text)
            return "parked"
        del self.parked[operation]
        self.done[operation] = True
        return "done" if agrees else text


Event = Tuple[int, int, Operation]


@dataclass(frozen=True)
class Choice:
    """An event, the state before it by its place in the journal and how much was done, and the ways in which the event may go."""

    at: int
    mark: int
    done: int
    ways: Iterator[bool]


@dataclass(frozen=True)
class Reached:
    """The event that comes next where a search has come to, and how one comes there again: what to do from a place in the journal on."""

    at: int
    mark: int
    actions: List[Action]


class Placer:
    """Places the operations of a trace, one line of the trace after another."""

    def __init__(self, operations: List[Operation], limits: Limits) -> None:
        self.events: List[Event] = []
        self.differences: List[Tuple[Operation, str]] = []
        for operation in operations:
            if operation.is_split:
                self.events.append((operation.first, 0, operation))
            if operation.last is not None:
                self.events.append((operation.last, 1, operation))
        self.streams = read_through(operations)
        self.state = State(self.streams, limits)
        # a process is there before its first call
        self.events.sort(key=lambda event: (event[0], -1 if event[2].child is not None else event[1]))
        self.flying = list(self._in_flight())

    def place(self) -> State:
        """The last state, which has the script."""
        state, at, tries = self.state, 0, 0
        choices = [self._choice(0)] if self.events else []
        furthest = Reached(0, 0, [])
        while at < len(self.events):
            if choices and tries < MOST_TRIES:
                if next(choices[-1].ways, None) is None:
                    choices.pop()
                    continue
                at, tries = choices[-1].at + 1, tries + 1
            else:
                state.journal.back_to(furthest.mark)
                state.act_again(furthest.actions)
                self._differ(self.events[furthest.at][2])
                at, choices = furthest.at + 1, []
            if at > furthest.at:
                furthest, tries = self._reached(at, choices), 0
            if at < len(self.events):
                choices = [*choices[-MOST_CHOICES:], self._choice(at)]
        return state

    def _choice(self, at: int) -> Choice:
        """An event that comes next."""
        return Choice(at, self.state.journal.mark, len(self.state.actions), self._next(at, self.state.journal.mark))

    def _reached(self, at: int, choices: List[Choice]) -> Reached:
        """Where the search has come to. It never goes back before its first choice."""
        journal, actions = self.state.journal, self.state.actions
        mark, done = (choices[0].mark, choices[0].done) if choices else (journal.mark, len(actions))
        journal.forget(mark)
        return Reached(at, mark, actions[done:])

    def _in_flight(self) -> Iterator[Tuple[Operation, ...]]:
        """For each event the calls that began before it and didn't return before it."""
        flying: List[Operation] = []
        for line, kind, operation in self.events:
            flying = [other for other in flying if other.last is None or other.last >= line]
            yield tuple(other for other in flying if other is not operation and other.first < line)
            if kind == 0:
                flying.append(operation)

    def _next(self, at: int, mark: int) -> Iterator[bool]:
        """Takes the state behind an event, in each way that there is, the likeliest first."""
        state, (_, kind, operation) = self.state, self.events[at]
        if kind == 0:
            yield from self._begun(operation, mark)
            return
        if operation in state.done:
            yield True
            return
        others = [other for other in self.flying[at] if other not in state.done and other.process in state.pids]
        for count in range(min(len(others), MOST_BEFORE) + 1):
            state.journal.back_to(mark)
            yield from self._behind(others, count, operation)
        for other in others:
            for count in range(1, len(other.parts) + 1):
                state.journal.back_to(mark)
                state.part(other, count)
                yield from self._behind([], 0, operation)

    def _behind(self, others: List[Operation], count: int, operation: Operation) -> Iterator[bool]:
        """The states behind so many of these calls and then this one, if all of them are answered as on the host."""
        state, mark = self.state, self.state.journal.mark
        if count == 0:
            outcome = state.go_on(operation)
            if outcome == "parked" and operation.is_interrupted:
                outcome = state.go_on(operation)
            if outcome == "done":
                yield True
            return
        for other in others:
            state.journal.back_to(mark)
            if (other.last is not None or other in state.parked) and state.go_on(other) in ("done", "parked"):
                yield from self._behind([one for one in others if one is not other], count - 1, operation)

    def unordered(self) -> Iterator[Tuple[Operation, Operation]]:
        """Calls that overlap and both take from one pipe, or both put into it: the trace doesn't tell which came first."""
        for at, (_, kind, operation) in enumerate(self.events):
            for other in self.flying[at] if kind == 1 else ():
                pairs = (operation.takes, other.takes), (operation.puts, other.puts)
                if operation.has_effect and other.has_effect and any(one is not None and one is two for one, two in pairs):
                    yield operation, other

    def _begun(self, operation: Operation, mark: int) -> Iterator[bool]:
        """A call that would wait at its beginning is parked there. Any other had its effect later, as far as is known."""
        state = self.state
        if operation.process in state.pids and operation.child is None and operation.name != "exit":
            if state.go_on(operation) == "parked":
                yield True
            state.journal.back_to(mark)
        yield True

    def _differ(self, operation: Operation) -> None:
        """No order makes the reply that the host gave: the call is placed where it returned, and what the layer answers is told."""
        state = self.state
        was_parked = operation in state.parked
        state.streams = {}
        text = state.go_on(operation)
        number = state.parked.pop(operation, None)
        if number is not None and state.said is not None:
            text = f"parked {number}"
            words = f"resume {number}" if was_parked else state.said.words
            if not was_parked:
                state.have_said(state.said.before)
            state.say(operation, words, operation.lines[-1].reply)
            state.say(operation, f"interrupt {number}", state.make(f"interrupt {number}"))
        state.done[operation] = True
        what = f"in no order of these calls does the layer answer so: it answers {text[:MOST_TOLD]}"
        if text == "done":
            what = "in no order of these calls does the layer put in the bytes that are read later"
        # from here on the pipe may have other bytes than on the host
        for node in (operation.takes, operation.puts):
            if node is not None:
                self.streams.pop(node, None)
        state.streams = self.streams
        self.differences.append((operation, what))
