"""Readers for what a search leaves: labels and traces.

The formats are those of docs/FORMATS.md. A fault is raised as `BadInput`, which names the file and the line, and for labels the
number and the name of the fault.
"""

from __future__ import annotations

import re
from array import array
from dataclasses import dataclass, field

import sbpl_files
from panels import counted
from sbpl_files import BadInput, Environment, OtherKind, Plan, Primitive

INFINITE = -1
FAULTS = {"Word": 1, "Number": 2, "Range": 3, "Ended": 4, "Trailing": 5, "Count": 6}
MOST_PLANS, MOST_LOW, MOST_LABEL, MOST_HEURISTIC, MOST_ARCS, MOST_ARC = 2**32, 2**63, 2**62, 2**55, 2**28, 4096
MOST_BOUND = 2**100
LOWER, RAISE, OPEN, TAKE, POST = range(5)
KINDS = {b"lower": LOWER, b"raise": RAISE, b"open": OPEN, b"take": TAKE, b"post": POST}
# how many fields an event's line has
FIELDS = [2, 2, 2, 5, 3]


@dataclass
class Labels:
    """A section of labels: the rows' states, upwards, with g, v and in version 1 the heuristic. An infinite one is `INFINITE`."""

    plan: int
    version: int
    low: int
    result: str
    cost: int
    bound: str
    states: list[int] = field(default_factory=list)
    g: list[int] = field(default_factory=list)
    v: list[int] = field(default_factory=list)
    heuristic: list[int] = field(default_factory=list)


@dataclass
class Trace:
    """A section of a trace: its events in order, and where each pass begins among them.

    An event has a kind and a state; a post has the state whose arc came back. The takes in order have a seat and an arc each, and
    the posts the place of their take among these, from 0, and the cost, `INFINITE` where the arc is not free.
    """

    plan: int
    kinds: bytearray = field(default_factory=bytearray)
    states: array = field(default_factory=lambda: array("Q"))
    begins: list[int] = field(default_factory=list)
    seats: list[int] = field(default_factory=list)
    arcs: list[int] = field(default_factory=list)
    taken: list[int] = field(default_factory=list)
    costs: list[int] = field(default_factory=list)


class LabelReader:
    """Reads the tokens of labels in order; each fault is raised at the first token that shows it."""

    def __init__(self, path: str):
        self.path = path
        self.text = sbpl_files.read_bytes(path)
        self.tokens = self.text.split()
        self.next = 0

    def fault(self, name: str, text: str, kind: type[BadInput] = BadInput) -> BadInput:
        """A fault at the token that was taken last, or at the end of the file."""
        if name == "Ended":
            line = self.text.count(b"\n") + (not self.text.endswith(b"\n"))
        else:
            places = re.finditer(rb"\S+", self.text)
            at = next(place.start() for number, place in enumerate(places, 1) if number == self.next)
            line = self.text.count(b"\n", 0, at) + 1
        return kind(f"{self.path}:{line}: {text} (fault {FAULTS[name]} {name})")

    def take(self, wanted: str) -> bytes:
        """The next token."""
        if self.next == len(self.tokens):
            raise self.fault("Ended", f"the file ends where {wanted} must stand")
        self.next += 1
        return self.tokens[self.next - 1]

    def shown(self) -> str:
        """The beginning of the token that was taken last."""
        return self.tokens[self.next - 1][:40].decode("latin-1")

    def word(self, *words: str) -> str:
        """Takes one of these words."""
        wanted = " or ".join(f"'{word}'" for word in words)
        token = self.take(wanted).decode("latin-1")
        if token not in words:
            first = self.next == 1
            raise self.fault("Word", f"'{token[:40]}' stands where {wanted} must", OtherKind if first else BadInput)
        return token

    def number(self, name: str, below: int, infinite: bool = False) -> int:
        """Takes a number below this one, or `-` where that is allowed."""
        token = self.take(name)
        if infinite and token == b"-":
            return INFINITE
        if not token.isdigit():
            raise self.fault("Number", f"{name} is '{self.shown()}', which is {'neither digits nor -' if infinite else 'not digits'}")
        if len(token) > 40 or int(token) >= below:
            raise self.fault("Range", f"{name} is {self.shown()}, which is not below {below}")
        return int(token)

    def bound(self) -> str:
        """Takes a bound."""
        token = self.take("the bound").decode("latin-1")
        if not re.fullmatch(r"[0-9]+\.[0-9]{3}", token, re.ASCII):
            raise self.fault("Number", f"the bound is '{token[:40]}', which is no number with three decimals")
        if len(token) > 40 or not 1000 <= int(token.replace(".", "")) < MOST_BOUND:
            raise self.fault("Range", f"the bound is {token[:40]}, which is below 1.000 or too great")
        return token

    def count(self, name: str, wanted: int) -> None:
        """Takes a number that must be this one."""
        value = self.number(name, MOST_PLANS)
        if value != wanted:
            raise self.fault("Count", f"{name} is {value}, and must be {wanted}")

    def rows(self, labels: Labels, states: int, rows: int) -> None:
        """Takes the rows of a section; a row of infinite labels is not kept."""
        last = -1
        for row in range(rows):
            state = row
            if labels.version == 2:
                state = self.number("a row's state", MOST_PLANS)
                if not last < state < states:
                    raise self.fault("Range", f"a row's state is {state}, which is not above that of the row before, or not "
                                              f"below {states}")
                last = state
            g, v = self.number("g", MOST_LABEL, True), self.number("v", MOST_LABEL, True)
            heuristic = self.number("the heuristic", MOST_HEURISTIC) if labels.version == 1 else 0
            if g != INFINITE or v != INFINITE:
                labels.states.append(state)
                labels.g.append(g)
                labels.v.append(v)
                if labels.version == 1:
                    labels.heuristic.append(heuristic)

    def section(self, plan: int, states: int) -> Labels:
        """Takes the section of a plan on a map with this many states."""
        self.word("labels")
        version = int(self.word("1", "2"))
        self.word("plan")
        self.count("the plan", plan)
        self.word("states")
        self.count("the number of states", states)
        rows = states
        if version == 2:
            self.word("rows")
            rows = self.number("the number of rows", MOST_PLANS)
            if rows > states:
                raise self.fault("Range", f"there are {rows} rows, and {states} states")
        self.word("low")
        labels = Labels(plan, version, self.number("the low", MOST_LOW, True), "", 0, "")
        labels.result = self.word("path", "nopath", "unknown")
        if labels.result == "path":
            labels.cost, labels.bound = self.number("the cost", MOST_LABEL), self.bound()
            for _ in range(self.number("the number of arcs", MOST_ARCS)):
                self.number("an arc", MOST_ARC)
        self.rows(labels, states, rows)
        self.word("end")
        return labels

    def end(self) -> None:
        """Raises a fault where a token is left."""
        if self.next < len(self.tokens):
            self.take("the end")
            raise self.fault("Trailing", f"'{self.shown()}' stands after the last section")


def states_of(environment: Environment) -> int:
    """How many states a map has."""
    return environment.width * environment.height * environment.headings


def read_labels(path: str, environment: Environment, report: str, plans: list[Plan]) -> list[Labels]:
    """Reads the labels of the plans of a report, whose results must be the same."""
    reader, found = LabelReader(path), []
    for plan in plans:
        labels = reader.section(plan.number, states_of(environment))
        if (labels.result, labels.cost, labels.bound) != (plan.result, plan.cost, plan.bound):
            said = [f"{it.result} {it.cost} {it.bound}" if it.result == "path" else it.result for it in (labels, plan)]
            raise BadInput(f"{path}: of plan {plan.number} it says '{said[0]}', and {report} says '{said[1]}', so they are not of "
                           "the same run")
        found.append(labels)
    reader.end()
    return found


class TraceReader:
    """Reads the sections of a trace line by line."""

    def __init__(self, path: str, environment: Environment, primitives: list[Primitive]):
        self.path = path
        self.states = states_of(environment)
        self.headings = environment.headings
        self.degrees = [sum(primitive.start == heading for primitive in primitives) for heading in range(self.headings)]
        self.line = 0
        self.traces: list[Trace] = []
        self.passes: list[list[str]] = []
        self.open = False
        # of each ticket of the pass the place of its take, or `INFINITE` once it came back; and of each take its state
        self.tickets: list[int] = []
        self.sources: list[int] = []

    def fault(self, text: str, kind: type[BadInput] = BadInput) -> BadInput:
        """A fault at the present line."""
        return kind(f"{self.path}:{self.line}: {text}")

    def number(self, name: str, token: bytes, below: int) -> int:
        """A number below this one."""
        if not token.isdigit():
            raise self.fault(f"{name} is '{token[:40].decode('latin-1')}', which is not digits")
        if len(token) > 40 or int(token) >= below:
            raise self.fault(f"{name} is {token[:40].decode('latin-1')}, which is not below {below}")
        return int(token)

    def event(self, trace: Trace, kind: int, fields: list[bytes]) -> None:
        """Takes the line of an event."""
        if len(fields) != FIELDS[kind]:
            raise self.fault(f"'{fields[0].decode()}' stands with {counted(len(fields) - 1, 'number')}, and wants "
                             f"{FIELDS[kind] - 1}")
        if not trace.begins and kind != RAISE:
            raise self.fault(f"'{fields[0].decode()}' stands before the first pass")
        if kind == TAKE:
            if self.number("the ticket", fields[1], 2**63) != len(self.tickets):
                raise self.fault(f"ticket {fields[1].decode()} stands where ticket {len(self.tickets)} must")
            self.tickets.append(len(trace.seats))
            trace.seats.append(self.number("the seat", fields[2], 64))
            state = self.number("the state", fields[3], self.states)
            trace.arcs.append(self.number("the arc", fields[4], self.degrees[state % self.headings]))
            self.sources.append(state)
        elif kind == POST:
            ticket = self.number("the ticket", fields[1], 2**63)
            if ticket >= len(self.tickets) or self.tickets[ticket] == INFINITE:
                raise self.fault(f"ticket {ticket} is not out")
            trace.taken.append(self.tickets[ticket])
            trace.costs.append(INFINITE if fields[2] == b"-" else self.number("the cost", fields[2], 2**32))
            state, self.tickets[ticket] = self.sources[self.tickets[ticket]], INFINITE
        else:
            state = self.number("the state", fields[1], self.states)
        trace.kinds.append(kind)
        trace.states.append(state)

    def take(self, fields: list[bytes]) -> None:
        """Takes one line's fields."""
        trace = self.traces[-1] if self.open else None
        kind = KINDS.get(fields[0])
        if trace is not None and kind is not None:
            self.event(trace, kind, fields)
        elif trace is not None and fields[0] == b"pass" and len(fields) == 2:
            trace.begins.append(len(trace.kinds))
            self.passes[-1].append(fields[1].decode("latin-1"))
            self.tickets = []
        elif trace is not None and fields == [b"end"]:
            self.open = False
        elif trace is None and fields[:2] == [b"trace", b"plan"] and len(fields) == 3:
            number = self.number("the plan", fields[2], MOST_PLANS)
            if number != len(self.traces):
                raise self.fault(f"plan {number} stands where plan {len(self.traces)} must")
            self.traces.append(Trace(number))
            self.passes.append([])
            self.open, self.sources = True, []
        elif not self.traces:
            raise self.fault("no trace begins so: 'trace plan 0' must stand first", OtherKind)
        else:
            raise self.fault(f"'{b' '.join(fields)[:60].decode('latin-1')}' does not belong here in a trace")

    def read(self) -> list[Trace]:
        """Reads the file; its sections."""
        for self.line, line in enumerate(sbpl_files.read_bytes(self.path).split(b"\n"), 1):
            fields = line.split()
            if fields:
                self.take(fields)
        if self.open or not self.traces:
            raise self.fault("the trace ends without 'end'" if self.traces else "the file ends where 'trace plan 0' must stand")
        return self.traces


def expansions(trace: Trace, number: int) -> int:
    """How many states a pass of a trace expanded."""
    ends = [*trace.begins[1:], len(trace.kinds)]
    kinds = trace.kinds[trace.begins[number]:ends[number]]
    return kinds.count(LOWER) + kinds.count(RAISE) + kinds.count(OPEN)


def read_trace(path: str, environment: Environment, primitives: list[Primitive], report: str, plans: list[Plan]) -> list[Trace]:
    """Reads the trace of the plans of a report, whose passes must be the same."""
    reader = TraceReader(path, environment, primitives)
    traces = reader.read()
    if len(traces) != len(plans):
        raise BadInput(f"{path}: it has {counted(len(traces), 'plan')}, and {report} has {len(plans)}, so they are not of the "
                       "same run")
    for trace, inflations, plan in zip(traces, reader.passes, plans):
        found = [f"{inflation} expanded {expansions(trace, number)}" for number, inflation in enumerate(inflations)]
        said = [f"{it.inflation} expanded {it.expanded}" for it in plan.passes]
        if found != said:
            raise BadInput(f"{path}: of plan {plan.number} it has the passes '{', '.join(found)[:80]}', and {report} "
                           f"'{', '.join(said)[:80]}', so they are not of the same run")
    return traces
