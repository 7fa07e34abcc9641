"""Readers for the planner's files: environments of lattices and of grids, motion primitives, changes and reports.

The formats are those of docs/FORMATS.md. Lengths are kept in whole nanometres, times in nanoseconds and angles in
nanoradians, as the planner reads them. A fault is raised as `BadInput`, which names the file and the line.
"""

from __future__ import annotations

import argparse
import contextlib
import itertools
import math
import os
import re
import struct
import sys
from dataclasses import dataclass, field, replace
from decimal import ROUND_HALF_EVEN, Decimal, InvalidOperation
from typing import Callable, Iterator, NamedTuple

NANO = 10**9
FULL_TURN = 6_283_185_307
USUAL_HEADINGS = 16
GRID_HEADINGS = 1
GRID_STEPS = [(1, 0), (1, 1), (0, 1), (-1, 1), (-1, 0), (-1, -1), (0, -1), (1, -1)]
# the most states that `--states` allows, and that the planner takes without it
MOST_STATES = 2**28
USUAL_STATES = 2**23
MOST_POSES = 200_000
MOST_NUMBER = 10**18
# the names of the files that the tool has read
INPUTS: list[str] = []


class BadInput(Exception):
    """A fault of an input, in words for the user."""


class OtherKind(BadInput):
    """A file that does not begin as one of its kind does, so it may be another kind's."""


class Pose(NamedTuple):
    """A position in nanometres and an angle in nanoradians."""

    x: int
    y: int
    theta: int


class Place(NamedTuple):
    """A cell and a heading."""

    x: int
    y: int
    t: int


@dataclass
class Environment:
    """What an environment file says; row 0 of the costs is the lowest. A grid has one heading, 0, and no speeds."""

    width: int
    height: int
    headings: int
    obsthresh: int
    inscribed: int
    circumscribed: int
    cell: int
    speed: int
    turn45: int
    start: Pose
    end: Pose
    costs: list[list[int]]

    def place_of(self, pose: Pose) -> Place:
        """The cell and the heading of a pose."""
        return Place(pose.x // self.cell, pose.y // self.cell, heading_of(self.headings, pose.theta))

    @property
    def is_grid(self) -> bool:
        """Whether it is a grid with eight neighbours, as `temjoask nav` plans on."""
        return self.headings == GRID_HEADINGS

    def is_on_map(self, x: int, y: int) -> bool:
        """Whether the map has this cell."""
        return 0 <= x < self.width and 0 <= y < self.height


@dataclass
class Primitive:
    """One motion primitive; its poses are offsets from the centre of the source cell."""

    id: int
    start: int
    dx: int
    dy: int
    to: int
    multiplier: int
    poses: list[Pose]


class Leg(NamedTuple):
    """A step of a path: its primitive, how it moves, and the poses along it in metres and radians."""

    primitive: Primitive
    direction: str
    poses: list[tuple[float, float, float]]


@dataclass
class Step:
    """A step of a path: a primitive's id and where it leads."""

    id: int
    place: Place
    line: int


class Pass(NamedTuple):
    """A pass of a plan: its inflation, its expansions, and the best cost with its bound; without them what stands in their place."""

    inflation: str
    expanded: int
    best: int | None
    bound: str
    told: str


@dataclass
class Plan:
    """One section of a report."""

    number: int
    line: int
    result: str = ""
    cost: int = 0
    bound: str = ""
    expanded: int = 0
    start: Place | None = None
    steps: list[Step] = field(default_factory=list)
    passes: list[Pass] = field(default_factory=list)
    spent: bool = False


def heading_of(headings: int, theta: int) -> int:
    """The nearest of this many headings to an angle in nanoradians."""
    return (2 * headings * (theta % FULL_TURN) + FULL_TURN) // (2 * FULL_TURN) % headings


def offset_cell(cell: int, offset: int) -> int:
    """The cell, counted from the source cell, in which an offset from the source cell's centre lies."""
    return (2 * offset + cell) // (2 * cell)


def nano(text: str) -> int | None:
    """A decimal in billionths, without the digits after the ninth decimal; None for any other text."""
    found = re.fullmatch(r"([+-]?)([0-9]*)(?:\.([0-9]*))?", text, re.ASCII)
    if not found or not (found[2] or found[3]):
        return None
    if len(found[2]) > 40:
        return MOST_NUMBER * 10
    value = int(found[2] or "0") * NANO + int((found[3] or "")[:9].ljust(9, "0"))
    return -value if found[1] == "-" else value


def whole(text: str) -> int | None:
    """A whole number; None for any other text."""
    if not re.fullmatch(r"[+-]?[0-9]+", text, re.ASCII):
        return None
    return int(text) if len(text) <= 40 else MOST_NUMBER * 10


def decimal_text(value: int) -> str:
    """A number of billionths as a decimal without trailing zeros."""
    sign, value = ("-" if value < 0 else ""), abs(value)
    part = f"{value % NANO:09d}".rstrip("0")
    return f"{sign}{value // NANO}" + (f".{part}" if part else "")


def decimal_of(text: str) -> Decimal | None:
    """A finite number below 10^9 in absolute value; None for any other text."""
    try:
        value = Decimal(text)
    except InvalidOperation:
        return None
    return value if value.is_finite() and -NANO < value < NANO else None


def billionths(value: Decimal) -> int:
    """A number in billionths, rounded to the nearest."""
    return int((value * NANO).to_integral_value(ROUND_HALF_EVEN))


def single(value: float) -> float:
    """The float32 that is nearest to a number."""
    return struct.unpack("<f", struct.pack("<f", value))[0]


def length_of(value: Decimal) -> int:
    """A length of a ROS map in nanometres, rounded to the nearest.

    Some ROS tools print a float32 as a double, and so 0.05 as 0.05000000074505806. A number that is exactly a float32 is taken
    as the shortest decimal with that float32. Nine digits are enough for any, so a number with no more is taken as it stands.
    """
    double = float(value)
    if len(value.normalize().as_tuple().digits) > 9 and single(double) == double:
        texts = (f"{double:.{digits}g}" for digits in range(1, 10))
        value = next(Decimal(text) for text in texts if single(float(text)) == double)
    return billionths(value)


def plain_length(text: str) -> int | None:
    """A decimal without exponent as a length in nanometres; None for any other text."""
    value = None if nano(text) is None else decimal_of(text)
    return None if value is None else length_of(value)


def extent_text(left: int, low: int, width: int, height: int, cell: int) -> str:
    """Where a map lies whose lower left corner is here, in nanometres; a point on its upper ends is off it."""
    ends = [decimal_text(value) for value in (left, left + width * cell, low, low + height * cell)]
    return f"its extent is {ends[0]} to below {ends[1]} by {ends[2]} to below {ends[3]} m"


def read_bytes(path: str) -> bytes:
    """A file's bytes."""
    try:
        with open(path, "rb") as file:
            INPUTS.append(path)
            return file.read()
    except OSError as error:
        raise BadInput(f"{path}: cannot be read: {error.strerror}") from None
    except ValueError:
        raise BadInput(f"{path!r}: cannot be read: no file can have this name") from None


def read_lines(path: str) -> list[str]:
    """A text file's lines. Each byte is taken as one character, so no text is refused for its encoding."""
    return read_bytes(path).decode("latin-1").split("\n")


def check_output(path: str) -> None:
    """Refuses an output that is a file that was read, under whatever name. What is no regular file keeps nothing."""
    for name in INPUTS:
        if os.path.isfile(path) and os.path.exists(name) and os.path.samefile(name, path):
            raise BadInput(f"{path}: cannot be written: it is the input {name}")


def write_text(path: str | None, text: str) -> None:
    """Writes a text to a file that is no input, or to standard output where none is named."""
    if path is not None:
        check_output(path)
    try:
        if path is None:
            sys.stdout.write(text)
            sys.stdout.flush()
        else:
            with open(path, "w", encoding="utf-8") as file:
                file.write(text)
    except BrokenPipeError:
        os.dup2(os.open(os.devnull, os.O_WRONLY), sys.stdout.fileno())
    except OSError as error:
        raise BadInput(f"{path or 'standard output'}: cannot be written: {error.strerror}") from None


class Tokens:
    """The tokens of a file in order, with the line of each."""

    def __init__(self, path: str):
        self.path = path
        self.tokens = [(token.decode("latin-1"), number)
                       for number, line in enumerate(read_bytes(path).split(b"\n"), 1) for token in line.split()]
        self.next = 0
        self.line = 1

    def fault(self, text: str) -> BadInput:
        """A fault at the token that was taken last."""
        return BadInput(f"{self.path}:{self.line}: {text}")

    def take(self, wanted: str) -> str:
        """The next token."""
        if self.next == len(self.tokens):
            raise self.fault(f"the file ends where {wanted} must stand")
        token, self.line = self.tokens[self.next]
        self.next += 1
        return token

    def has(self, place: int, word: str) -> bool:
        """Whether a word stands at this place of the file, counted from 0."""
        return place < len(self.tokens) and self.tokens[place][0] == word

    def takes(self, word: str) -> bool:
        """Takes a word where it stands next; whether it does."""
        if not self.has(self.next, word):
            return False
        self.word(word)
        return True

    def word(self, word: str) -> None:
        """Takes a word that must stand here."""
        token = self.take(f"'{word}'")
        if token != word:
            fault = self.fault(f"'{token[:40]}' stands where '{word}' must")
            raise OtherKind(str(fault)) if self.next == 1 else fault

    def number(self, name: str, low: int, high: int, read: Callable[[str], int | None]) -> int:
        """Takes a number from low to high."""
        token = self.take(name)
        value = read(token)
        if value is None:
            raise self.fault(f"{name} is '{token[:40]}', which is no {'decimal' if read is nano else 'whole number'}")
        if not low <= value <= high:
            show = decimal_text if read is nano else str
            raise self.fault(f"{name} is {token[:40]}, which is not in {show(low)}..{show(high)}")
        return value

    def whole(self, name: str, low: int, high: int) -> int:
        """Takes a whole number from low to high."""
        return self.number(name, low, high, whole)

    def decimal(self, name: str, low: int, high: int) -> int:
        """Takes a decimal from low to high billionths."""
        return self.number(name, low, high, nano)

    def pose(self, name: str, most: int) -> Pose:
        """Takes x, y and theta; x and y are at most this many nanometres in absolute value."""
        return Pose(self.decimal(f"x of {name}", -most, most), self.decimal(f"y of {name}", -most, most),
                    self.decimal(f"theta of {name}", -MOST_NUMBER, MOST_NUMBER))

    def end(self) -> None:
        """Raises a fault where a token is left."""
        if self.next < len(self.tokens):
            token = self.take("the end")
            raise self.fault(f"'{token[:40]}' stands after the end")


def read_grid(tokens: Tokens, cell: int) -> Environment:
    """Reads the environment file of a grid, which says no cell size."""
    tokens.word("discretization(cells):")
    width = tokens.whole("the width", 1, MOST_STATES)
    height = tokens.whole("the height", 1, MOST_STATES)
    if width * height > MOST_STATES:
        raise tokens.fault(f"the map of {width} by {height} cells is too large: at most {MOST_STATES} cells")
    tokens.word("obsthresh:")
    obsthresh = tokens.whole("obsthresh", 0, 255)
    poses = []
    for word, name in [("start(cells):", "start"), ("end(cells):", "end")]:
        tokens.word(word)
        x, y = (tokens.whole(f"{axis} of the {name}", 0, MOST_STATES - 1) for axis in "xy")
        if not (x < width and y < height):
            raise tokens.fault(f"the {name} lies off the map")
        poses.append(cell_pose(cell, x, y))
    tokens.word("environment:")
    costs = [[tokens.whole("a cost", 0, 255) for _ in range(width)] for _ in range(height)]
    tokens.end()
    return Environment(width, height, GRID_HEADINGS, obsthresh, obsthresh, 0, cell, 0, 0, *poses, costs)


def cell_pose(cell: int, x: int, y: int) -> Pose:
    """The middle of a cell of a grid."""
    return Pose((2 * x + 1) * cell // 2, (2 * y + 1) * cell // 2, 0)


def read_environment(path: str, cell: int | None = None) -> Environment:
    """Reads an environment file of a lattice or of a grid. A cell size is that of a grid, which says none (otherwise a metre).

    A lattice must have that cell size.
    """
    tokens = Tokens(path)
    if tokens.has(5, "start(cells):"):
        return read_grid(tokens, cell or NANO)
    tokens.word("discretization(cells):")
    width = tokens.whole("the width", 1, MOST_STATES)
    height = tokens.whole("the height", 1, MOST_STATES)
    headings = tokens.whole("the number of headings", 4, 64) if tokens.takes("NumThetaDirs:") else USUAL_HEADINGS
    if width * height * headings > MOST_STATES:
        raise tokens.fault(f"the map of {width} by {height} cells is too large: with {headings} headings at most "
                           f"{MOST_STATES // headings} cells")
    thresholds = []
    for word, low in [("obsthresh:", 0), ("cost_inscribed_thresh:", 0), ("cost_possibly_circumscribed_thresh:", -1)]:
        tokens.word(word)
        thresholds.append(tokens.whole(word[:-1], low, 255))
    scales = []
    for word in ["cellsize(meters):", "nominalvel(mpersecs):", "timetoturn45degsinplace(secs):"]:
        tokens.word(word)
        scales.append(tokens.decimal(word[:-1], 1, 10**12))
        if cell not in (None, scales[0]):
            raise tokens.fault(f"the cell size is {decimal_text(scales[0])}, and not {decimal_text(cell)}")
    poses = []
    for word, name in [("start(meters,rads):", "the start"), ("end(meters,rads):", "the end")]:
        tokens.word(word)
        pose = tokens.pose(name, MOST_NUMBER)
        if not (0 <= pose.x // scales[0] < width and 0 <= pose.y // scales[0] < height):
            raise tokens.fault(f"{name} lies off the map: {extent_text(0, 0, width, height, scales[0])}")
        poses.append(pose)
    tokens.word("environment:")
    costs = [[tokens.whole("a cost", 0, 255) for _ in range(width)] for _ in range(height)]
    tokens.end()
    return Environment(width, height, headings, *thresholds, *scales, *poses, costs)


def add_ends(parser: argparse.ArgumentParser) -> None:
    """The settings that place the start and the goal, as `temjoask plan` and `temjoask nav` have them."""
    for name, end in [("--start", "start"), ("--goal", "end")]:
        parser.add_argument(name, metavar="X,Y,T", help=f"the plan's {name}; for a grid the cell X,Y (default: the environment "
                                                       f"file's {end})")


def given_pose(environment: Environment, name: str, word: str) -> Pose:
    """The pose that a word gives: X,Y,T in metres and radians, or X,Y as the cell of a grid."""
    values = [whole(part) if environment.is_grid else nano(part) for part in word.split(",")]
    form = "X,Y, two whole numbers" if environment.is_grid else "X,Y,T, three decimals"
    if None in values or len(values) != (2 if environment.is_grid else 3):
        raise BadInput(f"{name} must be {form}, found {word!r}")
    pose = cell_pose(environment.cell, *values) if environment.is_grid else Pose(*values)
    if not environment.is_on_map(pose.x // environment.cell, pose.y // environment.cell):
        raise BadInput(f"{name} {word} lies off the map")
    return pose


def posed(environment: Environment, words: argparse.Namespace) -> Environment:
    """An environment with the start and the goal of the command line in place of its own."""
    start = given_pose(environment, "--start", words.start) if words.start else environment.start
    end = given_pose(environment, "--goal", words.goal) if words.goal else environment.end
    return replace(environment, start=start, end=end)


def read_primitive(tokens: Tokens, cell: int, headings: int, poses_before: int) -> Primitive:
    """Reads one primitive of a primitive file."""
    tokens.word("primID:")
    number = tokens.whole("the id", 0, 65535)
    tokens.word("startangle_c:")
    start = tokens.whole("the start heading", 0, headings - 1)
    tokens.word("endpose_c:")
    dx = tokens.whole("dx of the end", -32767, 32767)
    dy = tokens.whole("dy of the end", -32767, 32767)
    to = tokens.whole("the end heading", -32767, 32767) % headings
    tokens.word("additionalactioncostmult:")
    multiplier = tokens.whole("the multiplier", 0, 16777215)
    tokens.word("intermediateposes:")
    count = tokens.whole("the number of poses", 0, MOST_POSES)
    if count == 0:
        raise tokens.fault(f"primitive {number} at heading {start} has no pose")
    if poses_before + count > MOST_POSES:
        raise tokens.fault(f"the file has more than {MOST_POSES} poses")
    poses = [tokens.pose("a pose", 10**12) for _ in range(count)]
    last = poses[-1]
    name = f"primitive {number} at heading {start}"
    if (offset_cell(cell, last.x), offset_cell(cell, last.y)) != (dx, dy):
        raise tokens.fault(f"the last pose of {name} is not in its end cell {dx} {dy}")
    if heading_of(headings, last.theta) != to:
        raise tokens.fault(f"the last pose of {name} is not in its end heading {to}")
    if multiplier == 0 or (start == to and all(pose[:2] == last[:2] for pose in poses)):
        raise tokens.fault(f"{name} costs nothing: its multiplier is 0, or it neither moves nor turns")
    return Primitive(number, start, dx, dy, to, multiplier, poses)


def read_primitives(path: str, cell: int, headings: int = USUAL_HEADINGS) -> list[Primitive]:
    """Reads a primitive file for a cell size in nanometres and a number of headings."""
    tokens = Tokens(path)
    tokens.word("resolution_m:")
    resolution = tokens.decimal("the resolution", 1, 10**12)
    if resolution != cell:
        raise tokens.fault(f"the resolution is {decimal_text(resolution)}, and the map's cell size {decimal_text(cell)}")
    tokens.word("numberofangles:")
    angles = tokens.whole("the number of angles", 1, 64)
    if angles != headings:
        raise tokens.fault(f"there are {angles} headings, and not {headings}")
    tokens.word("totalnumberofprimitives:")
    primitives: list[Primitive] = []
    seen = set()
    poses = 0
    for _ in range(tokens.whole("the number of primitives", 0, 4096)):
        primitive = read_primitive(tokens, cell, headings, poses)
        poses += len(primitive.poses)
        if (primitive.start, primitive.id) in seen:
            raise tokens.fault(f"an earlier primitive at heading {primitive.start} has the id {primitive.id} too")
        seen.add((primitive.start, primitive.id))
        primitives.append(primitive)
    tokens.end()
    return primitives


def primitive_scale(path: str) -> tuple[int, int]:
    """The cell size and the number of headings that a primitive file is for."""
    tokens = Tokens(path)
    tokens.word("resolution_m:")
    cell = tokens.decimal("the resolution", 1, 10**12)
    tokens.word("numberofangles:")
    return cell, tokens.whole("the number of angles", 1, 64)


def grid_primitives(cell: int) -> list[Primitive]:
    """The steps of a grid as primitives: one for each of the eight directions, which is its id."""
    found = []
    for number, (dx, dy) in enumerate(GRID_STEPS):
        theta = number * FULL_TURN // 8
        found.append(Primitive(number, 0, dx, dy, 0, 1, [Pose(0, 0, theta), Pose(dx * cell, dy * cell, theta)]))
    return found


def read_steps(path: str, environment: Environment, primitives: str | None) -> list[Primitive]:
    """What the steps on a map can be: the primitives of a file; on a grid the eight directions, without a file."""
    if environment.is_grid:
        if primitives is not None:
            raise BadInput(f"{path}: it is a grid of `temjoask nav`, so there is no primitive file, and none may be named")
        return grid_primitives(environment.cell)
    if primitives is None:
        raise BadInput(f"{path}: it is no grid of `temjoask nav`, so a primitive file must be named too")
    return read_primitives(primitives, environment.cell, environment.headings)


def read_changes(path: str, environment: Environment) -> tuple[list[list[tuple[int, int, int]]], list[Place]]:
    """Reads a change file; its batches, each a list of x, y and the cost that is written, and where each plan begins."""
    place = environment.place_of(environment.start)
    batches, batch, places, unended = [], [], [place], 0
    for number, line in enumerate(read_lines(path), 1):
        fields = line.removesuffix("\r").replace("\t", " ").split(" ")
        fields = [text for text in fields if text]
        if not fields:
            continue
        if fields == ["replan"]:
            batches.append(batch)
            places.append(place)
            batch, unended = [], 0
            continue
        if fields[0] not in ("cell", "start") or len(fields) != 4:
            raise BadInput(f"{path}:{number}: neither 'cell X Y C' nor 'start X Y T' nor 'replan'")
        values = [whole(text) for text in fields[1:]]
        if None in values:
            raise BadInput(f"{path}:{number}: '{fields[1 + values.index(None)][:40]}' is no whole number")
        x, y, last = values
        if not environment.is_on_map(x, y):
            raise BadInput(f"{path}:{number}: {fields[0]} {x} {y} is off the map")
        kind, most = ("cost", 255) if fields[0] == "cell" else ("heading", environment.headings - 1)
        if not 0 <= last <= most:
            raise BadInput(f"{path}:{number}: the {kind} {last} is not in 0..{most}")
        if fields[0] == "cell":
            batch.append((x, y, last))
        else:
            place = Place(x, y, last)
        unended = number
    if unended:
        raise BadInput(f"{path}:{unended}: no 'replan' follows the last line")
    return batches, places


def apply_batch(costs: list[list[int]], batch: list[tuple[int, int, int]]) -> dict[tuple[int, int], int]:
    """Writes a batch to a map; the cells that cost something else than before, with their new costs."""
    before = {(x, y): costs[y][x] for x, y, _ in batch}
    for x, y, cost in batch:
        costs[y][x] = cost
    return {(x, y): costs[y][x] for (x, y), cost in before.items() if costs[y][x] != cost}


class ReportReader:
    """Reads a report of `temjoask plan`, or of `temjoask nav`, line by line."""

    def __init__(self, path: str, headings: int):
        self.path = path
        self.headings = headings
        self.size = 2 if headings == GRID_HEADINGS else 3
        self.plans: list[Plan] = []
        self.line = 0
        self.left = 0
        self.done = False

    def fault(self, text: str) -> BadInput:
        """A fault at the present line."""
        return BadInput(f"{self.path}:{self.line}: {text}")

    def numbers(self, fields: list[str], low: int = 0) -> list[int]:
        """Whole numbers of a line."""
        values = [whole(text) for text in fields]
        if None in values or any(value < low for value in values):
            raise self.fault(f"'{' '.join(fields)[:60]}' are not the numbers that must stand here")
        return values

    def place(self, fields: list[str]) -> Place:
        """A cell and a heading; on a grid a cell."""
        place = Place(*self.numbers(fields), *[0] * (3 - self.size))
        if place.t >= self.headings:
            raise self.fault(f"heading {place.t} is not in 0..{self.headings - 1}")
        return place

    def pass_of(self, fields: list[str]) -> Pass:
        """The pass of a line."""
        expanded, told = self.numbers(fields[3:4])[0], fields[4:]
        if len(told) == 4 and (told[0], told[2]) == ("best", "bound"):
            return Pass(fields[1], expanded, self.numbers(told[1:2])[0], told[3], "")
        return Pass(fields[1], expanded, None, "", " ".join(told))

    def take(self, fields: list[str]) -> None:
        """Takes one line's fields."""
        if self.done:
            raise self.fault("a line stands after 'done'")
        word, count = fields[0], len(fields)
        plan = self.plans[-1] if self.plans else None
        if word == "refused":
            raise self.fault(f"the planner refused its input, so there is no plan: {' '.join(fields)}")
        if word in ("plan", "done") and plan and (not plan.result or self.left or
                                                  plan.result == "path" and plan.start is None):
            raise self.fault(f"the section of plan {plan.number} is not complete")
        if word == "plan" and count == 2:
            number = self.numbers(fields[1:])[0]
            if number != len(self.plans):
                raise self.fault(f"plan {number} stands where plan {len(self.plans)} must")
            self.plans.append(Plan(number, self.line))
        elif word == "done" and count == 1 and plan:
            self.done = True
        elif plan is None:
            raise OtherKind(str(self.fault("no report of a plan begins so: 'plan 0' must stand first")))
        elif word == "pass" and count >= 4 and fields[2] == "expanded" and not plan.result:
            plan.passes.append(self.pass_of(fields))
            plan.expanded += plan.passes[-1].expanded
        elif word == "spent" and count == 2 and not plan.result:
            self.numbers(fields[1:])
            plan.spent = True
        elif word in ("nopath", "unknown") and count == 1 and not plan.result:
            plan.result = word
        elif word == "path" and count == 6 and fields[2] == "cost" and fields[4] == "bound" and not plan.result:
            self.left, plan.cost = self.numbers([fields[1], fields[3]])
            if not re.fullmatch(r"[0-9]+\.[0-9]{3}", fields[5]):
                raise self.fault(f"'{fields[5][:40]}' is no bound with three decimals")
            plan.result, plan.bound = "path", fields[5]
        elif word == "pose" and count == 1 + self.size and plan.result == "path" and plan.start is None:
            plan.start = self.place(fields[1:])
        elif word == "step" and count == 2 + self.size and plan.start is not None and self.left:
            plan.steps.append(Step(self.numbers(fields[1:2])[0], self.place(fields[2:]), self.line))
            self.left -= 1
        else:
            raise self.fault(f"'{' '.join(fields)[:60]}' does not belong here in a report")

    def read(self) -> list[Plan]:
        """Reads the file; its plans."""
        for self.line, line in enumerate(read_lines(self.path), 1):
            fields = line.split()
            if fields:
                self.take(fields)
        if not self.done:
            raise self.fault("the report ends without 'done'")
        return self.plans


def read_report(path: str, headings: int = USUAL_HEADINGS) -> list[Plan]:
    """Reads a report of `temjoask plan` for a number of headings, or of `temjoask nav`; its plans in order."""
    return ReportReader(path, headings).read()


def centre_of(cell: int, place: Place) -> tuple[float, float]:
    """The centre of a cell in metres."""
    return (2 * place.x + 1) * cell / (2 * NANO), (2 * place.y + 1) * cell / (2 * NANO)


def direction_of(primitive: Primitive) -> str:
    """How a primitive moves: forward, backward (on the whole against its heading) or turn (in place)."""
    way = along = 0.0
    x, y, theta = 0, 0, primitive.poses[0].theta
    for pose in primitive.poses:
        middle = (theta + math.remainder(pose.theta - theta, FULL_TURN) / 2) / NANO
        dx, dy = pose.x - x, pose.y - y
        way += math.hypot(dx, dy)
        along += dx * math.cos(middle) + dy * math.sin(middle)
        x, y, theta = pose
    if way == 0:
        return "turn"
    return "backward" if along < -0.001 * way else "forward"


def trail(report: str, environment: Environment, primitives: list[Primitive], plan: Plan, start: Place | None) -> list[Leg]:
    """The steps of a path, in metres and radians from the map's lower left corner.

    The path must lead by the primitives from this start, where it is known, to the environment's end; otherwise the files do
    not belong together.
    """
    table = {(primitive.start, primitive.id): primitive for primitive in primitives}
    legs, place = [], plan.start
    if start not in (None, place):
        raise BadInput(f"{report}:{plan.line}: the path of plan {plan.number} does not begin at {start.x} {start.y} {start.t}")
    for step in plan.steps:
        primitive = table.get((place.t, step.id))
        if primitive is None:
            raise BadInput(f"{report}:{step.line}: no primitive {step.id} starts at heading {place.t}")
        if Place(place.x + primitive.dx, place.y + primitive.dy, primitive.to) != step.place:
            raise BadInput(f"{report}:{step.line}: primitive {step.id} at heading {place.t} does not lead there")
        if not environment.is_on_map(step.place.x, step.place.y):
            raise BadInput(f"{report}:{step.line}: the step leads off the map")
        x, y = centre_of(environment.cell, place)
        poses = [(x + pose.x / NANO, y + pose.y / NANO, pose.theta / NANO) for pose in primitive.poses]
        legs.append(Leg(primitive, direction_of(primitive), poses))
        place = step.place
    if place != environment.place_of(environment.end):
        raise BadInput(f"{report}:{plan.line}: the path of plan {plan.number} does not end at the environment's end")
    return legs


def leg_parts(leg: Leg) -> tuple[float, list[float]]:
    """A step's way in metres, and which part of the step lies before each pose: of its way, or in place of its turn."""
    pairs = list(zip(leg.poses, leg.poses[1:]))
    ways = [math.dist(one[:2], other[:2]) for one, other in pairs]
    turns = [abs(math.remainder(other[2] - one[2], 2 * math.pi)) for one, other in pairs]
    before = list(itertools.accumulate(ways if any(ways) else turns, initial=0.0))
    return sum(ways), [part / before[-1] if before[-1] else 1.0 for part in before]


def leg_seconds(environment: Environment, leg: Leg, way: float) -> float:
    """How long a step takes: its way or its turn, whichever takes longer."""
    bins = abs(leg.primitive.to - leg.primitive.start)
    turn = min(bins, environment.headings - bins) / environment.headings
    return max(way * NANO / environment.speed, turn * 8 * environment.turn45 / NANO)


def heading_angle(heading: int, headings: int) -> float:
    """The angle of a heading in radians."""
    return 2 * math.pi * heading / headings


def setting(reader: Callable[[str], int | None], shown: Callable[[int], str], kind: str,
            low: int, high: int) -> Callable[[str], int]:
    """A reader of a setting that refuses a text of another kind, and a value outside low to high."""
    def read(text: str) -> int:
        value = reader(text)
        if value is None or not low <= value <= high:
            raise argparse.ArgumentTypeError(f"'{text}' is no {kind} in {shown(low)}..{shown(high)}")
        return value
    return read


def metres(low: int, high: int) -> Callable[[str], int]:
    """A reader of a setting: a decimal from low to high billionths."""
    return setting(nano, decimal_text, "decimal", low, high)


def length(low: int, high: int) -> Callable[[str], int]:
    """A reader of a setting: a length from low to high nanometres, rounded as that of a ROS map is."""
    return setting(plain_length, decimal_text, "decimal", low, high)


def number(low: int, high: int) -> Callable[[str], int]:
    """A reader of a setting: a whole number from low to high."""
    return setting(whole, str, "whole number", low, high)


@contextlib.contextmanager
def in_order(order: str) -> Iterator[None]:
    """Says in which order files are named, where one of those that are read here is of another kind."""
    try:
        yield
    except OtherKind as error:
        raise BadInput(f"{error}; name the files in the order {order}") from None


def run(main: Callable[[], None]) -> None:
    """Runs a tool; a fault of its input is told on standard error, with exit status 2."""
    name = os.path.basename(sys.argv[0])
    INPUTS.clear()
    try:
        main()
    except BadInput as error:
        print(f"{name}: {error}", file=sys.stderr)
        sys.exit(2)
    except MemoryError:
        print(f"{name}: out of memory", file=sys.stderr)
        sys.exit(2)
    except KeyboardInterrupt:
        sys.exit(130)
