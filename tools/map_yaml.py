"""Reader for the YAML file of a map of the ROS map server. A fault is raised as `BadInput`, which names the file and the line."""

from __future__ import annotations

import os
import re
from dataclasses import dataclass
from decimal import Decimal
from typing import Callable

import sbpl_files
from sbpl_files import NANO, BadInput

QUOTED = r"""(?:"(?:[^"\\]|\\.)*"|'(?:[^']|'')*')"""
BLANKS = re.compile(r"\s*")
# a quote opens a quoted scalar only where a scalar begins
BEFORE_COMMENT = re.compile(rf"(?:(?<![^\s\[{{,:]){QUOTED}|(?<=\S)#|[^#])*")
PAIR = re.compile(rf"({QUOTED}|[A-Za-z0-9_](?:[^:'\"#\[\]{{}}]*[^\s:'\"#\[\]{{}}])?)\s*:(?:\s+(.*))?")
ITEM = re.compile(r"-(?:\s+|$)(.*)")
FLOW_SCALAR = re.compile(rf"{QUOTED}|[^\s,\[\]{{}}:'\"](?:[^,\[\]{{}}:]|:(?![\s,\[\]{{}}]|$))*")
ESCAPE = re.compile(r"\\(?:x([0-9A-Fa-f]{2})|u([0-9A-Fa-f]{4})|(.))", re.DOTALL)
DEEPEST = 8
NEAR_ZERO = Decimal("1e-9")


@dataclass
class Map:
    """What the YAML file says; lengths in nanometres."""

    image: str
    resolution: int
    origin: tuple[int, int]
    negate: bool
    occupied: float
    free: float
    mode: str


def shown(text: str) -> str:
    """The beginning of a text, as a message shows it."""
    return "".join(letter if letter.isprintable() else "?" for letter in text[:40])


def unquoted(text: str) -> str:
    """A scalar without its quotes."""
    if text[:1] == "'":
        return text[1:-1].replace("''", "'")
    if text[:1] == '"':
        return ESCAPE.sub(lambda it: chr(int(it[1] or it[2], 16)) if it[1] or it[2] else {"n": "\n", "t": "\t"}.get(it[3], it[3]),
                          text[1:-1])
    return text.strip()


class Flow:
    """A text in flow style: lists in brackets, mappings in braces, scalars. A fault is raised as `ValueError`."""

    def __init__(self, text: str):
        self.text = text
        self.at = 0

    def takes(self, mark: str) -> bool:
        """Takes a mark where it stands next, after blanks; whether it does."""
        self.at = BLANKS.match(self.text, self.at).end()
        if not self.text.startswith(mark, self.at):
            return False
        self.at += len(mark)
        return True

    def scalar(self) -> str:
        """Takes a scalar."""
        found = FLOW_SCALAR.match(self.text, BLANKS.match(self.text, self.at).end())
        if not found:
            raise ValueError("a value is missing in a list or mapping")
        self.at = found.end()
        return unquoted(found[0])

    def items(self, end: str, item: Callable) -> list:
        """Takes items between commas, up to the closing mark."""
        found = []
        while not self.takes(end):
            found.append(item())
            if not self.takes(","):
                if self.takes(end):
                    break
                raise ValueError(f"',' or '{end}' is missing in a list or mapping")
        return found

    def value(self, depth: int = 0) -> str | list:
        """Takes a scalar, or a list or mapping with all that is in it; of a mapping its pairs."""
        if depth > DEEPEST:
            raise ValueError("lists or mappings are nested too deep")
        if self.takes("["):
            return self.items("]", lambda: self.value(depth + 1))
        if self.takes("{"):
            return self.items("}", lambda: self.pair(depth + 1))
        return self.scalar()

    def pair(self, depth: int = 0) -> tuple[str, str, int]:
        """Takes a key and its value; the key, the value's text, and where the key begins."""
        self.takes("")
        start, key = self.at, self.scalar()
        if not self.takes(":"):
            raise ValueError(f"no ':' follows '{shown(key)}'")
        self.takes("")
        begin = self.at
        self.value(depth)
        return key, self.text[begin:self.at], start

    def whole(self, take: Callable) -> str | list:
        """Takes something, after which nothing may stand."""
        found = take()
        self.takes("")
        if self.at < len(self.text):
            raise ValueError(f"'{shown(self.text[self.at:])}' stands after the value")
        return found


def scalar_of(text: str) -> str:
    """A scalar that stands alone."""
    if text[:1] in ("'", '"') and not re.fullmatch(QUOTED, text, re.DOTALL):
        raise ValueError("a quote is not closed, or text stands after it")
    return unquoted(text)


def value_of(text: str) -> str | list:
    """The value of a text: a list in either style, or a scalar."""
    if text[:1] in ("[", "{"):
        flow = Flow(text)
        return flow.whole(flow.value)
    lines = text.split("\n")
    if ITEM.fullmatch(lines[0]):
        items = [ITEM.fullmatch(line) for line in lines]
        if None in items:
            raise ValueError("a line of its list does not begin with '- '")
        return [scalar_of(item[1]) for item in items]
    return scalar_of(" ".join(lines))


def flow_pairs(path: str, lines: list[str], first: int) -> list[tuple[str, str, int]]:
    """The pairs of a file that is a mapping in flow style from this line on."""
    flow = Flow("\n".join(lines[first - 1:]))
    try:
        flow.takes("{")
        pairs = flow.whole(lambda: flow.items("}", flow.pair))
    except ValueError as error:
        line = first + flow.text.count("\n", 0, flow.at)
        raise BadInput(f"{path}:{line}: {error}") from None
    return [(key, text, first + flow.text.count("\n", 0, start)) for key, text, start in pairs]


def is_open(text: str) -> bool:
    """Whether a text begins a list or mapping in flow style and does not end it."""
    marks = re.sub(QUOTED, "", text) if text[:1] in ("[", "{") else ""
    return sum(marks.count(mark) for mark in "[{") > sum(marks.count(mark) for mark in "]}")


def block_pairs(path: str, lines: list[str]) -> list[tuple[str, str, int]]:
    """The pairs of a file that has a key on a line, each with its text on this and the following lines."""
    pairs: list[tuple[str, str, int]] = []
    indent = None
    for number, line in enumerate(lines, 1):
        text = line.strip()
        if not text:
            continue
        deep = len(line) - len(line.lstrip())
        if indent is None and text[0] == "{":
            return flow_pairs(path, lines, number)
        indent = deep if indent is None else indent
        found = PAIR.fullmatch(text)
        if pairs and (deep > indent or deep == indent and ITEM.fullmatch(text) or is_open(pairs[-1][1])):
            key, before, start = pairs[-1]
            if found and before and before[0] not in "[{-" and not PAIR.fullmatch(before.split("\n")[0]):
                raise BadInput(f"{path}:{number}: this key is indented deeper than the one before it, which has a value")
            pairs[-1] = (key, f"{before}\n{text}" if before else text, start)
        elif deep == indent and found:
            pairs.append((unquoted(found[1]), found[2] or "", number))
        else:
            raise BadInput(f"{path}:{number}: neither 'key: value' nor an item of a list")
    return pairs


def read_yaml(path: str) -> dict[str, tuple[str, int]]:
    """Reads a mapping: its keys, each with the text of its value and its line."""
    text = sbpl_files.read_bytes(path).decode("utf-8-sig", "surrogateescape")
    lines = []
    for line in text.split("\n"):
        line = BEFORE_COMMENT.match(re.sub(r"\A---(?=\s|\Z)", "   ", line))[0].rstrip()
        lines.append("" if line == "..." or line[:1] == "%" else line)
    found: dict[str, tuple[str, int]] = {}
    for key, value, number in block_pairs(path, lines):
        if key in found:
            raise BadInput(f"{path}:{number}: the key '{shown(key)}' stands twice")
        found[key] = (value, number)
    return found


class Keys:
    """The values of a YAML file's keys, read one by one."""

    def __init__(self, path: str):
        self.path = path
        self.found = read_yaml(path)

    def fault(self, key: str, text: str) -> BadInput:
        """A fault of a key's value."""
        return BadInput(f"{self.path}:{self.found[key][1]}: {key} {text}")

    def value(self, key: str) -> str | list:
        """A key's value."""
        if key not in self.found:
            raise BadInput(f"{self.path}: the key '{key}' is missing")
        try:
            return value_of(self.found[key][0])
        except ValueError as error:
            raise self.fault(key, f"cannot be read: {error}") from None

    def scalar(self, key: str, default: str | None = None) -> str:
        """A key's value, which is no list."""
        if key not in self.found and default is not None:
            return default
        value = self.value(key)
        if isinstance(value, list) or not value:
            raise self.fault(key, "must be one value")
        return value

    def number(self, key: str) -> Decimal:
        """A key's number."""
        value = sbpl_files.decimal_of(self.scalar(key))
        if value is None:
            raise self.fault(key, f"is '{shown(self.scalar(key))}', which is no number")
        return value

    def resolution(self) -> int:
        """The size of a cell."""
        wanted = "must be the size of a cell in metres: above 0, and at most 1000"
        text = self.scalar("resolution")
        value = sbpl_files.decimal_of(text)
        if value is None:
            raise self.fault("resolution", f"is '{shown(text)}', which is no number; it {wanted}")
        size = sbpl_files.length_of(value)
        if not 0 < size <= 1000 * NANO:
            raise self.fault("resolution", f"is {shown(text)}, and {wanted}, in whole nanometres")
        return size

    def part(self, key: str) -> float:
        """A key's number from 0 to 1."""
        value = self.number(key)
        if not 0 <= value <= 1:
            raise self.fault(key, "is not in 0..1")
        return float(value)

    def flag(self, key: str) -> bool:
        """A key's yes or no."""
        value = self.scalar(key).lower()
        if value not in ("0", "1", "false", "true", "no", "yes", "off", "on"):
            raise self.fault(key, "is neither 0 nor 1")
        return value in ("1", "true", "yes", "on")

    def mode(self) -> str:
        """How pixels become occupancies."""
        mode = self.scalar("mode", "trinary")
        if mode.lower() not in ("trinary", "scale", "raw"):
            raise self.fault("mode", f"is '{shown(mode)}', and neither trinary nor scale nor raw")
        return mode.lower()

    def origin(self) -> tuple[int, int]:
        """The origin: x and y; its rotation must be 0, or so near to it that it is a rounding."""
        value = self.value("origin")
        numbers = [sbpl_files.decimal_of(text) for text in value if isinstance(text, str)] if isinstance(value, list) else []
        if len(numbers) != 3 or len(value) != 3 or None in numbers:
            raise self.fault("origin", "must be a list of three numbers: x, y and the rotation")
        if abs(numbers[2]) >= NEAR_ZERO:
            raise self.fault("origin", f"is rotated by {numbers[2]}; only maps with rotation 0 are read")
        return sbpl_files.length_of(numbers[0]), sbpl_files.length_of(numbers[1])


def read_map(path: str) -> Map:
    """Reads the YAML file of a map."""
    keys = Keys(path)
    image = os.path.join(os.path.dirname(path), keys.scalar("image"))
    resolution, origin, negate, mode = keys.resolution(), keys.origin(), keys.flag("negate"), keys.mode()
    occupied, free = keys.part("occupied_thresh"), keys.part("free_thresh")
    if free > occupied:
        raise keys.fault("free_thresh", "is above occupied_thresh")
    return Map(image, resolution, origin, negate, occupied, free, mode)


def read_frame(path: str) -> tuple[int, tuple[int, int]]:
    """The cell size and the origin that the YAML file of a map says, as `from-costmap` reads them."""
    keys = Keys(path)
    return keys.resolution(), keys.origin()
