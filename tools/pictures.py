"""Readers for pictures of maps: PGM, and PNG by zlib alone. A fault is raised as `BadInput`, which names the file."""

from __future__ import annotations

import re
import struct
import zlib
from dataclasses import dataclass
from itertools import accumulate
from typing import Iterator

import sbpl_files
from sbpl_files import BadInput

SIGNATURE = b"\x89PNG\r\n\x1a\n"
GREY, RGB, PALETTE, GREY_ALPHA, RGB_ALPHA = 0, 2, 3, 4, 6
# of each kind of PNG: how many samples a pixel has, and of how many bits they can be
CHANNELS = {GREY: 1, RGB: 3, PALETTE: 1, GREY_ALPHA: 2, RGB_ALPHA: 4}
DEPTHS = {GREY: (1, 2, 4, 8, 16), RGB: (8, 16), PALETTE: (1, 2, 4, 8), GREY_ALPHA: (8, 16), RGB_ALPHA: (8, 16)}
# the passes of an interlaced PNG: the first column and row of each, and its steps
PASSES = [(0, 0, 8, 8), (4, 0, 8, 8), (0, 4, 4, 8), (2, 0, 4, 4), (0, 2, 2, 4), (1, 0, 2, 2), (0, 1, 1, 2)]


@dataclass
class Picture:
    """A picture, the upper row first. A sample is a pixel's grey, or the sum of its colours."""

    width: int
    height: int
    maxval: int
    samples: list[int]
    alphas: list[int] | None = None
    opaque: int = 0

    def seen(self, least: int) -> list[int | None]:
        """The samples, with None for each pixel whose alpha is below the least."""
        if self.alphas is None:
            return self.samples
        return [sample if alpha >= least else None for sample, alpha in zip(self.samples, self.alphas)]


def read_picture(path: str, headings: int) -> Picture:
    """Reads a PGM or PNG picture that is no larger than the planner takes with this many headings."""
    data = sbpl_files.read_bytes(path)
    if data[:2] in (b"P2", b"P5"):
        return read_pgm(path, data, headings)
    if data[:8] == SIGNATURE:
        return read_png(path, data, headings)
    raise BadInput(f"{path}: the picture is no PGM (it begins with neither P2 nor P5) and no PNG")


def check_size(path: str, width: int, height: int, headings: int) -> None:
    """Refuses a size that the planner does not take."""
    most = sbpl_files.MOST_STATES // headings
    if not 1 <= width * height <= most:
        raise BadInput(f"{path}: the picture has {width} by {height} cells; with {headings} headings the planner takes 1 to {most}")


def header_number(path: str, data: bytes, at: int, name: str) -> tuple[int, int]:
    """A number of a PGM's header, after blanks and comments; with the offset after it."""
    found = re.compile(rb"(?:\s|#[^\n\r]*[\n\r])+([0-9]{1,9})(?![0-9])").match(data, at)
    if not found:
        raise BadInput(f"{path}: the picture's {name} is missing in its header")
    return int(found[1]), found.end()


def read_pgm(path: str, data: bytes, headings: int) -> Picture:
    """Reads a PGM picture, P2 or P5."""
    width, at = header_number(path, data, 2, "width")
    height, at = header_number(path, data, at, "height")
    maxval, at = header_number(path, data, at, "greatest value")
    if not 1 <= maxval <= 65535:
        raise BadInput(f"{path}: the picture's greatest value is {maxval}, which is not in 1..65535")
    check_size(path, width, height, headings)
    count = width * height
    samples = plain_samples(path, data[at:]) if data[:2] == b"P2" else raw_samples(path, data[at:], maxval, count)
    if len(samples) != count:
        raise BadInput(f"{path}: the picture has {len(samples)} pixels, and its header says {count}")
    if max(samples) > maxval:
        raise BadInput(f"{path}: a pixel is {max(samples)}, above the greatest value {maxval}")
    return Picture(width, height, maxval, samples)


def plain_samples(path: str, data: bytes) -> list[int]:
    """The pixels of a P2 picture."""
    words = re.sub(rb"#[^\n\r]*", b"", data).split()
    for word in words:
        if not re.fullmatch(rb"[0-9]{1,9}", word):
            raise BadInput(f"{path}: the pixel '{word[:40].decode('latin-1')}' is no number")
    return [int(word) for word in words]


def raw_samples(path: str, data: bytes, maxval: int, count: int) -> list[int]:
    """The pixels of a P5 picture: one byte each, or two where the greatest value is above 255."""
    if not data[:1].isspace():
        raise BadInput(f"{path}: no blank parts the picture's header from its pixels")
    size = 1 if maxval < 256 else 2
    if len(data) > 1 + size * count and not data[1 + size * count:].strip():
        data = data[:1 + size * count]
    if size == 1:
        return list(data[1:])
    return [data[at] * 256 + data[at + 1] for at in range(1, len(data) - 1, 2)]


def chunks(path: str, data: bytes) -> Iterator[tuple[bytes, bytes]]:
    """The chunks of a PNG, each its name and its content, without the last, which is empty."""
    at = len(SIGNATURE)
    while True:
        name, end = data[at + 4:at + 8], at + 8 + int.from_bytes(data[at:at + 4], "big")
        if end + 4 > len(data):
            raise BadInput(f"{path}: the PNG is cut short")
        if zlib.crc32(data[at + 4:end]) != int.from_bytes(data[end:end + 4], "big"):
            raise BadInput(f"{path}: the PNG is damaged: a checksum is wrong")
        if name == b"IEND":
            return
        yield name, data[at + 8:end]
        at = end + 4


@dataclass
class Png:
    """What stands in a PNG: its header, palette, transparency and rows, which are still packed."""

    width: int
    height: int
    depth: int
    kind: int
    interlaced: bool
    palette: bytes = b""
    clear: bytes | None = None
    packed: bytes = b""

    def passes(self) -> list[tuple[int, int, int, int, int, int]]:
        """The passes that have pixels: first column and row, steps, width and height."""
        passes = PASSES if self.interlaced else [(0, 0, 1, 1)]
        sized = [(x, y, dx, dy, -((x - self.width) // dx), -((y - self.height) // dy)) for x, y, dx, dy in passes]
        return [it for it in sized if it[4] > 0 and it[5] > 0]

    def has_alpha(self) -> bool:
        """Whether a pixel can be transparent."""
        return self.clear is not None or self.kind in (GREY_ALPHA, RGB_ALPHA)

    def line_bytes(self, width: int) -> int:
        """How many bytes a row of so many pixels has."""
        return (width * CHANNELS[self.kind] * self.depth + 7) // 8


def read_png(path: str, data: bytes, headings: int) -> Picture:
    """Reads a PNG picture."""
    png, parts = None, []
    for name, content in chunks(path, data):
        if png is None:
            png = png_header(path, name, content, headings)
        elif name == b"PLTE":
            png.palette = content
        elif name == b"tRNS":
            png.clear = content
        elif name == b"IDAT":
            parts.append(content)
    if png is None or not parts:
        raise BadInput(f"{path}: the PNG has no pixels")
    png.packed = b"".join(parts)
    samples = [[0] * png.width for _ in range(png.height)]
    alphas = [[0] * png.width for _ in range(png.height)] if png.has_alpha() else None
    for x, row, dx, values in rows_of(path, png):
        samples[row][x::dx] = shades(path, png, values)
        if alphas:
            alphas[row][x::dx] = opacities(png, values)
    full = 255 if png.kind == PALETTE else 2**png.depth - 1
    colours = 1 if png.kind in (GREY, GREY_ALPHA) else 3
    return Picture(png.width, png.height, colours * full, joined(samples), joined(alphas) if alphas else None, full)


def joined(rows: list[list[int]]) -> list[int]:
    """Rows one after another."""
    return [value for row in rows for value in row]


def png_header(path: str, name: bytes, content: bytes, headings: int) -> Png:
    """Reads the first chunk of a PNG."""
    if name != b"IHDR" or len(content) != 13:
        raise BadInput(f"{path}: the PNG does not begin with its header")
    width, height, depth, kind, packing, filters, interlaced = struct.unpack(">IIBBBBB", content)
    if depth not in DEPTHS.get(kind, ()) or packing or filters or interlaced > 1:
        raise BadInput(f"{path}: no PNG has such a header: kind {kind}, {depth} bits, {packing} {filters} {interlaced}")
    check_size(path, width, height, headings)
    return Png(width, height, depth, kind, interlaced == 1)


def rows_of(path: str, png: Png) -> Iterator[tuple[int, int, int, list[int]]]:
    """Each row of each pass: its first column, its row in the picture, the step between its pixels, and its samples."""
    passes = png.passes()
    size = sum((1 + png.line_bytes(width)) * height for _, _, _, _, width, height in passes)
    try:
        data = zlib.decompressobj().decompress(png.packed, size)
    except zlib.error:
        raise BadInput(f"{path}: the PNG is damaged: its pixels cannot be unpacked") from None
    if len(data) < size:
        raise BadInput(f"{path}: the PNG has too few pixels")
    at, step = 0, max(1, CHANNELS[png.kind] * png.depth // 8)
    for x, y, dx, dy, width, height in passes:
        length = png.line_bytes(width)
        line = bytes(length)
        for row in range(y, y + dy * height, dy):
            line = unfiltered(path, data[at], data[at + 1:at + 1 + length], line, step)
            at += 1 + length
            yield x, row, dx, unpacked(line, png.depth, width * CHANNELS[png.kind])


def unfiltered(path: str, kind: int, line: bytes, above: bytes, step: int) -> bytes:
    """The bytes of a row, whose filter is of this kind, under the row above; a pixel takes so many bytes."""
    if kind == 0:
        return line
    if kind == 1:
        found = bytearray(line)
        for channel in range(step):
            found[channel::step] = bytes(value & 255 for value in accumulate(line[channel::step]))
        return bytes(found)
    if kind == 2:
        return bytes((value + up) & 255 for value, up in zip(line, above))
    if kind not in (3, 4):
        raise BadInput(f"{path}: the PNG is damaged: no filter has the number {kind}")
    found, above = bytearray(step) + line, bytes(step) + above
    for at in range(step, len(found)):
        left, up = found[at - step], above[at]
        if kind == 3:
            guess = (left + up) // 2
        else:
            corner = above[at - step]
            by_left, by_up, by_corner = abs(up - corner), abs(left - corner), abs(left + up - 2 * corner)
            guess = left if by_left <= by_up and by_left <= by_corner else up if by_up <= by_corner else corner
        found[at] = (found[at] + guess) & 255
    return bytes(found[step:])


def unpacked(line: bytes, depth: int, count: int) -> list[int]:
    """The samples of a row's bytes."""
    if depth == 8:
        return list(line)
    if depth == 16:
        return list(struct.unpack(f">{count}H", line))
    mask = 2**depth - 1
    return [byte >> shift & mask for byte in line for shift in range(8 - depth, -1, -depth)][:count]


def shades(path: str, png: Png, values: list[int]) -> list[int]:
    """Of a row's samples each pixel's grey, or the sum of its colours."""
    step = CHANNELS[png.kind]
    if png.kind == PALETTE:
        sums = [sum(png.palette[at:at + 3]) for at in range(0, len(png.palette) - 2, 3)]
        if max(values) >= len(sums):
            raise BadInput(f"{path}: a pixel has colour {max(values)}, and the palette has {len(sums)} colours")
        return [sums[value] for value in values]
    if png.kind in (GREY, GREY_ALPHA):
        return values[::step]
    return [red + green + blue for red, green, blue in zip(values[::step], values[1::step], values[2::step])]


def opacities(png: Png, values: list[int]) -> list[int]:
    """Of a row's samples each pixel's alpha. Without a channel for it one colour, or some of the palette, are transparent."""
    step, full = CHANNELS[png.kind], 2**png.depth - 1
    if png.kind in (GREY_ALPHA, RGB_ALPHA):
        return values[step - 1::step]
    if png.kind == PALETTE:
        alphas = list(png.clear) + [255] * 256
        return [alphas[value] for value in values]
    clear = tuple(int.from_bytes(png.clear[at:at + 2], "big") for at in range(0, 2 * step, 2))
    return [0 if pixel == clear else full for pixel in zip(*(values[channel::step] for channel in range(step)))]
