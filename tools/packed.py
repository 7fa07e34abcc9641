"""Lists of whole numbers as text that is short, and that a page in a browser unpacks quickly.

Each number takes the same count of bytes. All lowest bytes come first, then all second ones and so on, which compresses well; the
bytes are compressed by zlib and written in base64. As differences, each number but the first is stored as what it is more than the
one before, with the sign in the lowest bit: 0, -1, 1, -2 and so on become 0, 1, 2, 3.
"""

from __future__ import annotations

import base64
import itertools
import sys
import zlib
from array import array
from typing import Iterable, Union

Packed = dict[str, Union[int, str]]


def pack(numbers: Iterable[int], differences: bool = False) -> Packed:
    """Whole numbers below 2^63, packed; without differences none is negative."""
    values = numbers if isinstance(numbers, (bytes, bytearray)) else list(numbers)
    if differences:
        steps = [later - earlier for earlier, later in zip(itertools.chain([0], values), values)]
        values = [2 * step if step >= 0 else -2 * step - 1 for step in steps]
    if isinstance(values, (bytes, bytearray)):
        count, planes = 1, bytes(values)
    else:
        count = max(1, (max(values, default=0).bit_length() + 7) // 8)
        whole = array("Q", values)
        if sys.byteorder == "big":
            whole.byteswap()
        text = whole.tobytes()
        planes = b"".join(text[place::8] for place in range(count))
    return {"n": len(values), "bytes": count, "differences": int(differences),
            "zlib": base64.b64encode(zlib.compress(planes, 9)).decode("ascii")}
