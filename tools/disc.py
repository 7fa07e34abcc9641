"""What the robot's disc touches where it stands in the centre of a cell, by the planner's rule.

A disc overlaps a cell whose closed square is nearer to the disc's centre than the radius. Lengths are in nanometres, and doubled
where half a cell counts, so that they are whole.
"""

from __future__ import annotations


def gap(cells: int, cell: int) -> int:
    """Twice the gap between the centre of a cell and a column or row that is this many cells away; 0 for its own."""
    return max(0, (2 * abs(cells) - 1) * cell)


def obstacle(costs: list[list[int]], least: int, cell: int, radius: int, x: int, y: int) -> tuple[int, int] | None:
    """The nearest cell under the disc that costs this much or more; None where there is none."""
    reach, nearest = (2 * radius + cell) // (2 * cell) + 1, None
    left, right = max(0, x - reach), x + reach + 1
    for row in range(max(0, y - reach), min(len(costs), y + reach + 1)):
        part = costs[row][left:right]
        if max(part) >= least:
            found = [(gap(at - x, cell)**2 + gap(row - y, cell)**2, at, row) for at, cost in enumerate(part, left) if cost >= least]
            nearest = min(found) if nearest is None else min(nearest, *found)
    return nearest[1:] if nearest and nearest[0] < (2 * radius)**2 else None


def leaves(width: int, height: int, cell: int, radius: int, x: int, y: int) -> bool:
    """Whether the disc reaches beyond the edge of a map of this many cells."""
    return gap(min(x + 1, y + 1, width - x, height - y), cell) < 2 * radius


def overlapped(cell: int, radius: int, x: int, y: int) -> list[tuple[int, int]]:
    """The cells that the disc overlaps where its centre is at this point, in nanometres; the centre's own is one of them."""
    found = []
    for row in range((y - radius) // cell, (y + radius) // cell + 1):
        for column in range((x - radius) // cell, (x + radius) // cell + 1):
            aside, above = max(column * cell - x, 0, x - (column + 1) * cell), max(row * cell - y, 0, y - (row + 1) * cell)
            if aside**2 + above**2 < radius**2 or (column, row) == (x // cell, y // cell):
                found.append((column, row))
    return found
