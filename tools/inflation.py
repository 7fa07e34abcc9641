"""Costs that fall with the distance from obstacles, as those of the inflation layer of Nav2."""

from __future__ import annotations

import math

from sbpl_files import NANO

INSCRIBED = 253


class Decay(dict):
    """The cost at a squared distance in cells, worked out when it is first asked for."""

    def __init__(self, cell: int, radius: int, decay: int):
        super().__init__()
        self.cell, self.radius, self.decay = cell, radius, decay

    def __missing__(self, square: int) -> int:
        """The cost as Nav2's `computeCost` has it; what is within the radius is told exactly."""
        if square * self.cell**2 <= self.radius**2:
            cost = INSCRIBED
        else:
            away = math.sqrt(square) * (self.cell / NANO) - self.radius / NANO
            cost = int((INSCRIBED - 1) * math.exp(-(self.decay / NANO) * away))
        self[square] = cost
        return cost

    def reach(self, most: int) -> int:
        """How many cells away, at most this many, the cost is 0 for certain."""
        return min(most, int((self.radius / NANO + math.log(INSCRIBED) / (self.decay / NANO)) / (self.cell / NANO)) + 2)


def column_gaps(grid: list[list[int]], obstacle: int, far: int) -> list[list[int]]:
    """For each cell how many rows away the nearest obstacle in its column is; far or more where none is nearer than that."""
    gaps, last = [], [far] * len(grid[0])
    for row in grid:
        last = [0 if cost >= obstacle else gap + 1 for cost, gap in zip(row, last)]
        gaps.append(last)
    for y in range(len(gaps) - 2, -1, -1):
        gaps[y] = last = [gap if gap <= below else below + 1 for gap, below in zip(gaps[y], last)]
    return gaps


def nearest(gaps: list[int], far: int) -> list[tuple[int, int, int, int]]:
    """The parts of a row in which one column has the nearest obstacle: the first cell, the one after the last, the column, and
    how many rows away its obstacle is. Obstacles of the row itself may be left out.

    These are the lower envelope of the parabolas gap^2 + (x - column)^2, of which a later one is the lower from some x on.
    """
    columns, starts, heights = [], [], []
    for x, (before, gap, after) in enumerate(zip([1] + gaps, gaps, gaps[1:] + [1])):
        if gap >= far or not (before or gap or after):
            continue
        height, start = gap * gap + x * x, 0
        while columns:
            start = (height - heights[-1]) // (2 * (x - columns[-1])) + 1
            if start > starts[-1]:
                break
            del columns[-1], starts[-1], heights[-1]
            start = 0
        if start < len(gaps):
            columns.append(x)
            starts.append(start)
            heights.append(height)
    parts = zip(starts, starts[1:] + [len(gaps)], columns)
    return [(start, end, x, gaps[x]) for start, end, x in parts if end > start + 1 or gaps[x]]


def inflate(grid: list[list[int]], obstacle: int, cell: int, radius: int, decay: int) -> None:
    """Raises the costs of cells near cells that cost so much or more.

    Lengths are in nanometres, the decay in billionths per metre. Distances are between the centres of cells, and exact: the
    nearest obstacle of each column is found first, and by these the nearest of all.
    """
    costs = Decay(cell, radius, decay)
    far = costs.reach(len(grid) + len(grid[0]))
    for row, gaps in zip(grid, column_gaps(grid, obstacle, far)):
        for start, end, column, gap in nearest(gaps, far):
            start, end, square = max(start, column - far), min(end, column + far), gap * gap
            found = [costs[square + away * away] for away in range(start - column, end - column)]
            row[start:end] = [cost if cost > own else own for cost, own in zip(found, row[start:end])]
