"""Files to measure on: the map, primitives and changes of `temjoask demo`, and large primitives."""

import math

STEPS = [(1, 0), (2, 1), (1, 1), (1, 2), (0, 1), (-1, 2), (-1, 1), (-2, 1),
         (-1, 0), (-2, -1), (-1, -1), (-1, -2), (0, -1), (1, -2), (1, -1), (2, -1)]
ANGLES = [0, 3927, 7854, 11781, 15708, 19635, 23562, 27489,
          31416, 35343, 39270, 43197, 47124, 51051, 54978, 58905]


class Draws:
    """The generator's word and its draws."""

    def __init__(self, seed):
        self.word = seed

    def next(self):
        self.word = (self.word * 6364136223846793005 + 1442695040888963407) % 2**64
        return self.word >> 33


def units(n):
    """Ten-thousandths with four decimals."""
    return f"{'-' if n < 0 else ''}{abs(n) // 10000}.{abs(n) % 10000:04d}"


def along(cells, j):
    """The coordinate of pose j of ten on the way over this many cells."""
    way = (2 * 250 * abs(cells) * j + 9) // 18
    return way if cells >= 0 else -way


def primitives():
    """Five primitives for each of sixteen headings."""
    lines = ["resolution_m: 0.025000", "numberofangles: 16", "totalnumberofprimitives: 80"]
    for t, (ux, uy) in enumerate(STEPS):
        left = 62832 if t == 15 else ANGLES[(t + 1) % 16]
        right = -3927 if t == 0 else ANGLES[t - 1]
        for number, cell, to, mult, last in [
                (0, (ux, uy), t, 1, ANGLES[t]), (1, (-ux, -uy), t, 5, ANGLES[t]),
                (2, (0, 0), t + 1, 1, left), (3, (0, 0), t - 1, 1, right),
                (4, (4 * ux, 4 * uy), t, 1, ANGLES[t])]:
            lines += [f"primID: {number}", f"startangle_c: {t}", f"endpose_c: {cell[0]} {cell[1]} {to}",
                      f"additionalactioncostmult: {mult}", "intermediateposes: 10"]
            for j in range(10):
                angle = last if j == 9 else ANGLES[t]
                lines.append(f"{units(along(cell[0], j))} {units(along(cell[1], j))} {units(angle)}")
    return "\n".join(lines) + "\n"


def drawn_costs(draws, n):
    """The costs of n by n cells, drawn as `demo` draws them."""
    costs = []
    for _ in range(n * n):
        drawn = draws.next() % 100
        costs.append(254 if drawn < 15 else 20 if drawn < 30 else 0)
    costs[n + 1] = costs[(n - 2) * n + n - 2] = 0
    return costs


def rows_of_costs(costs, n):
    return "".join(" ".join(map(str, costs[y * n:(y + 1) * n])) + "\n" for y in range(n))


def grid(draws, n):
    """A grid of n by n cells for `nav`, drawn as `demo` draws it."""
    head = f"discretization(cells): {n} {n}\nobsthresh: 254\nstart(cells): 1 1\nend(cells): {n - 2} {n - 2}\nenvironment:\n"
    return head + rows_of_costs(drawn_costs(draws, n), n)


def environment(draws, n):
    """A map of n by n cells, drawn as `demo` draws it."""
    costs = drawn_costs(draws, n)
    center = lambda cell: f"{0.025 * cell + 0.0125:.4f}"
    head = (f"discretization(cells): {n} {n}\nobsthresh: 254\ncost_inscribed_thresh: 253\n"
            "cost_possibly_circumscribed_thresh: 128\ncellsize(meters): 0.025\nnominalvel(mpersecs): 1.0\n"
            f"timetoturn45degsinplace(secs): 2.0\nstart(meters,rads): {center(1)} {center(1)} 0\n"
            f"end(meters,rads): {center(n - 2)} {center(n - 2)} 0\nenvironment:\n")
    return head + rows_of_costs(costs, n)


def hall(draws, n, radius, walled=False):
    """A map of n by n cells for a robot of this radius in cells: pillars in an open hall, and a way from corner to corner; or with
    walls round the start."""
    first, last = radius + 1, n - radius - 2
    costs = [[0] * n for _ in range(n)]
    for _ in range(max(1, (n - 2 * radius) // 16)):
        x, y = first + draws.next() % (last - first), first + draws.next() % (last - first)
        if min(abs(x - first) + abs(y - first), abs(x - last) + abs(y - last)) > 2 * radius + 4:
            costs[y][x] = 254
    if walled:
        for x, y in STEPS:
            if max(abs(x), abs(y)) == 1:
                costs[first + y][first + x] = 254
    center = lambda cell: f"{0.025 * cell + 0.0125:.4f}"
    head = (f"discretization(cells): {n} {n}\nobsthresh: 254\ncost_inscribed_thresh: 253\n"
            "cost_possibly_circumscribed_thresh: 128\ncellsize(meters): 0.025\nnominalvel(mpersecs): 1.0\n"
            f"timetoturn45degsinplace(secs): 2.0\nstart(meters,rads): {center(first)} {center(first)} 0\n"
            f"end(meters,rads): {center(last)} {center(last)} 0\nenvironment:\n")
    return head + "".join(" ".join(map(str, line)) + "\n" for line in costs)


def changes(draws, n, batches, cells):
    """Batches of drawn writes, none to the start's cell or the end's."""
    lines = []
    for _ in range(batches):
        for _ in range(cells):
            x, y, cost = draws.next() % n, draws.next() % n, 254 if draws.next() % 2 else 0
            if (x, y) not in ((1, 1), (n - 2, n - 2)):
                lines.append(f"cell {x} {y} {cost}")
        lines.append("replan")
    return "\n".join(lines) + "\n"


def moved(text, legs):
    """An environment in which a robot has driven these legs, each of which ended at a place, while a cell closed."""
    lines = text.splitlines()
    first = lines.index("environment:") + 1
    for place, (x, y) in legs:
        costs = lines[first + y].split()
        costs[x] = "254"
        lines[first + y] = " ".join(costs)
    if legs:
        x, y, t = legs[-1][0]
        at = next(i for i, line in enumerate(lines) if line.startswith("start"))
        lines[at] = f"start(meters,rads): {0.025 * x + 0.0125:.4f} {0.025 * y + 0.0125:.4f} {units(ANGLES[t])}"
    return "\n".join(lines) + "\n"


def long_primitive(poses):
    """One primitive with this many poses on a half circle of a hundred cells."""
    lines = ["resolution_m: 0.025", "numberofangles: 16", "totalnumberofprimitives: 1", "primID: 0",
             "startangle_c: 0", "endpose_c: 100 0 0", "additionalactioncostmult: 1", f"intermediateposes: {poses}"]
    for j in range(poses):
        a = math.pi * j / (poses - 1)
        lines.append(f"{1.25 - 1.25 * math.cos(a):.6f} {1.25 * math.sin(a):.6f} 0")
    lines[-1] = "2.5 0 0"
    return "\n".join(lines) + "\n"
