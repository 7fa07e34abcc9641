"""The plans of a report, each with the map as it is for its plan: what `draw` and `view` show."""

from __future__ import annotations

import argparse
from dataclasses import dataclass

import disc
import sbpl_files
from sbpl_files import BadInput, Environment, Leg, Place, Plan, Primitive

Cells = dict[tuple[int, int], int]


@dataclass
class Panel:
    """What one panel shows: its start, where of start and goal the robot does not fit, the cells that differ from the first map,
    those that just changed, and the path."""

    plan: Plan
    start: Place
    tight: set[Place]
    differing: Cells
    changed: Cells
    legs: list[Leg]


def counted(number: int, name: str) -> str:
    """A number with the name of what is counted."""
    return f"{number} {name}" + ("" if number == 1 else "s")


def fits(environment: Environment, costs: list[list[int]], radius: int, place: Place) -> bool:
    """Whether a robot of this radius can stand in the centre of a cell, on a map with these costs."""
    x, y, _ = place
    return (costs[y][x] < min(environment.obsthresh, environment.inscribed)
            and not disc.leaves(environment.width, environment.height, environment.cell, radius, x, y)
            and disc.obstacle(costs, environment.obsthresh, environment.cell, radius, x, y) is None)


def make_panels(words: argparse.Namespace, environment: Environment, primitives: list[Primitive]) -> list[Panel]:
    """The panels of a report, with the change file's batches written in turn."""
    plans = sbpl_files.read_report(words.report, environment.headings)
    batches, places = [], [environment.place_of(environment.start)]
    if words.changes:
        batches, places = sbpl_files.read_changes(words.changes, environment)
    if len(plans) > 1 and not words.changes:
        raise BadInput(f"{words.report}: it has {len(plans)} plans, so --changes must name the change file that they were made with")
    if len(plans) != len(batches) + 1:
        raise BadInput(f"{words.report}: it has {counted(len(plans), 'plan')}, and with {words.changes} there must be "
                       f"{len(batches) + 1}")
    costs = [row[:] for row in environment.costs]
    differing: Cells = {}
    panels = []
    for plan in plans:
        changed = sbpl_files.apply_batch(costs, batches[plan.number - 1]) if plan.number else {}
        for (x, y), cost in changed.items():
            differing[x, y] = cost
            if cost == environment.costs[y][x]:
                del differing[x, y]
        start = places[plan.number]
        legs = sbpl_files.trail(words.report, environment, primitives, plan, start) if plan.result == "path" else []
        ends = {start, environment.place_of(environment.end)}
        tight = {place for place in ends if not fits(environment, costs, words.radius, place)}
        panels.append(Panel(plan, start, tight, dict(differing), changed, legs))
    return panels
