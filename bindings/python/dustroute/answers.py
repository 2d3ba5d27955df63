"""What goes in and what comes back: rooms, costs, routes and trees, and refusals as exceptions."""
from __future__ import annotations

from enum import IntEnum
from typing import NamedTuple, Tuple

from . import repository  # noqa: F401  (with it the tools can be imported)
from dustsheet.job import KINDS, MAX_CELLS, MAX_SIDE, Pos, place_of

Kind = IntEnum("Kind", [(name.upper().replace("-", "_"), code) for code, name in enumerate(KINDS)])
Kind.__doc__ = "What a cell holds: AIR is 0, PISTON 12."


class Room(NamedTuple):
    """A room's sides: x to the east, y up, z to the south. Each is 1 to 300, with at most 65,536 cells; others are refused."""
    wide: int
    high: int
    deep: int

    def cells(self) -> int:
        """How many cells the room has; 0 for a room that is refused."""
        good = all(1 <= side <= MAX_SIDE for side in self) and self.wide * self.high * self.deep <= MAX_CELLS
        return self.wide * self.high * self.deep if good else 0

    def cell(self, x: int, y: int, z: int) -> int:
        """The number of the cell at a position."""
        return (x * self.high + y) * self.deep + z

    def position(self, cell: int) -> Pos:
        """The position of the cell with a number."""
        return place_of(cell, self)


class Config(NamedTuple):
    """The node limit, up to 800,000, and what a flat step, a stair and a new support cost, in tenths, up to 1,000,000 each."""
    limit: int = 30_000
    horizontal: int = 10
    stair: int = 25
    support: int = 15


class Route(NamedTuple):
    """The answer of a search: its cells from start to goal, what they cost in tenths, how many cells were expanded.

    The cost is that of its steps and of its new supports together: one for each cell but the start that has Air beneath.
    What a builder fetches is another count: docs/DIFFERENCES.md, Supports; tools/dustsheet/supports.py has it."""
    path: Tuple[int, ...]
    cost: int
    expanded: int
    steps: int
    supports: int
    laid: int  # how many supports are new


class PlainRoute(NamedTuple):
    """The answer of the plain engine: a cheapest way's cells from start to goal, and what they cost in tenths."""
    path: Tuple[int, ...]
    cost: int


class Tree(NamedTuple):
    """The answer of a job. Cells are numbers; `room.position(cell)` is where one is. As a string it is what program `route` prints."""
    room: Room
    branches: Tuple[Tuple[int, ...], ...]  # each sink's branch in sheet order, from where it leaves the tree to the sink's terminal
    occupied: Tuple[int, ...]  # ascending
    repeaters: Tuple[int, ...]  # ascending

    def __str__(self) -> str:
        lines = [["net", len(self.branches), len(self.occupied)], *(["branch", *branch] for branch in self.branches),
                 ["repeaters", *self.repeaters]]
        return "".join(" ".join(map(str, line)) + "\n" for line in lines)


class Refusal(Exception):
    """Why there is no route or no tree: docs/RULES.md, Numbers that come back. `str(refusal)` is its words."""

    def __init__(self, number: int, detail: int, words: str) -> None:
        super().__init__(words)
        self.number, self.detail, self.words = number, detail, words

    def line(self) -> str:
        """What program `route` prints."""
        return "refused %d %d\n" % (self.number, self.detail)
