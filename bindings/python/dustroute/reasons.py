"""Why a search finds no route: the cells it gets to, and what stands round them."""
from __future__ import annotations

from enum import IntEnum
from typing import Iterator, NamedTuple, Optional, Sequence, Tuple, Union

from .answers import Config, Refusal, Room, Route
from .calls import call, route_told
from .library import library
from .memory import Memory
from dustsheet import words
from dustsheet.job import Pos

# the twelve moves in their order: to x + 1, x - 1, z + 1 and z - 1, each one down, level and one up
MOVES: Tuple[Pos, ...] = tuple((x, up, z) for x, z in ((1, 0), (-1, 0), (0, 1), (0, -1)) for up in (-1, 0, 1))
NO_ROUTE = 11


class Reason(IntEnum):
    """What is told of a move; where several hold, the least."""
    ALLOWED = 0
    OUTSIDE = 1  # out of the room
    TAKEN = 2  # the cell holds a block; redstone wire at the start or the goal doesn't count
    BAD_SUPPORT = 3  # what is right beneath the cell bears no wire
    KEPT_FREE = 4  # the cell is blocked Air; of a tree alone, as the next
    SUPPORT_KEPT_FREE = 5  # what is right beneath the cell is blocked Air; in strict mode alone


class Wall(NamedTuple):
    """A move of a cell that is reached and that is not allowed."""
    cell: int
    move: int  # its place in MOVES
    to: Optional[int]  # the cell that it would enter; None outside
    reason: Reason


class WalledIn(NamedTuple):
    """The cells to which lawful steps lead from the start. They hold the start and lack the goal, and no lawful step leaves them: there
    is no way, at any costs, node limit or queue."""
    room: Room
    expanded: int
    reached: Tuple[int, ...]  # ascending
    moves: bytes  # twelve reasons for each cell of the room; of cells that are not reached they are 0

    def reason(self, cell: int, move: int) -> Reason:
        """What is told of a move, by its place in MOVES, of a cell that is reached."""
        return Reason(self.moves[len(MOVES) * cell + move])

    def walls(self) -> Iterator[Wall]:
        """Each move of a cell that is reached and that is not allowed, by cell and then by move."""
        return walls_of(self.room, self.reached, self.moves)


def walls_of(room: Room, reached: Sequence[int], moves: bytes) -> Iterator[Wall]:
    """The moves of these cells that are not allowed, by the reasons of all, twelve a cell."""
    for cell in reached:
        for move in range(len(MOVES)):
            reason = Reason(moves[len(MOVES) * cell + move])
            if reason:
                yield Wall(cell, move, neighbour(room, cell, move), reason)


def neighbour(room: Room, cell: int, move: int) -> Optional[int]:
    """The cell that a move leads to; None outside."""
    x, y, z = (place + by for place, by in zip(room.position(cell), MOVES[move]))
    inside = all(0 <= place < side for place, side in zip((x, y, z), room))
    return room.cell(x, y, z) if inside else None


def why(room: Room, kinds: Sequence[int], start: int, goal: int, config: Config = Config(),
        memory: Optional[Memory] = None) -> Union[Route, WalledIn]:
    """The route from cell `start` to cell `goal`, as `search` finds it, or why there is none.

        told = dustroute.why(dustroute.Room(3, 1, 1), [0, 1, 0], start=0, goal=2)      # a block stands in the middle
        told.reached                                                                   # (0,)
        [(wall.to, wall.reason.name) for wall in told.walls() if wall.to is not None]  # [(1, 'TAKEN')]

    Raises Refusal with number 2 to 6, 10, or 12: then the search was cut short by the node limit, and no wall is named."""
    room, config = Room(*room), Config(*config)
    constants = library().constants
    lengths = {"values": constants["DUSTROUTE_SEARCH_TOTALS"], "walls": constants["DUSTROUTE_MOVES"] * room.cells()}
    called = call("why", room, config, memory, lengths, kinds=bytes(kinds), start=start, goal=goal)
    if called.number == NO_ROUTE:
        reached = tuple(cell for cell, mark in enumerate(called.lent["reached"]) if mark)
        return WalledIn(room, called.detail, reached, bytes(called.lent["walls"]))
    if called.number:
        raise Refusal(called.number, called.detail, words.of_search(called.number, called.detail, room, config.limit))
    return route_told(called)
