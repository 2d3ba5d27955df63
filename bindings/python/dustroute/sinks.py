"""Why a tree couldn't reach a sink: which one, what may be said of it, and of one that is shut in where wire gets to."""
from __future__ import annotations

from enum import IntEnum, IntFlag
from typing import Iterator, NamedTuple, Optional, Tuple, Union

from .answers import Refusal, Room, Tree
from .calls import Job, call, head_of, sheet_of, tree_lengths, tree_told
from .library import library
from .memory import Memory
from .reasons import MOVES, Reason, Wall, walls_of
from dustsheet import words

STOPPED = (13, 14)


class Verdict(IntEnum):
    """What may be said of a sink that wasn't reached. Only the first two say that it can't be."""
    APPROACH_TAKEN = 1  # its approach holds a block: it can't be reached, at any costs
    SHUT_IN = 2  # this tree can't reach it, at any costs, limits and attempts; the reason is told
    CONFLICTS = 3  # wire can get to the tree, but each route tried was in conflict with it; there may be another way
    CUT_SHORT = 4  # the node limit or the queue was too small, or the costs are below 10 and 20; nothing is known


class Cause(IntFlag):
    """Why a cell is blocked at a sink's turn; several may hold."""
    OTHER_CONDUCTOR = 1  # another net's conductor
    OTHER_KEEPOUT = 2  # beside another net's conductor
    OTHER_CLEARANCE = 4
    OTHER_TERMINAL = 8
    RESERVED = 16
    BLOCK_KEEPOUT = 32  # beside a live block of the room
    OWN_CLEARANCE = 64  # the headroom of a stair of this net's branches so far


class Unreached(NamedTuple):
    """The sink at whose turn the tree stopped, with 13 or 14. The last three tell of a sink that is shut in; else they are empty, or 0."""
    room: Room
    number: int
    detail: int
    sink: int  # its place in the sheet, from 1
    verdict: Verdict
    reached: Tuple[int, ...]  # the cells that wire gets to from its approach, ascending; no cell of the net that it could join is among them
    moves: bytes  # twelve reasons for each cell of the room; of cells that are not reached they are 0
    causes: bytes  # a Cause for each cell of the room

    def reason(self, cell: int, move: int) -> Reason:
        """What is told of a move, by its place in MOVES, of a cell that is reached."""
        return Reason(self.moves[len(MOVES) * cell + move])

    def walls(self) -> Iterator[Wall]:
        """Each move of a cell that is reached and that is not allowed, by cell and then by move."""
        return walls_of(self.room, self.reached, self.moves)

    def cause(self, cell: int) -> Cause:
        """Why a cell is blocked; none where it isn't."""
        return Cause(self.causes[cell])


def why_tree(sheet_or_text: Union[bytes, str, Job], memory: Optional[Memory] = None, *, strict: bool = False) -> Union[Tree, Unreached]:
    """The tree of a job, as `route` finds it, or why a sink wasn't reached.

        told = dustroute.why_tree("room 1 1 3\\nblock solid 0 0 1\\nsource 0 0 0\\nsink 0 0 2\\n")
        told.sink, told.verdict.name, told.reached                                    # (1, 'SHUT_IN', (2,))

    Raises Refusal with number 1 to 5 or 7 to 9; BadText for a text that can't be read."""
    sheet = sheet_of(sheet_or_text)
    room, config = head_of(sheet)
    constants = library().constants
    lengths = {**tree_lengths(room), "values": constants["DUSTROUTE_TREE_WHY_VALUES"], "walls": constants["DUSTROUTE_MOVES"] * room.cells()}
    mode = constants["DUSTROUTE_STRICT" if strict else "DUSTROUTE_PUBLISHED"]
    called = call("tree_why", room, config, memory, lengths, strict=mode, sheet=sheet)
    if called.number in STOPPED:
        sink, verdict = called.lent["values"][20:22]
        reached = tuple(cell for cell, mark in enumerate(called.lent["reached"]) if mark)
        walls, causes = (bytes(called.lent[name]) for name in ("walls", "causes"))
        return Unreached(room, called.number, called.detail, sink, Verdict(verdict), reached, walls, causes)
    if called.number:
        raise Refusal(called.number, called.detail, words.of_sheet(called.number, called.detail, sheet))
    return tree_told(room, called)
