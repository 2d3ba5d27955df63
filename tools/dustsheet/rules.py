"""What the router makes of a good job before its first search: ends, numbers 7 to 9, and what is blocked at the outset:
docs/RULES.md, The tree of one net."""
from __future__ import annotations

from typing import Iterator, List, Optional, Set, Tuple

from .job import (AHEAD, BLOCK_POWER, LEVER, REDSTONE_BLOCK, REPEATER, SOLID, TORCH, AnyEnd, Block, Fault, Job, Pos, spell)


def step(at: Pos, by: Pos) -> Pos:
    return (at[0] + by[0], at[1] + by[1], at[2] + by[2])


def terminal(end: AnyEnd) -> Pos:
    """Where the wire of this end lies. Of a block-power end that faces up, down or nowhere there is none: number 8 comes first."""
    return step(end.at, AHEAD[end.facing]) if end.port == BLOCK_POWER else end.at


def approach(sink: AnyEnd) -> Pos:
    """The cell from which a sink's terminal is reached."""
    return step(terminal(sink), AHEAD[sink.facing]) if sink.facing in AHEAD else terminal(sink)


def ample_limit(job: Job) -> Optional[int]:
    """The least node limit that is known to suffice for each search of this job: five for each cell but one, and one more. At a flat step
    below 10 or a stair below 20 none is known."""
    flat, stair, _ = job.costs
    return 5 * (job.cells() - 1) + 1 if flat >= 10 and stair >= 20 else None


def end_name(place: int) -> str:
    """An end by its number in a refusal's detail: 0 the source, k the k-th sink."""
    return "sink %d" % place if place else "the source"


# ---- numbers 7, 8 and 9

def is_step(one: Pos, other: Pos) -> bool:
    """Whether one of the twelve moves leads from a cell to another."""
    return abs(one[0] - other[0]) + abs(one[2] - other[2]) == 1 and abs(one[1] - other[1]) <= 1


def late_faults(job: Job) -> Iterator[Fault]:
    """Of a job without a fault 1 to 5: each repeated block, and each end that numbers 8 and 9 refuse, in the router's order."""
    yield from _repeats(job)
    ends = [job.source, *job.sinks]
    powerless = [place for place, end in enumerate(ends) if end.port == BLOCK_POWER and end.facing not in AHEAD]
    for place in powerless:
        yield _end_fault(8, place, "block-power needs a facing: north, east, south or west")
    for place, end in enumerate(ends):
        if place not in powerless:
            yield from _outside(job, place, end)


def _repeats(job: Job) -> Iterator[Fault]:
    held: Set[Pos] = set()
    repeats = []
    for index in sorted(range(len(job.blocks)), key=lambda index: (job.blocks[index].node, index)):
        block = job.blocks[index]
        if block.at in held:
            repeats.append((block.node, job.number(block.at), index))
        held.add(block.at)
    for _, cell, index in sorted(repeats):
        words = "a second block in cell %s, number %d; a cell holds one block" % (spell(job.blocks[index].at), cell)
        yield Fault(7, "blocks", index, words)


def _outside(job: Job, place: int, end: AnyEnd) -> Iterator[Fault]:
    if not job.holds(terminal(end)):
        yield _end_fault(9, place, "its terminal %s, the cell it faces, is outside the room" % spell(terminal(end)))
    elif place and not job.holds(approach(end)):  # a source has no approach
        yield _end_fault(9, place, "its approach %s, the cell that its terminal faces, is outside the room" % spell(approach(end)))


def _end_fault(number: int, place: int, words: str) -> Fault:
    return Fault(number, "sinks" if place else "source", max(place - 1, 0), words)


# ---- what is blocked at the outset

def keepout(at: Pos) -> List[Pos]:
    """The four neighbours, each also one up and one down."""
    return [step(step(at, by), (0, up, 0)) for by in AHEAD.values() for up in (-1, 0, 1)]


def blocked(job: Job) -> Set[Pos]:
    """The cells of the room that are blocked at the outset, of a job that no number up to 9 refuses."""
    cells: Set[Pos] = {*job.conductors, *job.clearances, *job.terminals, *job.reserved}
    for at in job.conductors:
        cells.update(keepout(at))
    for _, live in live_cells(job):
        cells.update(keepout(live))
    for end in _own_cells(job):
        cells.discard(end)
        cells.discard(step(end, (0, -1, 0)))
    return {at for at in cells if job.holds(at)}


def live_cells(job: Job) -> List[Tuple[Block, Pos]]:
    """Each block that makes a cell live, round which no wire may lie, with that cell."""
    solids = {(block.node, block.at) for block in job.blocks if block.kind == SOLID}
    found = [(block, _live_cell(block, solids)) for block in job.blocks]
    return [(block, cell) for block, cell in found if cell is not None]


def _live_cell(block: Block, solids: Set[Tuple[int, Pos]]) -> Optional[Pos]:
    """The cell that this block makes live, round which no wire may lie: its own, or the Solid of its node that a Repeater feeds."""
    if block.kind in (TORCH, REDSTONE_BLOCK, LEVER):
        return block.at
    if block.kind == REPEATER and block.facing in AHEAD:
        output = step(block.at, AHEAD[block.facing])
        return output if (block.node, output) in solids else None
    return None


def _own_cells(job: Job) -> List[Pos]:
    cells = [terminal(job.source)]
    for sink in job.sinks:
        cells += [terminal(sink), approach(sink)]
    return cells
