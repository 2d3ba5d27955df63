"""Routed nets laid into their room: supports, wire and repeaters where they are to stand, as the published router lays them. The proved library
lays them for `build`; this says the same a second time, for tests, and one net where the library is missing.

Each occupied cell in number order gets a support where Air is beneath, then wire where it is Air itself. A support is solid beneath a
planned repeater, beneath the terminal of a block-power sink and beneath either end of a stair, else transparent. Then the planned
repeaters come, whatever stands there, each facing the way the signal runs from the source. Then the terminal of each block-power sink
becomes a repeater that faces the sink's block."""
from __future__ import annotations

from typing import NamedTuple, Sequence, Set, Tuple

from .answer import Answer, directions, occupied
from .job import AHEAD, AIR, BLOCK_POWER, REPEATER, SOLID, TRANSPARENT, WIRE, Job, Pos
from .rules import step, terminal

DOWN = (0, -1, 0)


class Laid(NamedTuple):
    """A kind and a facing for each cell, in number order."""
    kinds: bytearray
    facings: bytearray


def opposite(facing: int) -> int:
    """The facing that looks the other way, of a horizontal one."""
    back = tuple(-by for by in AHEAD[facing])
    return next(other for other, by in AHEAD.items() if by == back)


def structural(job: Job, answer: Answer) -> Set[Pos]:
    """The cells whose support must carry more than wire: it is solid."""
    cells = set(answer.repeaters)
    cells.update(terminal(sink) for sink in job.sinks if sink.port == BLOCK_POWER)
    for branch in answer.branches:
        for one, other in zip(branch, branch[1:]):
            if one[1] != other[1]:
                cells.update((one, other))
    return cells


def lay(job: Job, answer: Answer) -> Laid:
    """The room with its net, of a job that was routed."""
    return lay_all([(job, answer)])


def lay_all(nets: Sequence[Tuple[Job, Answer]]) -> Laid:
    """The room with several nets, one after another; its blocks are those of the first."""
    first = nets[0][0]
    laid = Laid(bytearray(first.cells()), bytearray(first.cells()))
    for block in first.blocks:
        laid.kinds[first.number(block.at)], laid.facings[first.number(block.at)] = block.kind, block.facing
    for job, answer in nets:
        _lay(laid, job, answer)
    return laid


def _lay(laid: Laid, job: Job, answer: Answer) -> None:
    def put(at: Pos, kind: int, facing: int = 0) -> None:
        laid.kinds[job.number(at)], laid.facings[job.number(at)] = kind, facing

    solid = structural(job, answer)
    for at in sorted(occupied(answer, job), key=job.number):
        below = step(at, DOWN)
        if job.holds(below) and laid.kinds[job.number(below)] == AIR:
            put(below, SOLID if at in solid else TRANSPARENT)
        if laid.kinds[job.number(at)] == AIR and at not in answer.repeaters:
            put(at, WIRE)
    facing = directions(answer, job)
    for at in answer.repeaters:
        put(at, REPEATER, facing[at])
    for sink in job.sinks:
        if sink.port == BLOCK_POWER:
            put(terminal(sink), REPEATER, opposite(sink.facing))
