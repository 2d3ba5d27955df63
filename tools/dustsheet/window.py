"""The part of a room that is drawn: what the net uses, with a little round it."""
from __future__ import annotations

from typing import Iterable, NamedTuple, Optional, Set

from .answer import Answer, marked_cells, occupied
from .job import SOLID, TRANSPARENT, Job, Pos
from .rules import approach, late_faults, step, terminal

MARGIN = 2
STRUCTURE = (SOLID, TRANSPARENT)  # floors and walls, which may go on for long


class Window(NamedTuple):
    """All cells from a corner to the opposite one."""
    low: Pos
    high: Pos

    def holds(self, at: Pos) -> bool:
        return all(low <= place <= high for low, place, high in zip(self.low, at, self.high))

    def is_whole(self, job: Job) -> bool:
        return self.low == (0, 0, 0) and self.high == tuple(side - 1 for side in job.sides)


def window(job: Job, answer: Optional[Answer], shown: Iterable[Pos] = ()) -> Window:
    """Round an answered net: its cells and ends, other nets' cells, every block that is no floor and no wall, and what else is to be
    shown, with a margin; then whole floors and walls go on outside. Without a net all that the room holds."""
    cells = {at for at in _used(job, answer) | set(shown) if job.holds(at)}
    if not cells:
        return Window((0, 0, 0), _last(job))
    low, high = (tuple(end(at[axis] for at in cells) for axis in range(3)) for end in (min, max))
    margins = (MARGIN, 1, MARGIN)
    return Window(tuple(max(0, place - margin) for place, margin in zip(low, margins)),  # type: ignore[arg-type]
                  tuple(min(last, place + margin) for place, last, margin in zip(high, _last(job), (MARGIN, 0, MARGIN))))  # type: ignore[arg-type]


def _last(job: Job) -> Pos:
    return (job.sides[0] - 1, job.sides[1] - 1, job.sides[2] - 1)


def _used(job: Job, answer: Optional[Answer]) -> Set[Pos]:
    has_net = answer is not None and answer.refused is None
    cells = {block.at for block in job.blocks if not has_net or block.kind not in STRUCTURE}
    cells.update(job.conductors, job.clearances, job.terminals, job.reserved)
    ends = [job.source, *job.sinks]
    cells.update(end.at for end in ends)
    if next(late_faults(job), None) is None:
        cells.update(terminal(end) for end in ends)
        cells.update(approach(sink) for sink in job.sinks)
    if answer is not None:
        cells.update(marked_cells(answer, job))
        if has_net:
            cells.update(occupied(answer, job))
            cells.update(step(at, (0, -1, 0)) for at in occupied(answer, job))
    return cells
