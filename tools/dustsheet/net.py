"""An answered net in numbers: the signal at each cell, the supports to be laid, and what each branch comes to."""
from __future__ import annotations

from collections import deque
from typing import Dict, List, NamedTuple, Set

from .answer import Answer, directions, neighbours, parents
from .job import AHEAD, AIR, Job, Pos, Sink
from .rules import step, terminal

FULL = 15  # the signal at the source and behind each repeater; it falls by one a step


def signals(answer: Answer, job: Job) -> Dict[Pos, int]:
    """The signal at each cell of the net, 0 where it is dark. A repeater takes what comes from behind, is at full strength itself if
    anything comes, and gives full strength to the cell ahead and nothing to the sides."""
    beside, facing = neighbours(answer), directions(answer, job)
    ahead = {at: step(at, AHEAD[facing[at]]) for at in answer.repeaters}
    behind = {at: parent for at, parent in parents(answer, job).items() if at in ahead}
    source = terminal(job.source)
    found = {source: FULL}
    waiting = deque([source])
    while waiting:
        at = waiting.popleft()
        for following in beside.get(at, ()):
            if at in ahead:
                given = FULL if ahead[at] == following else 0
            elif following in ahead:
                given = FULL if behind[following] == at else 0
            else:
                given = found[at] - 1
            if given > found.get(following, 0):
                found[following] = given
                waiting.append(following)
    return {at: found.get(at, 0) for at in {source, *beside}}


def supports(answer: Answer, job: Job) -> List[Set[Pos]]:
    """For each branch the air under its wires where a support is to be laid, less what an earlier branch has: in all, what is to be fetched."""
    held = {block.at for block in job.blocks if block.kind != AIR}.union(*answer.branches)
    listed: List[Set[Pos]] = []
    for branch in answer.branches:
        under = {step(at, (0, -1, 0)) for at in branch}
        listed.append({at for at in under - held if job.holds(at)})
        held |= listed[-1]
    return listed


class Branch(NamedTuple):
    """A branch in numbers. Its repeaters are those on its own cells; the signal is that at the sink's wire."""
    sink: Sink
    cells: List[Pos]
    steps: int
    stairs: int
    supports: List[Pos]
    repeaters: List[Pos]
    signal: int


def branches(answer: Answer, job: Job) -> List[Branch]:
    signal, laid = signals(answer, job), supports(answer, job)
    return [Branch(sink, cells, len(cells) - 1, sum(one[1] != other[1] for one, other in zip(cells, cells[1:])), sorted(under),
                   sorted(set(cells).intersection(answer.repeaters)), signal.get(cells[-1], FULL))
            for sink, cells, under in zip(job.sinks, answer.branches, laid)]
