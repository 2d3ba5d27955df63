"""Why a sink wasn't reached, asked of the proved library: the verdict, the net as it was then, and what helps."""
from __future__ import annotations

import dataclasses
from typing import List, NamedTuple, Tuple, Union

import dustroute

from .. import sinks, tries
from ..job import Job, Pos
from ..reason import Question, Surroundings
from ..rules import approach, blocked, terminal
from ..sinks import Unreached, turns_of
from ..tries import Tried


class Explained(NamedTuple):
    unreached: Unreached
    tried: Tried

    def lines(self) -> List[str]:
        """What is known, a sentence or two each, and then what helps."""
        return [*sinks.words(self.unreached), *tries.lines(self.unreached, self.tried)]


def explain(job: Job, strict: bool) -> Union[dustroute.Tree, Explained]:
    """The tree of a job that no number up to 9 refuses, or why a sink wasn't reached."""
    told = found(job, strict)
    return told if isinstance(told, dustroute.Tree) else Explained(told, tries.tries(told, reaches))


def found(job: Job, strict: bool) -> Union[dustroute.Tree, Unreached]:
    """The same without what helps, which takes many trees to find out."""
    told = dustroute.why_tree(job, strict=strict)
    return told if isinstance(told, dustroute.Tree) else of_told(job, strict, told)


def of_told(job: Job, strict: bool, told: dustroute.Unreached) -> Unreached:
    asked = Question(job, approach(job.sinks[told.sink - 1]), terminal(job.source))
    walls = ((wall.cell, dustroute.MOVES[wall.move], int(wall.reason)) for wall in told.walls())
    causes = {job.place(cell): bits for cell, bits in enumerate(told.causes) if bits}
    return Unreached(job, strict, told.number, told.detail, told.sink, int(told.verdict), Surroundings(asked, told.reached, walls), causes,
                     *net_so_far(job, strict, told.sink))


def net_so_far(job: Job, strict: bool, place: int) -> Tuple[List[List[Pos]], bool]:
    """The branches of the sinks whose turn came before, and whether they are just those that the router had then. They are found by
    routing without the other sinks: it is the same net unless one of these has its wire where a cell would be kept free else."""
    turns = turns_of(job)
    before = sorted(turns[:turns.index(place)])
    if not before:
        return [[] for _ in job.sinks], True
    smaller = dataclasses.replace(job, sinks=[job.sinks[other - 1] for other in before])
    net: List[List[Pos]] = [[] for _ in job.sinks]
    try:
        tree = dustroute.route(smaller, strict=strict)
    except dustroute.Refusal:
        return net, False
    for other, branch in zip(before, tree.branches):
        net[other - 1] = [job.place(cell) for cell in branch]
    return net, blocked(smaller) == blocked(job)


def reaches(job: Job, strict: bool, place: int) -> bool:
    """Whether the router reaches a sink of this job."""
    try:
        told = dustroute.why_tree(job, strict=strict)
    except dustroute.Refusal:
        return False
    return tries.is_reached(job, place, told.sink if isinstance(told, dustroute.Unreached) else None)
