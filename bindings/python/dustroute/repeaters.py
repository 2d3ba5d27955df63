"""The repeaters of a net in one call: the runs of all sinks, and only then the tails."""
from __future__ import annotations

from array import array
from typing import Optional, Sequence, Tuple

from .answers import Config, Refusal, Room
from .calls import call
from .library import library
from .memory import Memory
from dustsheet import words
from dustsheet.job import Job


def place_repeaters(job: Job, branches: Sequence[Sequence[int]], memory: Optional[Memory] = None) -> Tuple[int, ...]:
    """The cells in which the repeaters of a net stand, ascending, by a job's room, ends and limits, and branches of cells. What else the job
    has, blocks and other nets, has no part in it.

        tree = dustroute.route(job)
        dustroute.place_repeaters(job, tree.branches) == tree.repeaters
        dustroute.place_repeaters(dataclasses.replace(job, run=6), tree.branches)     # the same wire at another limit

    Each step of a branch is one of the twelve moves. The branches need be neither as many as the sinks nor end at them; a sink that none
    of them joins to the source is passed over. Raises Refusal with number 2 to 5, 6 (over sixteen branches or sinks), 8 or 9."""
    room = Room(*job.sides)
    source = array("H", (*job.source.at, job.source.port, job.source.facing))
    sinks = array("H", [number for sink in job.sinks for number in (*sink.at, sink.port, sink.facing, sink.tail)])
    cells = array("I", [cell for branch in branches for cell in branch])
    called = call("place_repeaters", room, Config(), memory, {"values": library().constants["DUSTROUTE_PLAN_VALUES"]}, run=job.run,
                  source=source, sinks=sinks, branches=cells, lengths=array("I", map(len, branches)))
    if called.number:
        raise Refusal(called.number, called.detail, words.of_plan(called.number, called.detail, job, branches))
    return tuple(cell for cell, mark in enumerate(called.lent["repeaters"]) if mark)
