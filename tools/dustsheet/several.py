"""Several nets over one room: what each sees of the others, and what a builder would find out too late of all of them together."""
from __future__ import annotations

import dataclasses
from typing import Iterator, List, NamedTuple, Optional, Sequence

from .answer import Answer, occupied
from .check import GROUND, Remark, remarks
from .job import AIR, KINDS, REPEATER, WIRE, Job, Pos, spell
from .rules import approach, keepout, step, terminal
from .sinks import Unreached
from .text import net_name
from .words import sentence

BELOW = (0, -1, 0)


class Net(NamedTuple):
    """A net of a list: its place, from 0, its name, if it has one, its job and its wire."""
    place: int
    name: str
    job: Job
    answer: Answer

    def words(self) -> str:
        return net_name(self.place, self.name)


class Laid(NamedTuple):
    """The room with all nets laid: of each cell, in number order, a kind, a facing, and 0 or one more than its net's place."""
    kinds: bytes
    facings: bytes
    owners: Sequence[int]


class RefusedNet(NamedTuple):
    """All that is known of a net that was refused, one of so many: the nets before it, its own job as it sees them, if it is one, the sink that
    it stopped at, if one is told, and the words, of which the last may say what helps."""
    place: int
    name: str
    count: int
    number: int
    detail: int
    reason: List[str]
    before: List[Net] = []
    seen: Optional[Job] = None
    stopped: Optional[Unreached] = None

    def words(self) -> str:
        return net_name(self.place, self.name)

    def tried(self) -> List[str]:
        """What helps, each as a sentence of its own."""
        return [sentence(line[len(TRY):-1]) for line in self.reason if line.startswith(TRY)]


TRY = "Try this: "  # stands before what helps


def protected(job: Job) -> List[Pos]:
    """The cells that other nets keep clear of: the ends' own and what is beside them, as far as they are in the room."""
    own = [terminal(job.source)]
    for sink in job.sinks:
        own += [terminal(sink), approach(sink)]
    cells = dict.fromkeys(at for end in own for at in (end, *keepout(end)) if job.holds(at))
    return sorted(cells)


def seen_by(job: Job, before: Sequence[Net], later: Sequence[Job]) -> Job:
    """A net's job as a single one: the wire of the nets before it as another net's, the ends of those behind it as terminals. Nothing else
    of the others changes its answer: their headroom and their own ends lie beside their wire."""
    wire = [at for net in before for at in sorted(occupied(net.answer, net.job))]
    ends = [at for other in later for at in protected(other)]
    return dataclasses.replace(job, conductors=[*job.conductors, *wire], terminals=[*job.terminals, *ends], read_as=None)


def among(net: Net, nets: Sequence[Net]) -> Job:
    """A net's job with the wire of all others, as the check of an answer has it."""
    return seen_by(net.job, [other for other in nets if other.place != net.place], [])


# ---- what a builder would find out too late

def all_remarks(nets: Sequence[Net], laid: Laid) -> List[Remark]:
    """What the check remarks of each net among the others, and of the room as it is laid, each with its net."""
    found = [Remark(remark.at, "%s: %s" % (net.words(), remark.words)) for net in nets for remark in remarks(among(net, nets), net.answer)]
    return list(dict.fromkeys([*found, *_laid_otherwise(nets, laid)]))


def _laid_otherwise(nets: Sequence[Net], laid: Laid) -> Iterator[Remark]:
    """Where a net has no wire, or wire without ground, since another net's support or wire is there: docs/DIFFERENCES.md."""
    room = {block.at for block in nets[0].job.blocks}
    for net in nets:
        owned = occupied(net.answer, net.job)
        for at in sorted(owned):
            kind, under = laid.kinds[net.job.number(at)], step(at, BELOW)
            if kind not in (WIRE, REPEATER) and at not in room:
                yield Remark(at, "%s: no wire is laid at %s: another net's support, %s, stands there" % (net.words(), spell(at), KINDS[kind]))
            elif net.job.holds(under) and under not in room and under not in owned and laid.kinds[net.job.number(under)] not in GROUND:
                yield Remark(at, "%s: the wire at %s has no ground: another net's wire lies right beneath" % (net.words(), spell(at)))


# ---- what is laid

class Put(NamedTuple):
    """A block that is laid, and whose it is: a net's place."""
    at: Pos
    kind: int
    facing: int
    net: int


def puts(nets: Sequence[Net], laid: Laid) -> List[Put]:
    """All that is laid beside the room's own blocks, in number order. A support is that of the net whose wire it bears."""
    job = nets[0].job
    room = {job.number(block.at): (block.kind, block.facing) for block in job.blocks}
    found = []
    for cell, (kind, facing) in enumerate(zip(laid.kinds, laid.facings)):
        if kind != AIR and room.get(cell) != (kind, facing):
            at = job.place(cell)
            above = step(at, (0, 1, 0))
            owner = laid.owners[cell] or (laid.owners[job.number(above)] if job.holds(above) else 0)
            found.append(Put(at, kind, facing, owner - 1))
    return found
