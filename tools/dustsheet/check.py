"""A check of the answer, as remarks: what a builder would find out too late. The router's rules don't speak of these; its answers stay."""
from __future__ import annotations

from typing import Dict, Iterator, List, NamedTuple, Optional, Tuple

from .answer import Answer, occupied, parents
from .job import (AHEAD, AIR, BLOCK_POWER, BUTTON, COMPARATOR, KINDS, LAMP, LEVER, PISTON, PLATE, REDSTONE_BLOCK, REPEATER, SOLID,
                  TORCH, TRANSPARENT, WIRE, Job, Pos, Sink, spell)
from .net import FULL, signals, supports
from .rules import end_name, keepout, late_faults, step, terminal

# said wherever the remarks are
NOT_KNOWN = ("The check goes by the sheet alone. It follows the signal along the branches' steps and doesn't know the shape that a wire takes, "
             "wires that touch without a step between them, blocks that other nets will lay, how much wire a machine has inside, or whether "
             "a block that could drive the source ever does.")

BELOW = (0, -1, 0)
SIDES: List[Pos] = list(AHEAD.values())
ROUND: List[Pos] = [*SIDES, BELOW, (0, 1, 0)]
SLOPES: List[Pos] = [(x, y, z) for x, _, z in SIDES for y in (-1, 1)]
DRIVERS = (TORCH, LEVER, BUTTON, PLATE, REDSTONE_BLOCK)
DRIVEN = (LAMP, PISTON, TORCH)
GROUND = (SOLID, TRANSPARENT, REDSTONE_BLOCK)


class Remark(NamedTuple):
    at: Pos
    words: str


def remarks(job: Job, answer: Optional[Answer]) -> List[Remark]:
    """All that is to be remarked, of a job that no number 1 to 5 refuses. Without a net the ends alone are looked at."""
    if next(late_faults(job), None) is not None:
        return []
    checked = _Room(job)
    found = [*checked.source(), *checked.sinks()]
    if answer is not None and answer.refused is None:
        found += [*_dark(job, answer), *_beside(job, answer), *checked.ground(answer)]
    return list(dict.fromkeys(found))


# ---- the signal

def _dark(job: Job, answer: Answer) -> Iterator[Remark]:
    signal, before = signals(answer, job), parents(answer, job)
    for place, sink in enumerate(job.sinks, 1):
        wire = terminal(sink)
        if signal.get(wire, FULL) == 0:
            yield Remark(wire, "%s at %s stays dark: %s" % (end_name(place), spell(sink.at), _long_run(wire, answer, before)))


def _long_run(wire: Pos, answer: Answer, before: Dict[Pos, Optional[Pos]]) -> str:
    """The first run on the way to a dark wire that is too long, between two resets or behind the last one."""
    way = [wire]
    while before[way[-1]] is not None:
        way.append(before[way[-1]])  # type: ignore[arg-type]
    way.reverse()
    resets = [0, *(place for place, at in enumerate(way) if at in answer.repeaters)]
    for start, goal in zip(resets, [*resets[1:], len(way) - 1]):
        # a repeater takes the last of the signal; behind one it is full a step later than at the source
        if goal - start > FULL - 1 + (start > 0) + (goal in resets):
            name = "the repeater at %s" % spell(way[start]) if start else "the source"
            until = " up to the repeater at %s" % spell(way[goal]) if goal in resets else ""
            return "%d steps behind %s%s, and no repeater fits" % (goal - start, name, until)
    return "the signal doesn't come through"


# ---- other nets

def _beside(job: Job, answer: Answer) -> Iterator[Remark]:
    """The net's ends are never blocked, so there its wire may touch another net's."""
    others = set(job.conductors)
    for at in sorted(occupied(answer, job)):
        if at in others:
            yield Remark(at, "the wire at %s lies in another net's conductor" % spell(at))
        for other in sorted(others.intersection(keepout(at))):
            yield Remark(at, "the wire at %s lies beside another net's conductor at %s: the two would join" % (spell(at), spell(other)))


# ---- what stands round the ends and under the wires

class _Room:
    def __init__(self, job: Job) -> None:
        self.job = job
        self.blocks = {block.at: block for block in job.blocks}

    def kind(self, at: Pos) -> int:
        return self.blocks[at].kind if at in self.blocks else AIR

    def holds(self, at: Pos, places: List[Pos], kinds: Tuple[int, ...]) -> bool:
        return any(self.kind(step(at, by)) in kinds for by in places)

    def feeds(self, at: Pos, to: Pos) -> bool:
        """Whether the repeater or comparator in a cell gives to another; one that faces up, down or nowhere may."""
        if self.kind(at) not in (REPEATER, COMPARATOR):
            return False
        facing = self.blocks[at].facing
        return facing not in AHEAD or step(at, AHEAD[facing]) == to

    def takes(self, at: Pos, beside: Pos) -> bool:
        """Whether the repeater or comparator in a cell may take from another: it doesn't from the cell it gives to."""
        return self.kind(at) in (REPEATER, COMPARATOR) and (self.blocks[at].facing not in AHEAD or not self.feeds(at, beside))

    # ---- the source

    def source(self) -> Iterator[Remark]:
        source = self.job.source
        live = self.is_live_block(source.at) if source.port == BLOCK_POWER else self.is_driven(source.at)
        if not live:
            yield Remark(source.at, "nothing beside the source at %s could drive it: no lever, button, pressure plate, torch, "
                                    "redstone block, repeater, comparator or wire" % spell(source.at))

    def is_driven(self, wire: Pos) -> bool:
        if self.holds(wire, [(0, 0, 0), *ROUND], DRIVERS) or self.holds(wire, [*SIDES, *SLOPES], (WIRE,)):
            return True
        return any(self.feeds(step(wire, by), wire) or self.is_powered_solid(step(wire, by)) for by in ROUND)

    def is_live_block(self, at: Pos) -> bool:
        """Whether a block could give power to the wire before it."""
        return self.kind(at) in (*DRIVERS, WIRE, REPEATER, COMPARATOR) or self.is_powered_solid(at)

    def is_powered_solid(self, at: Pos) -> bool:
        return self.kind(at) == SOLID and (self.holds(at, ROUND, DRIVERS) or any(self.feeds(step(at, by), at) for by in ROUND))

    # ---- the sinks

    def sinks(self) -> Iterator[Remark]:
        for place, sink in enumerate(self.job.sinks, 1):
            if not self.drives(sink):
                yield Remark(sink.at, "%s at %s has nothing to drive: no lamp, piston, torch, repeater, comparator or wire is beside it"
                             % (end_name(place), spell(sink.at)))

    def drives(self, sink: Sink) -> bool:
        if sink.port == BLOCK_POWER:
            return self.kind(sink.at) in (LAMP, PISTON, WIRE, REPEATER, COMPARATOR) or self.is_driving_solid(sink.at)
        if self.holds(sink.at, [*SIDES, BELOW], (LAMP, PISTON)) or self.holds(sink.at, [*SIDES, *SLOPES], (WIRE,)):
            return True
        return any(self.takes(step(sink.at, by), sink.at) or self.is_driving_solid(step(sink.at, by)) for by in [*SIDES, BELOW])

    def is_driving_solid(self, at: Pos) -> bool:
        return self.kind(at) == SOLID and (self.holds(at, ROUND, DRIVEN) or any(self.takes(step(at, by), at) for by in ROUND))

    # ---- under the wires

    def ground(self, answer: Answer) -> Iterator[Remark]:
        laid = set().union(*supports(answer, self.job))
        wires = occupied(answer, self.job)
        for at in sorted(wires):
            if self.kind(at) not in (AIR, WIRE):
                yield Remark(at, "no wire can be laid at %s: a %s stands there" % (spell(at), KINDS[self.kind(at)]))
            under = step(at, BELOW)
            if not self.job.holds(under):
                continue
            held = self.kept_free(under) if under in laid else None
            if held:
                yield Remark(at, "the wire at %s needs a support at %s, which %s" % (spell(at), spell(under), held))
            elif under in wires:
                yield Remark(at, "the wire at %s has no ground: the net's own wire lies right beneath" % spell(at))
            elif self.kind(under) not in (AIR, *GROUND):
                yield Remark(at, "the wire at %s has no ground: a %s stands beneath" % (spell(at), KINDS[self.kind(under)]))

    def kept_free(self, at: Pos) -> Optional[str]:
        for name, words in (("conductors", "is another net's conductor"), ("clearances", "another net keeps clear"),
                            ("terminals", "is another net's terminal"), ("reserved", "is reserved")):
            if at in getattr(self.job, name):
                return words
        return None
