"""What to try where a sink wasn't reached: each is tried by asking the router again, and told only where it helps.

One change at a time: a block taken away, a cell freed, the sink turned or moved by a cell, the room made a cell larger, a limit raised."""
from __future__ import annotations

import dataclasses
from typing import Callable, Dict, Iterator, List, NamedTuple, Optional, Set, Tuple

from .job import (AHEAD, AIR, FACINGS, KINDS, LEVER, MAX_CELLS, MAX_NODES, MAX_SIDE, REDSTONE_BLOCK, SOLID, TORCH, TRANSPARENT, Block, Job, Pos,
                  Sink, spell)
from .reason import BAD_SUPPORT, KEPT_FREE, TAKEN, listed
from .rules import ample_limit, keepout, late_faults, live_cells, step, terminal
from .sinks import APPROACH_TAKEN, CLEARANCE, CONFLICTS, OWN, RESERVED, SHUT_IN, TERMINAL, Unreached, turns_of
from .symbols import KIND_NAMES
from .words import sentence

MOST_TOLD = 3
MOST_TRIED, MOST_CELLS = 60, 300_000  # changes that are tried, and cells of all rooms in which they are
NEAR_BLOCKS = 12  # so many blocks near a sink are tried
BEARS = (AIR, SOLID, TRANSPARENT, REDSTONE_BLOCK)
SIDES = ("x", "y", "z")


class Change(NamedTuple):
    """A change of the job, or of the mode: of which sort it is, in words that begin with a verb, and the cell that it is about."""
    sort: str
    words: str
    at: Optional[Pos]
    job: Job
    strict: bool


class Tried(NamedTuple):
    """What helps, and whether all changes were tried."""
    found: List[Change]
    tried: int
    is_all: bool


# whether the router reaches the sink of this place, by a job and a mode
Ask = Callable[[Job, bool, int], bool]


def tries(unreached: Unreached, ask: Ask) -> Tried:
    """The first few changes that help, those nearest to the net first, and of each sort one."""
    budget = max(6, min(MOST_TRIED, MOST_CELLS // unreached.job.cells()))
    found: List[Change] = []
    tried = 0
    for change in changes(unreached):
        if change.sort in [other.sort for other in found]:
            continue
        if tried == budget or len(found) == MOST_TOLD:
            return Tried(found, tried, False)
        tried += 1
        if ask(change.job, change.strict, unreached.place):
            found.append(change)
    return Tried(found, tried, True)


def is_reached(job: Job, place: int, stopped: Optional[int]) -> bool:
    """Whether a sink is reached by a tree that stops at another one's turn, or at none's."""
    turns = turns_of(job)
    return stopped is None or turns.index(place) < turns.index(stopped)


def changes(unreached: Unreached) -> Iterator[Change]:
    """The changes that are worth a try, by the verdict."""
    if unreached.verdict == SHUT_IN:
        yield from _openings(unreached)
    elif unreached.verdict == APPROACH_TAKEN:
        yield from _without(unreached, unreached.approach)
        yield from _turned(unreached)
    elif unreached.verdict == CONFLICTS:
        yield from _roomier(unreached)
    else:
        yield from _raised(unreached)


def _change(unreached: Unreached, sort: str, words: str, at: Optional[Pos], **parts: object) -> Iterator[Change]:
    """A change of the job's parts, unless the job is refused by it."""
    job = dataclasses.replace(unreached.job, read_as=None, **parts)  # type: ignore[arg-type]
    if next(late_faults(job), None) is None:
        yield Change(sort, words, at, job, unreached.strict)


# ---- a sink that is shut in: a block taken away, or a cell freed

def _openings(unreached: Unreached) -> Iterator[Change]:
    """One for each cell that stands round those reached and has a free cell on its other side, the nearest to the net first."""
    told, net = unreached.told, unreached.joinable()
    seen: Set[str] = set()

    def away(at: Pos) -> Tuple[int, int]:
        return min(_distance(at, joint) for joint in net), unreached.job.number(at)

    for at in sorted(told.round, key=away):
        reason = told.round[at]
        culprit = at if reason in (TAKEN, KEPT_FREE) else step(at, (0, -1, 0))
        opened = _without(unreached, culprit) if reason in (TAKEN, BAD_SUPPORT) else _freed(unreached, culprit)
        for change in opened:
            if change.words not in seen and _leads_on(unreached, at, culprit):
                seen.add(change.words)
                yield change


def _leads_on(unreached: Unreached, at: Pos, culprit: Pos) -> bool:
    """Whether from a cell that is opened a step may lead on. What makes live, or keeps several cells free, opens more than one cell."""
    kinds = _kinds(unreached.job)
    if unreached.told.round[at] not in (TAKEN, BAD_SUPPORT) or kinds.get(culprit) in (TORCH, LEVER, REDSTONE_BLOCK):
        return True
    net = unreached.joinable()

    def is_free(cell: Pos) -> bool:
        if not unreached.job.holds(cell) or kinds.get(cell, AIR) != AIR:
            return cell in net
        beneath = step(cell, (0, -1, 0))
        return cell in net or not unreached.causes.get(cell) and (not unreached.job.holds(beneath) or kinds.get(beneath, AIR) in BEARS)

    return any(is_free(step(step(at, by), (0, up, 0))) and step(step(at, by), (0, up, 0)) not in unreached.told.reached
               for by in AHEAD.values() for up in (-1, 0, 1))


def _distance(one: Pos, other: Pos) -> int:
    return sum(abs(here - there) for here, there in zip(one, other))


def _kinds(job: Job) -> Dict[Pos, int]:
    return {block.at: block.kind for block in job.blocks}


def _without(unreached: Unreached, at: Pos) -> Iterator[Change]:
    """The block of a cell taken away, unless an end of the net stands there."""
    job = unreached.job
    block = next((block for block in job.blocks if block.at == at), None)
    if block is not None and at not in [end.at for end in (job.source, *job.sinks)]:
        yield from _change(unreached, _name(block), "take away the %s at %s" % (_name(block), spell(at)), at,
                           blocks=[other for other in job.blocks if other != block])


def _name(block: Block) -> str:
    return KIND_NAMES[KINDS[block.kind]]


def _freed(unreached: Unreached, at: Pos) -> Iterator[Change]:
    """A cell no longer kept free: whatever keeps it so is taken away; of another net's wire then a gap as well through which wire fits. The
    headroom of this net's own stairs can't be taken away."""
    bits = unreached.causes.get(at, 0)
    if not bits or bits & OWN:
        return
    conductors = unreached.job.conductors
    near = {other for other in conductors if other == at or at in keepout(other)}
    yield from _freed_of(unreached, at, near)
    gap = near | {other for other in conductors if near.intersection(keepout(other))}
    if gap != near:
        yield from _freed_of(unreached, at, gap)


def _freed_of(unreached: Unreached, at: Pos, near: Set[Pos]) -> Iterator[Change]:
    """Without these conductors, and whatever else keeps the cell free."""
    job, bits = unreached.job, unreached.causes[at]
    live = [block for block, cell in live_cells(job) if at in keepout(cell)]
    parts: Dict[str, list] = {}
    said = []
    if near:
        parts["conductors"] = [other for other in job.conductors if other not in near]
        said.append("move the other net's wire at %s" % listed([spell(other) for other in sorted(near)]))
    for bit, name, words in ((CLEARANCE, "clearances", "free the other net's headroom at %s"), (TERMINAL, "terminals", "move the other net's terminal at %s"),
                             (RESERVED, "reserved", "free the reserved cell %s")):
        if bits & bit:
            parts[name] = [other for other in getattr(job, name) if other != at]
            said.append(words % spell(at))
    if live:
        parts["blocks"] = [block for block in job.blocks if block not in live]
        said.append("move %s" % listed(["the %s at %s" % (_name(block), spell(block.at)) for block in live]))
    if said:
        yield from _change(unreached, " ".join(sorted(parts)), listed(said), at, **parts)


# ---- another facing, another cell, more room

def _turned(unreached: Unreached) -> Iterator[Change]:
    """The sink facing another way, so that it is approached from another cell."""
    sink = unreached.job.sinks[unreached.place - 1]
    for facing in AHEAD:
        if facing != sink.facing:
            yield from _sink(unreached, "facing", "let sink %d face %s" % (unreached.place, FACINGS[facing]), sink._replace(facing=facing))


def _sink(unreached: Unreached, sort: str, words: str, sink: Sink) -> Iterator[Change]:
    """Another sink in its place."""
    sinks = list(unreached.job.sinks)
    sinks[unreached.place - 1] = sink
    yield from _change(unreached, sort, words, sink.at, sinks=sinks)


def _roomier(unreached: Unreached) -> Iterator[Change]:
    """The other mode, a room that is larger by a cell, another facing, a block near the sink taken away, and the sink a cell further."""
    job = unreached.job
    other = "route without --strict" if unreached.strict else "route with --strict"
    yield Change("mode", other, None, job, not unreached.strict)
    for axis, name in enumerate(SIDES):
        sides = tuple(side + (place == axis) for place, side in enumerate(job.sides))
        if max(sides) <= MAX_SIDE and sides[0] * sides[1] * sides[2] <= MAX_CELLS:
            yield from _change(unreached, "room", "make the room a cell larger along %s" % name, None, sides=sides)
    yield from _turned(unreached)
    for block in sorted(job.blocks, key=lambda block: _distance(block.at, unreached.approach))[:NEAR_BLOCKS]:
        yield from _without(unreached, block.at)
    sink, kinds = job.sinks[unreached.place - 1], _kinds(job)
    taken = {end.at for end in (job.source, *job.sinks)} | {terminal(job.source)}
    for by in (*AHEAD.values(), (0, 1, 0), (0, -1, 0)):
        at = step(sink.at, by)
        if job.holds(at) and at not in taken and kinds.get(at, AIR) == AIR and kinds.get(sink.at, AIR) == AIR:
            yield from _sink(unreached, "place", "move sink %d to %s" % (unreached.place, spell(at)), sink._replace(at=at))


# ---- limits

def _raised(unreached: Unreached) -> Iterator[Change]:
    """A node limit that suffices; at low costs the highest there is, and costs at which one is known."""
    job = unreached.job
    enough = ample_limit(job)
    if enough is not None:
        if job.limit < enough:
            yield from _change(unreached, "limit", "raise the node limit from %d to %d" % (job.limit, enough), None, limit=enough)
        return
    if job.limit < MAX_NODES:
        yield from _change(unreached, "limit", "raise the node limit from %d to %d" % (job.limit, MAX_NODES), None, limit=MAX_NODES)
    flat, stair, support = job.costs
    costs = (max(flat, 10), max(stair, 20), support)
    limit = max(job.limit, 5 * (job.cells() - 1) + 1)
    yield from _change(unreached, "costs", "let a flat step cost %d and a stair %d, at a node limit of %d" % (costs[0], costs[1], limit), None,
                       costs=costs, limit=limit)


# ---- in words

def lines(unreached: Unreached, tried: Tried) -> List[str]:
    """What to try, a sentence each."""
    helps = helpful(unreached, tried)
    return ["Try this: %s%s" % (words[:1].lower(), words[1:]) for words in helps] if tried.found else helps


def helpful(unreached: Unreached, tried: Tried) -> List[str]:
    """What helps, a sentence each; of a sink that is shut in also that no single change does, where all were tried."""
    if tried.found:
        return [sentence("%s; then sink %d is reached" % (change.words, unreached.place)) for change in tried.found]
    if unreached.verdict == SHUT_IN:
        if tried.is_all:
            return ["Taking away one block round it, or freeing one cell, doesn't help: more than one is in the way."]
        return ["Of the changes round it %d were tried, one at a time, and none helps." % tried.tried]
    if unreached.verdict == CONFLICTS:
        return ["Give it room, or move the sink."]
    if unreached.verdict == APPROACH_TAKEN:
        return ["Take away what stands there, or move the sink."]
    return []
