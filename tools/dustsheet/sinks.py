"""Why a sink wasn't reached: what may be said of it, in words. docs/MORE-RULES.md, Why a sink wasn't reached.

That a sink can't be reached is said of two verdicts alone, for which it is proved; of the others there may be a way."""
from __future__ import annotations

from collections import Counter
from typing import Dict, List, NamedTuple, Set

from .job import KINDS, Job, Pos, spell
from .page import count
from .reason import KEPT_FREE, SUPPORT_KEPT_FREE, Surroundings, listed, sentence
from .rules import ample_limit, approach, end_name, step, terminal
from .supports import kinds_of
from .symbols import KIND_NAMES

APPROACH_TAKEN, SHUT_IN, CONFLICTS, CUT_SHORT = 1, 2, 3, 4
VERDICTS = {APPROACH_TAKEN: "approach taken", SHUT_IN: "shut in", CONFLICTS: "conflicts", CUT_SHORT: "cut short"}
QUEUE_FULL = 13
CONDUCTOR, KEEPOUT, CLEARANCE, TERMINAL, RESERVED, BLOCK, OWN = 1, 2, 4, 8, 16, 32, 64


class Cause(NamedTuple):
    """Why a cell is kept free: for programs, behind a count of cells, for a legend, and the letter that is drawn."""
    name: str
    counted: str
    words: str
    letter: str


CAUSES: Dict[int, Cause] = {
    CONDUCTOR: Cause("conductor", "with another net's wire", "another net's wire lies there", "W"),
    KEEPOUT: Cause("keepout", "beside another net's wire", "beside another net's wire", "b"),
    CLEARANCE: Cause("clearance", "over another net's stair", "headroom of another net's stair", "C"),
    TERMINAL: Cause("terminal", "at another net's terminal", "another net's terminal", "T"),
    RESERVED: Cause("reserved", "reserved", "reserved", "R"),
    BLOCK: Cause("block-keepout", "beside a live block", "beside a live block: a torch, a lever or the like", "L"),
    OWN: Cause("own-clearance", "over a stair of this net", "headroom of this net's own stair", "H"),
}


def first_cause(bits: int) -> Cause:
    """The cause by which a cell that has several is counted and drawn."""
    return next(cause for bit, cause in CAUSES.items() if bits & bit)


class Unreached(NamedTuple):
    """The sink at whose turn the tree stopped, and the net as it was then."""
    job: Job
    strict: bool
    number: int
    detail: int
    place: int  # the sink's, from 1
    verdict: int
    told: Surroundings  # of a sink that is shut in; else without a cell
    causes: Dict[Pos, int]  # of each blocked cell, of a sink that is shut in
    net: List[List[Pos]]  # the branch of each sink in sheet order; empty for those that had none yet
    is_exact: bool  # whether the net is the very one that the router had then, and not only one like it

    @property
    def approach(self) -> Pos:
        return approach(self.job.sinks[self.place - 1])

    def joinable(self) -> Set[Pos]:
        """Where the sink could join the net."""
        return {terminal(self.job.source)}.union(*(branch[:-1] for branch in self.net))

    def before(self) -> List[int]:
        """The places of the sinks whose turn came before."""
        turns = turns_of(self.job)
        return sorted(turns[:turns.index(self.place)])

    def behind(self) -> List[int]:
        turns = turns_of(self.job)
        return sorted(turns[turns.index(self.place) + 1:])

    def kind(self) -> str:
        """What the approach holds."""
        return KIND_NAMES[KINDS[kinds_of(self.job)[self.job.number(self.approach)]]]


def turns_of(job: Job) -> List[int]:
    """The places of the sinks in the order of their turns: by the distance from the source's wire to the approach, ties in sheet order."""
    source = terminal(job.source)

    def far(place: int) -> int:
        return sum(abs(one - other) for one, other in zip(source, approach(job.sinks[place - 1])))

    return sorted(range(1, len(job.sinks) + 1), key=far)


def sinks_named(places: List[int]) -> str:
    return end_name(places[0]) if len(places) == 1 else "sinks " + listed([str(place) for place in places])


# ---- in words

def headline(unreached: Unreached) -> str:
    """What may be said, in a sentence."""
    sink = "Sink %d at %s" % (unreached.place, spell(unreached.job.sinks[unreached.place - 1].at))
    if unreached.verdict in (APPROACH_TAKEN, SHUT_IN):
        # the branches that came before might lie otherwise at other costs; a block stays where it is
        so_far = unreached.verdict == SHUT_IN and unreached.before()
        return "%s can't be reached%s, at any costs." % (sink, " from the net so far" if so_far else "")
    return "%s was not reached%s." % (sink, "" if unreached.verdict == CONFLICTS else ": its search was cut short")


def details(unreached: Unreached) -> List[str]:
    """What more is known, each a sentence or two."""
    said = {APPROACH_TAKEN: taken_words, SHUT_IN: shut_in_words, CONFLICTS: conflict_words, CUT_SHORT: cut_short_words}
    return [said[unreached.verdict](unreached), *turn_words(unreached)]


def words(unreached: Unreached) -> List[str]:
    return [headline(unreached), *details(unreached)]


def taken_words(unreached: Unreached) -> str:
    where = "where its wire is to lie" if unreached.approach == terminal(unreached.job.sinks[unreached.place - 1]) else "from which it is approached"
    return "The cell %s, %s, holds a %s." % (where, spell(unreached.approach), unreached.kind())


def shut_in_words(unreached: Unreached) -> str:
    told, causes = unreached.told, unreached.causes
    free = [at for at, reason in told.round.items() if reason == KEPT_FREE]
    over = [step(at, (0, -1, 0)) for at, reason in told.round.items() if reason == SUPPORT_KEPT_FREE]
    more = []
    if free:
        more.append("%s kept free: %s" % (are(len(free), "cell"), counted(free, causes)))
    if over:
        more.append("%s over one that is kept free, on which no wire may rest: %s" % ("1 cell is" if len(over) == 1 else "%d cells are" % len(over),
                                                                                    counted(over, causes)))
    return sentence(told, more)


def are(number: int, word: str) -> str:
    return "%s %s" % (count(number, word), "is" if number == 1 else "are")


def counted(cells: List[Pos], causes: Dict[Pos, int]) -> str:
    """How many cells there are of each cause, each cell counted once."""
    found = Counter(first_cause(causes[at]) for at in cells)
    return listed(["%d %s" % (found[cause], cause.counted) for cause in CAUSES.values() if cause in found])


def conflict_words(unreached: Unreached) -> str:
    tried = "each route tried lay right above or beneath wire of this net, or had a stair without headroom"
    if unreached.strict:
        return ("Nothing shuts it in, but where it could join the net there was no way from %s, or %s. There may be another way."
                % (spell(unreached.approach), tried))
    return "Wire from %s can get to the net, but %s. There may be another way." % (spell(unreached.approach), tried)


def cut_short_words(unreached: Unreached) -> str:
    job = unreached.job
    if unreached.number == QUEUE_FULL:
        return "The queue was full after %s. A queue of %d places is never full." % (count(unreached.detail, "cell"), 5 * job.cells()) \
            if ample_limit(job) is not None else "The queue was full after %s." % count(unreached.detail, "cell")
    enough = ample_limit(job)
    if enough is None:
        return ("At a flat step under 10 or a stair under 20 it isn't known which node limit suffices; this one is %d. There may be a way."
                % job.limit)
    return "The node limit is %d; a limit of %d always suffices in this room. There may be a way." % (job.limit, enough)


def turn_words(unreached: Unreached) -> List[str]:
    """Who was before it, and who has had no turn yet."""
    before, behind = unreached.before(), unreached.behind()
    parts = []
    if before:
        parts.append("%s %s reached before it" % (sinks_named(before), "was" if len(before) == 1 else "were"))
    if behind:
        parts.append("%s had no turn yet" % sinks_named(behind))
    said = "; ".join(parts)
    return [said[:1].upper() + said[1:] + "."] if parts else []
