"""A cross-check for people: the searches behind an answered tree are made again, each by the search and by the plain engine, which looks
for a cheapest route by other means: docs/RULES.md, The tree of one net; docs/MORE-RULES.md, The plain engine.

Of each sink the attempts of the goal that its branch leaves from are made again, from the tree as it stood at that sink's turn. Cells
are numbers."""
from __future__ import annotations

from typing import Iterator, List, NamedTuple, Optional, Sequence, Set, Tuple, Union

import dustroute

from .job import AIR, LEVER, SOLID, Job, spell
from .rules import approach, blocked, end_name, terminal
from .supports import beneath, kinds_of

MOST_ATTEMPTS = 64
CHEAPEST_AT = (10, 20)  # from such a flat step and stair on a search is cheapest

Found = Union[dustroute.Route, dustroute.Refusal]
PlainFound = Union[dustroute.PlainRoute, dustroute.Refusal]


class Checked(NamedTuple):
    """How many searches of how many branches were compared, how many of these came out dearer, and in words what should not be."""
    searches: int
    branches: int
    dearer: int
    differences: List[str]

    def words(self) -> str:
        compared = "checked: %s of %s" % (_count(self.searches, "search"), _count(self.branches, "branch"))
        if self.differences:
            return "%s, %d not as they should be" % (compared, len(self.differences))
        if self.dearer:
            return "%s, %d of them dearer than the plain engine's, as a search may be at these costs" % (compared, self.dearer)
        return "%s, each as cheap as the plain engine's" % compared


def _count(number: int, name: str) -> str:
    return "%d %s%s" % (number, name, "" if number == 1 else "es")


def check(job: Job, branches: Sequence[Sequence[int]], strict: bool = False) -> Checked:
    """Checks a job's tree in its mode, whose branches are in sheet order. A difference doesn't end it: the tree goes on as it was
    answered."""
    tree = _Tree(job, strict)
    for place in turns(job):
        tree.check_branch(place, branches[place])
        tree.grow(branches[place])
    return Checked(tree.searches, len(branches), tree.dearer, tree.differences)


def turns(job: Job) -> List[int]:
    """The sinks in the order searched: by the distance from the source's terminal to the approach, ties in sheet order."""
    source = terminal(job.source)

    def distance(place: int) -> int:
        return sum(abs(one - other) for one, other in zip(source, approach(job.sinks[place])))

    return sorted(range(len(job.sinks)), key=distance)


class _Tree:
    """The tree at a sink's turn, and what was found so far."""

    def __init__(self, job: Job, strict: bool) -> None:
        self.job = job
        self.wall = LEVER if strict else SOLID
        self.kinds = kinds_of(job)
        self.blocked = {job.number(at) for at in blocked(job)}
        self.joinable = {job.number(terminal(job.source))}
        self.searches, self.dearer = 0, 0
        self.differences: List[str] = []

    def grow(self, branch: Sequence[int]) -> None:
        """All before the last place become joinable, the clearances blocked."""
        self.joinable.update(branch[:-1])
        self.blocked.update(cell for _, cell in clearances(self.job, branch))

    # ---- one branch

    def check_branch(self, place: int, branch: Sequence[int]) -> None:
        sink = self.job.sinks[place]
        start, end = self.job.number(approach(sink)), self.job.number(terminal(sink))
        way = tuple(reversed(branch if start == end else branch[:-1]))
        if not way or way[0] != start or branch[-1] != end:
            self.differ(place, "its branch doesn't end at %s" % self.cell(end))
        elif way[-1] not in self.joinable:
            self.differ(place, "its branch leaves from %s, which is no cell of the tree so far" % self.cell(way[-1]))
        else:
            found = self.attempts(place, start, way[-1])
            if found is not None and found != way:
                self.differ(place, "its branch is another way than the search's, %s" % self.first_apart(found, way))

    def attempts(self, place: int, start: int, goal: int) -> Optional[Tuple[int, ...]]:
        """The path that the attempts for a goal end with; none where they end without one, which is told: the goal has a branch."""
        shut: Set[int] = set()
        for _ in range(MOST_ATTEMPTS):
            found = self.compare(place, start, goal, self.seen(shut, start, goal))
            if isinstance(found, dustroute.Refusal):
                self.differ(place, "it has a branch, where the search from %s to %s says: %s" % (self.cell(start), self.cell(goal), found))
                return None
            cell = conflict(self.job, self.kinds, self.joinable, found.path)
            if cell is None:
                return found.path
            if cell in (start, goal) or cell in shut or cell in self.blocked:
                self.differ(place, "it has a branch, where each way from %s to %s has a conflict at %s"
                            % (self.cell(start), self.cell(goal), self.cell(cell)))
                return None
            shut.add(cell)
        self.differ(place, "it has a branch, where %d attempts from %s to %s come to none" % (MOST_ATTEMPTS, self.cell(start), self.cell(goal)))
        return None

    def seen(self, shut: Set[int], start: int, goal: int) -> bytes:
        """The room as a search sees it: blocked Air but start and goal is Solid; strictly it is as a Lever, neither entered nor a support."""
        kinds = bytearray(self.kinds)
        for cell in (self.blocked | shut) - {start, goal}:
            if kinds[cell] == AIR:
                kinds[cell] = self.wall
        return bytes(kinds)

    # ---- one search

    def compare(self, place: int, start: int, goal: int, kinds: bytes) -> Found:
        """What the search finds, held to the plain engine."""
        asked = (dustroute.Room(*self.job.sides), kinds, start, goal, dustroute.Config(self.job.limit, *self.job.costs))
        found, plain = _search(*asked), _plain(*asked)
        self.searches += 1
        is_cheapest = all(cost >= least for cost, least in zip(self.job.costs, CHEAPEST_AT))
        words = disagreement(found, plain, is_cheapest)
        if words:
            self.differ(place, "from %s to %s %s" % (self.cell(start), self.cell(goal), words))
        elif isinstance(found, dustroute.Route) and isinstance(plain, dustroute.PlainRoute):
            self.dearer += plain.cost < found.cost
        return found

    # ---- words

    def differ(self, place: int, words: str) -> None:
        self.differences.append("%s: %s" % (end_name(place + 1), words))

    def cell(self, number: int) -> str:
        return "%s, cell %d" % (spell(self.job.place(number)), number)

    def first_apart(self, found: Sequence[int], way: Sequence[int]) -> str:
        """Where two ways from the same cell part."""
        apart = next((pair for pair in zip(found, way) if pair[0] != pair[1]), None)
        if apart is None:
            return "which has %d cells and not %d" % (len(found), len(way))
        return "which goes by %s and not by %s" % (self.cell(apart[0]), self.cell(apart[1]))


def _search(*asked: object) -> Found:
    try:
        return dustroute.search(*asked)  # type: ignore[arg-type]
    except dustroute.Refusal as refusal:
        return refusal


def _plain(*asked: object) -> PlainFound:
    try:
        return dustroute.plain(*asked)  # type: ignore[arg-type]
    except dustroute.Refusal as refusal:
        return refusal


def disagreement(found: Found, plain: PlainFound, is_cheapest: bool) -> Optional[str]:
    """What should not be of two answers to one question. A search that passed its node limit, or whose queue was full, tells nothing."""
    numbers = [answer.number if isinstance(answer, dustroute.Refusal) else 0 for answer in (found, plain)]
    if numbers[0] in (12, 13):
        return None
    if numbers[0] != numbers[1]:
        return "the search gives number %d, the plain engine %d" % tuple(numbers)
    if isinstance(found, dustroute.Refusal) or isinstance(plain, dustroute.Refusal):
        return None
    if plain.cost > found.cost or is_cheapest and plain.cost < found.cost:
        return "the search pays %d, the plain engine %d" % (found.cost, plain.cost)
    return None


# ---- stairs and conflicts

def clearances(job: Job, path: Sequence[int]) -> Iterator[Tuple[int, int]]:
    """Of each stair along a path its later cell, and its clearance, the cell right above its lower end."""
    for one, other in zip(path, path[1:]):
        heights = [job.place(cell)[1] for cell in (one, other)]
        if heights[0] != heights[1]:
            yield other, (one if heights[0] < heights[1] else other) + job.sides[2]


def conflict(job: Job, kinds: bytes, joinable: Set[int], path: Sequence[int]) -> Optional[int]:
    """The cell in which a path is in conflict with itself and the joinable cells; blocking is left aside."""
    conductors = joinable.union(path)
    above = min((cell for cell in conductors if beneath(cell, job.sides) in conductors), default=None)
    if above is not None:
        return above
    for later, clearance in clearances(job, path):
        if kinds[clearance] != AIR:
            return later
        over = clearance + job.sides[2]
        if beneath(over, job.sides) == clearance and over in conductors:
            return over
    return None
