"""Why no wire gets from one cell to another: in a sentence, and on the floors of a page. docs/MORE-RULES.md, Why there is no route.

The room and its blocks are taken as they stand: what is kept free for other nets, or beside live blocks, is left aside."""
from __future__ import annotations

from collections import Counter
from html import escape
from typing import Dict, Iterable, List, NamedTuple, Optional, Sequence, Set, Tuple

from .answer import Answer
from .drawing import HOVER_CELLS, Drawing, centre, corner
from .job import KINDS, Job, Pos, spell
from .page import MODES, count, document, floor_figures, heading, legend, reading_help, sign
from .rules import step
from .supports import kinds_of
from .symbols import CELL, KIND_NAMES
from .window import Window, window

OUTSIDE, TAKEN, BAD_SUPPORT = 1, 2, 3
KEPT_FREE, SUPPORT_KEPT_FREE = 4, 5  # of a net's sinks alone: dustsheet/sinks.py
# the line of each reason: they differ in dashes, not in colour alone
LINES = {OUTSIDE: 'stroke="#444" stroke-dasharray="13 7"', TAKEN: 'stroke="#a8201a"',
         BAD_SUPPORT: 'stroke="#0072b2" stroke-dasharray="0.1 9.9" stroke-linecap="round"',
         KEPT_FREE: 'stroke="#8a5a00" stroke-dasharray="5 5"', SUPPORT_KEPT_FREE: 'stroke="#6a3d9a" stroke-dasharray="14 4 3 4"'}
LINE_WORDS = {OUTSIDE: "the room's edge", TAKEN: "a block is in the way", BAD_SUPPORT: "nothing beneath would bear the wire",
              KEPT_FREE: "the cell behind is kept free", SUPPORT_KEPT_FREE: "the cell beneath is kept free: no wire may rest on it"}
NOTES = {TAKEN: "a block stands there", BAD_SUPPORT: "nothing beneath bears it", KEPT_FREE: "the cell is kept free",
         SUPPORT_KEPT_FREE: "the cell beneath is kept free"}
THICK, THIN = 7.0, 3.5
TINT = '<rect x="%d" y="%d" width="%d" height="40" fill="#cfe6f5"/>'
DOTS = '<path class="dots" d="%s" fill="none" stroke="#1b4965" stroke-width="7" stroke-linecap="round"/>'
UNBORNE = ('<g transform="translate(%d %d)"><path d="M9 31H31" stroke="#0072b2" stroke-width="2.5"/>'
           '<path d="M15 26L25 36M25 26L15 36" stroke="#0072b2" stroke-width="2.5"/></g>')

Edge = Tuple[Pos, Pos]  # two cells side by side on one floor; the second is the one that can't be entered


class Question(NamedTuple):
    """One search in the room of a job."""
    job: Job
    start: Pos
    goal: Pos


class Surroundings:
    """The cells that wire gets to, and what stands round them. `reached` are their numbers; `walls` are the moves that are not allowed:
    the cell, the step, and why."""

    def __init__(self, asked: Question, reached: Iterable[int], walls: Iterable[Tuple[int, Pos, int]]) -> None:
        self.asked, job = asked, asked.job
        self.reached: Set[Pos] = {job.place(cell) for cell in reached}
        self.round: Dict[Pos, int] = {}  # each cell of the room that can't be entered: why
        self.edges: Dict[Edge, int] = {}
        self.at_edge = False
        for cell, by, reason in walls:
            at = job.place(cell)
            to = step(at, by)
            # no wire needs to get back to the start, which may lie over something that bears nothing
            if to not in self.reached:
                self.at_edge |= reason == OUTSIDE
                self.edges[(at[0], to[1], at[2]), to] = reason
                if reason != OUTSIDE:
                    self.round[to] = reason

    def standing(self) -> List[Tuple[str, int]]:
        """How many of each kind stand round the cells, most first."""
        kinds = kinds_of(self.asked.job)
        found = Counter(kinds[self.asked.job.number(at)] for at, reason in self.round.items() if reason == TAKEN)
        return [(KIND_NAMES[KINDS[kind]], number) for kind, number in sorted(found.items(), key=lambda item: (-item[1], item[0]))]

    def unborne(self) -> List[Pos]:
        return sorted(at for at, reason in self.round.items() if reason == BAD_SUPPORT)


# ---- in words

def no_way(asked: Question) -> str:
    return "No wire can get from %s to %s, at any costs." % (spell(asked.start), spell(asked.goal))


def sentence(told: Surroundings, more: Sequence[str] = ()) -> str:
    """How many cells were reached, and what stands round them, with more of it behind: cells are counted, not moves."""
    alone = len(told.reached) == 1
    gets = "gets to no other cell" if alone else "gets to %s and no further" % count(len(told.reached), "cell")
    things = ["%d %s" % (number, name) for name, number in told.standing()] + (["the room's edge"] if told.at_edge else [])
    one = len(things) == 1 and (told.at_edge or things[0].startswith("1 "))
    parts = ["%s stand%s %s" % ("round it" if alone else "round them", "s" if one else "", listed(things))] if things else []
    unborne = len(told.unborne())
    if unborne:
        parts.append("%s nothing beneath that bears" % ("1 cell has" if unborne == 1 else "%d cells have" % unborne))
    rest = "; ".join([*parts, *more])
    return "From %s wire %s. %s%s." % (spell(told.asked.start), gets, rest[:1].upper(), rest[1:])


def listed(things: List[str]) -> str:
    return " and ".join(things) if len(things) < 3 else ", ".join(things[:-1]) + " and " + things[-1]


# ---- on a page

def page(name: str, told: Surroundings) -> str:
    drawing = ReasonDrawing(told)
    floors = floor_figures(drawing)
    job = told.asked.job
    says = '<p class="refused"><b>%s</b> %s</p>' % (escape(no_way(told.asked)), escape(sentence(told)))
    body = [MODES, heading(name, job), '<section class="slide">', says, reason_legend(told, drawing), "</section><h2>Floors</h2>",
            reading_help(drawing), *floors, legend(job, drawing)]
    return document(name, '<main id="projector">%s</main>' % "".join(body))


class ReasonDrawing(Drawing):
    """The room's blocks and ends, the cells that wire gets to, and a thick edge at each wall."""

    def __init__(self, told: Surroundings, net: Optional[Answer] = None) -> None:
        self.told = told
        super().__init__(told.asked.job, net)
        self.drawn: Set[Tuple[float, int]] = set()  # the lines of the floors drawn so far, by width and reason
        # a floor of one kind throughout is told in a line, unless wire gets there
        self.told_floors = {level: self._alike(level) for level in range(self.job.sides[1])}
        for at in sorted(told.reached) if self.job.cells() <= HOVER_CELLS else ():
            self._put(at, "wire gets here")
        for at, reason in sorted(told.round.items()):
            if self.told_floors[at[1]] is None:
                self._put(at, "wire can't get in here: " + NOTES[reason])
        for at, _, says in self._labels():
            self._put(at, says)

    def _labels(self) -> List[Tuple[Pos, str, str]]:
        """The cells that have a label: the word that is drawn, and what is said of them."""
        asked = self.told.asked
        return [(asked.start, "from", "the search begins here"), (asked.goal, "to", "the search is to end here")]

    def _survey(self, answer: object) -> Tuple[list, Window]:
        """Nothing is warned of, since no net is asked for. All that stands round the cells is drawn."""
        asked = self.told.asked
        return [], window(self.job, None, [*self.told.reached, *self.told.round, asked.start, asked.goal])

    def _put_others(self) -> None:
        """What is kept free is left aside."""

    def _alike(self, level: int) -> Optional[str]:
        says = super().plain_floor(level)
        standing = sum(at[1] == level for at in self.told.round)
        if any(at[1] == level for at in (*self.told.reached, self.told.asked.goal)) or says == "empty" and standing:
            return None
        return "%s; %d of them stand round the cells that wire gets to" % (says, standing) if says and standing else says

    def plain_floor(self, level: int) -> Optional[str]:
        return self.told_floors[level]

    def _cells(self, level: int) -> List[str]:
        reached = tinted([at for at in sorted(self.told.reached) if at[1] == level])
        unborne = [UNBORNE % corner(at) for at in self.told.unborne() if at[1] == level]
        return ['<g class="reached">', *reached, "</g>", *super()._cells(level), '<g class="over">', *unborne, "</g>"]

    def _ends(self, level: int) -> List[str]:
        labels = [label(at, word) for at, word, _ in self._labels() if at[1] == level]
        return self._edges(level) + super()._ends(level) + labels

    def _edges(self, level: int) -> List[str]:
        """The edges between cells of this floor; thick ones stand beside a cell that is reached, thin ones where a stair would lead in."""
        lines: Dict[Tuple[float, int], Set[str]] = {}
        for (beside, to), reason in self.told.edges.items():
            if to[1] == level:
                width = THICK if beside in self.told.reached else THIN
                lines.setdefault((width, reason), set()).add(edge(beside, to))
        self.drawn.update(lines)
        return [wall(width, reason, "".join(sorted(paths))) for (width, reason), paths in sorted(lines.items())]


def edge(beside: Pos, to: Pos) -> str:
    x, y = corner((max(beside[0], to[0]), 0, max(beside[2], to[2])))
    return "M%d %dv%d" % (x, y, CELL) if beside[0] != to[0] else "M%d %dh%d" % (x, y, CELL)


def wall(width: float, reason: int, path: str) -> str:
    return '<path class="wall" data-reason="%d" d="%s" fill="none" stroke-width="%g" %s/>' % (reason, path, width, LINES[reason])


def tinted(cells: List[Pos]) -> List[str]:
    """A tint over each row of cells along x, and a dot in each cell, so that it can be read in black and white."""
    held = set(cells)
    rows = []
    for x, y, z in cells:
        if (x - 1, y, z) not in held:
            length = next(length for length in range(1, len(cells) + 1) if (x + length, y, z) not in held)
            rows.append(TINT % (*corner((x, y, z)), CELL * length))
    return rows + ([DOTS % "".join("M%d %dh0" % centre(at) for at in cells)] if cells else [])


def label(at: Pos, word: str) -> str:
    x, y = corner(at)
    return ('<rect x="%d" y="%d" width="34" height="14" rx="3" fill="#fff" stroke="#111"/><text class="small" x="%d" y="%d">%s</text>'
            % (x + 3, y + 32, x + 20, y + 42, word))


def reason_legend(told: Surroundings, drawing: ReasonDrawing) -> str:
    """What the signs of the floors that are drawn mean."""
    here = TINT % (0, 0, CELL) + DOTS % "M20 20h0"
    items = [(sign(here), "wire gets here")] if told.reached else []
    items += [(line_sign(THICK, reason), words) for reason, words in LINE_WORDS.items() if (THICK, reason) in drawing.drawn]
    if told.unborne():
        items.append((sign(UNBORNE % (0, 0)), "a free cell, but nothing beneath bears a wire"))
    items += [(line_sign(THIN, reason), "thin: the same, where a stair would lead in")
              for reason in [reason for width, reason in sorted(drawing.drawn) if width == THIN][:1]]
    spans = "".join("<span>%s%s</span>" % (picture, escape(words)) for picture, words in items)
    high = told.asked.job.sides[1]
    beyond = any(not 0 <= to[1] < high for _, to in told.edges)
    note = '<p class="note">Steps up from the top floor and down from the bottom floor leave the room; they are not drawn.</p>' if beyond else ""
    return '<h2>What stands in the way</h2><div class="legend">%s</div>%s' % (spans, note)


def line_sign(width: float, reason: int) -> str:
    return sign(wall(width, reason, "M0 20h%d" % CELL))
