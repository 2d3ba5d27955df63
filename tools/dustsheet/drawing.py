"""The floors of a room as SVG: one grid for each y, x to the right, z downward, cropped to what is used."""
from __future__ import annotations

from html import escape
from typing import Dict, List, Optional, Set, Tuple

from .answer import Answer, directions, marked_cells
from .check import Remark, remarks
from .job import AIR, BLOCK_POWER, FACINGS, KINDS, PORTS, Job, Pos, spell
from .net import signals, supports
from .rules import approach, blocked, end_name, late_faults, step, terminal
from .symbols import CELL, COLOURS, KIND_NAMES, line_style, use
from .window import Window, window

HALF = CELL // 2
LEFT, TOP, EDGE = 44, 32, 6  # room for the numbers at the sides of a grid
PIECE = 75  # a floor that goes on for longer is drawn in pieces
HOVER_CELLS = 2_000  # in rooms up to here each empty cell tells its number too
TURNS = {1: 270, 2: 0, 3: 90, 4: 180}


def corner(at: Pos) -> Tuple[int, int]:
    return LEFT + CELL * at[0], TOP + CELL * at[2]


def centre(at: Pos) -> Tuple[int, int]:
    x, y = corner(at)
    return x + HALF, y + HALF


class Drawing:
    """A job that no number 1 to 5 refuses, with its answer, sorted by cells: the signs of each and what is said of it."""

    def __init__(self, job: Job, answer: Optional[Answer]) -> None:
        self.job = job
        self.answer = answer or Answer()
        self.remarks, self.window = self._survey(answer)
        (x0, _, z0), (x1, _, z1) = self.window
        self.wide, self.deep = range(x0, x1 + 1), range(z0, z1 + 1)  # the piece of each floor that is drawn
        longest = max(len(span) for side in (self.wide, self.deep) for span in cut(side))
        self.scale = min(0.8, max(0.4, 26 / longest))  # large rooms are drawn smaller
        self.sound = next(late_faults(job), None) is None  # else an end may have no terminal in the room
        self.signs: Dict[Pos, List[str]] = {}
        self.notes: Dict[Pos, List[str]] = {}
        self.used: Set[str] = set()  # the signs of the floors drawn so far, for the legend
        self._put_blocks()
        self._put_others()
        self._put_net()
        self._put_ends()
        self.warned: Dict[Pos, List[int]] = {}
        for place, remark in enumerate(self.remarks, 1):
            self._put(remark.at, "warning %d" % place)
            self.warned.setdefault(remark.at, []).append(place)
        self.marked = marked_cells(self.answer, job)
        for at in self.marked:
            self._put(at, "the refusal speaks of this cell")

    def _survey(self, answer: Optional[Answer]) -> Tuple[List[Remark], Window]:
        """What is to be warned of, and the part of the room that is drawn."""
        found = remarks(self.job, answer)
        return found, window(self.job, answer, [remark.at for remark in found])

    def _put(self, at: Pos, note: str, *signs: str) -> None:
        if self.job.holds(at):
            self.signs.setdefault(at, []).extend(signs)
            self.notes.setdefault(at, []).append(note)

    def _put_blocks(self) -> None:
        self.kinds = {block.at: block.kind for block in self.job.blocks}
        for block in self.job.blocks:
            note = KIND_NAMES[KINDS[block.kind]]
            signs = [KINDS[block.kind]]
            if block.facing:
                note += " facing " + FACINGS[block.facing]
                signs.append("facing-" + FACINGS[block.facing])
            self._put(block.at, "%s, node %d" % (note, block.node), *signs)

    def _put_others(self) -> None:
        job = self.job
        named = {*job.conductors, *job.clearances, *job.terminals, *job.reserved}
        outset = blocked(job) if self.sound else set()
        for at in sorted(outset - named):
            if at not in self.kinds:
                self._put(at, "blocked at the outset: beside something live", "blocked")
        for at in job.conductors:
            self._put(at, "another net's conductor", "conductor")
        for at in job.clearances:
            self._put(at, "another net's clearance", "clearance")
        for at in job.terminals:
            self._put(at, "another net's terminal", "terminal")
        for at in job.reserved:
            self._put(at, "reserved", "reserved")

    def _put_net(self) -> None:
        for at in sorted(set().union(*supports(self.answer, self.job))):
            self._put(at, "air under a wire, which needs a support", "support")
        for place, branch in enumerate(self.answer.branches, 1):
            for at in dict.fromkeys(branch):
                self._put(at, "branch to sink %d" % place)
        self.signal = signals(self.answer, self.job) if self.answer.branches else {}
        for at, strength in self.signal.items():
            self._put(at, "signal %d" % strength)
        self.facing = directions(self.answer, self.job) if self.answer.branches else {}
        for at in self.answer.repeaters:
            self._put(at, "repeater pointing " + FACINGS[self.facing[at]])

    def _put_ends(self) -> None:
        self.ends: Dict[Pos, List[int]] = {}
        for place, end in enumerate([self.job.source, *self.job.sinks]):
            facing = " facing " + FACINGS[end.facing] if end.facing else ""
            self._put(end.at, "%s, %s%s" % (end_name(place), PORTS[end.port], facing))
            self.ends.setdefault(end.at, []).append(place)
            if self.sound and place and approach(end) != terminal(end):
                self._put(approach(end), "approach of " + end_name(place))
            if self.sound and end.port == BLOCK_POWER:
                self._put(terminal(end), "terminal of " + end_name(place))

    # ---- floors

    def plain_floor(self, level: int) -> Optional[str]:
        """What all cells of a floor are alike, if they are: Air, or one kind of block with nothing else to tell."""
        wide, _, deep = self.job.sides
        says = [self.notes[at] for at in self.notes if at[1] == level]
        if not says:
            return "empty"
        alike = len(says) == wide * deep and all(len(notes) == 1 and notes == says[0] for notes in says)
        kind = self.kinds.get((0, level, 0), AIR)
        return KIND_NAMES[KINDS[kind]] + " in every cell" if alike and kind != AIR and wide * deep > 1 else None

    def pieces(self, level: int) -> List[Tuple[str, str]]:
        """The floor in pieces, with the words that say which each is: one without words unless it is long. Of a long one the pieces in
        which nothing is to be seen are left out."""
        wide, deep = self.wide, self.deep
        spans = [(across, along) for across in cut(wide) for along in cut(deep)]
        here = {(at[0], at[2]) for at in self.notes if at[1] == level}
        found = []
        for self.wide, self.deep in spans:
            if len(spans) == 1:
                found.append(("", self.floor(level)))
            elif any(x in self.wide and z in self.deep for x, z in here):
                words = ": x = %d to %d, z = %d to %d" % (self.wide[0], self.wide[-1], self.deep[0], self.deep[-1])
                found.append((words, self.floor(level, "large piece")))
        self.wide, self.deep = wide, deep
        return found

    def _is_shown(self, at: Pos) -> bool:
        """Whether a cell, or one beside it, is in the piece being drawn."""
        return self.wide[0] - 1 <= at[0] <= self.wide[-1] + 1 and self.deep[0] - 1 <= at[2] <= self.deep[-1] + 1

    def floor(self, level: int, style: str = "large") -> str:
        width, height = LEFT + CELL * len(self.wide) + EDGE, TOP + CELL * len(self.deep) + EDGE
        # --zoom is less on paper than on a screen
        parts = ['<svg xmlns="http://www.w3.org/2000/svg" class="%s" viewBox="%d %d %d %d" width="%d" '
                 'style="width:calc(var(--zoom)*%dpx)" role="img" aria-label="floor %d">'
                 % (style, CELL * self.wide[0], CELL * self.deep[0], width, height, width * self.scale, width * self.scale, level)]
        parts += [self._grid(), *self._cells(level), '<g class="over">']
        parts += self._branches(level) + self._powers(level) + self._repeaters(level) + self._stairs(level) + self._ends(level)
        parts += self._signals(level)
        parts += [use("marked", *corner(at)) for at in self.marked if at[1] == level]
        parts += self._warnings(level)
        return "".join(parts) + "</g></svg>"

    def _grid(self) -> str:
        left, top = corner((self.wide[0], 0, self.deep[0]))
        width, height = CELL * len(self.wide), CELL * len(self.deep)
        lines = ["M%d %dv%d" % (LEFT + CELL * x, top, height) for x in self.wide[1:]]
        lines += ["M%d %dh%d" % (left, TOP + CELL * z, width) for z in self.deep[1:]]
        every = 1 if max(len(self.wide), len(self.deep)) <= 26 else 4
        labels = ['<text x="%d" y="%d" text-anchor="middle">%d</text>' % (LEFT + CELL * x + HALF, top - 8, x) for x in self.wide if x % every == 0]
        labels += ['<text x="%d" y="%d" text-anchor="end">%d</text>' % (left - 8, TOP + CELL * z + HALF + 6, z) for z in self.deep if z % every == 0]
        ground = '<rect class="ground" x="%d" y="%d" width="%d" height="%d"/>' % (left, top, width, height)
        return ground + ('<path class="grid" d="%s"/>' % "".join(lines) if lines else "") \
            + '<g class="axis" font-size="%g">%s</g>' % (11 / self.scale, "".join(labels))

    def _cells(self, level: int) -> List[str]:
        """The signs of the cells, each with a title that browsers show when the pointer rests there."""
        every = self.job.cells() <= HOVER_CELLS
        parts = []
        for at in ((x, level, z) for x in self.wide for z in self.deep):
            if every or at in self.notes:
                says = "; ".join(self.notes.get(at, ["Air"]))
                x, y = corner(at)
                self.used.update(self.signs.get(at, []))
                signs = "".join(use(sign, x, y) for sign in self.signs.get(at, []))
                parts.append('<g><title>cell %d %s: %s</title>%s<rect class="hover" x="%d" y="%d" width="40" height="40"/></g>'
                             % (self.job.number(at), spell(at), escape(says), signs, x, y))
        return parts

    # ---- the net

    def _branches(self, level: int) -> List[str]:
        parts = []
        for place, branch in enumerate(self.answer.branches):
            lines = floor_lines(branch, level)
            if lines:
                path = "".join("M" + "L".join("%g %g" % point for point in line) for line in lines)
                parts.append('<path class="halo" d="%s"/><path class="branch" data-sink="%d" d="%s" %s/>'
                             % (path, place + 1, path, line_style(self._style(place))))
            colour = COLOURS[self._style(place) % len(COLOURS)]
            parts += ['<circle cx="%d" cy="%d" r="5" fill="%s"/>' % (*centre(at), colour) for at in dict.fromkeys(branch)
                      if at[1] == level and self._is_shown(at)]
        source = terminal(self.job.source) if self.sound else None
        starts = {branch[0] for branch in self.answer.branches if branch} - {source}
        joints = sorted(at for at in starts if at[1] == level)
        return parts + ['<circle class="joint" cx="%d" cy="%d" r="7"/>' % centre(at) for at in joints]

    def _stairs(self, level: int) -> List[str]:
        """At the edge between the two cells of a stair: whether the line goes on one floor up or one down."""
        marks = {}
        for branch in self.answer.branches:
            for one, other in zip(branch, branch[1:]):
                if one[1] != other[1] and level in (one[1], other[1]):
                    up = level == min(one[1], other[1])
                    marks[middle(one, other)] = "stair-up" if up else "stair-down"
        self.used.update(marks.values())
        return [use(sign, x, y) for (x, y), sign in sorted(marks.items())]

    def _repeaters(self, level: int) -> List[str]:
        found = [at for at in self.answer.repeaters if at[1] == level]
        return ['<g class="repeater">%s</g>' % use("repeater-set", *centre(at), TURNS[self.facing[at]]) for at in found]

    def _signals(self, level: int) -> List[str]:
        """The signal at each wire, in the corner of its cell; where it is dark the number is framed."""
        parts = []
        for at, strength in sorted(self.signal.items()):
            if at[1] == level and self._is_shown(at):
                x, y = corner(at)
                frame = "" if strength else '<rect class="dark" x="%d" y="%d" width="12" height="13"/>' % (x + 27, y + 26)
                parts.append(frame + '<text class="signal" x="%d" y="%d">%d</text>' % (x + 38, y + 37, strength))
        return parts

    def _warnings(self, level: int) -> List[str]:
        """A flag with its number for each remark."""
        parts = []
        for at, places in sorted(self.warned.items()):
            if at[1] == level:
                x, y = corner(at)
                parts.append(use("warned", x, y) + '<text class="tiny" x="%d" y="%d">%s</text>' % (x + 8, y + 13, " ".join(map(str, places))))
                self.used.add("warned")
        return parts

    def _powers(self, level: int) -> List[str]:
        """From a block-power source to its wire, from the wire to a block-power sink."""
        parts = []
        for place, end in enumerate([self.job.source, *self.job.sinks]):
            if self.sound and end.port == BLOCK_POWER and end.at[1] == level:
                wire = terminal(end)
                start, goal = (wire, end.at) if place else (end.at, wire)
                turn = TURNS[end.facing] + (180 if place else 0)
                parts.append('<path class="power" d="M%d %dL%d %d"/>' % (*centre(start), *centre(goal)))
                parts.append(use("power", *middle(start, goal), turn))
        return parts

    def _ends(self, level: int) -> List[str]:
        return [self._end_sign(at, places) for at, places in sorted(self.ends.items()) if at[1] == level]

    def _end_sign(self, at: Pos, places: List[int]) -> str:
        return end_sign(at, places)

    def _style(self, branch: int) -> int:
        """The number of a branch's colour and dashes."""
        return branch


def cut(side: range) -> List[range]:
    """A side in as few pieces as may be, of about one length."""
    count = -(-len(side) // PIECE)
    ends = [side[0] + len(side) * place // count for place in range(count + 1)]
    return [range(first, end) for first, end in zip(ends, ends[1:])]


def end_sign(at: Pos, places: List[int]) -> str:
    x, y = centre(at)
    sinks = [place for place in places if place]
    label = " ".join((["S"] if 0 in places else []) + [str(place) for place in sinks])
    if 0 in places:
        return use("source", *corner(at)) + '<text class="end-light" x="%d" y="%d">%s</text>' % (x, y + 6, label)
    colour = COLOURS[(sinks[0] - 1) % len(COLOURS)]
    return '<circle class="sink" cx="%d" cy="%d" r="13" stroke="%s"/><text class="end" x="%d" y="%d">%s</text>' % (x, y, colour, x, y + 6, label)


def middle(one: Pos, other: Pos) -> Tuple[float, float]:
    (ax, ay), (bx, by) = centre(one), centre(other)
    return (ax + bx) / 2, (ay + by) / 2


def floor_lines(branch: List[Pos], level: int) -> List[List[Tuple[float, float]]]:
    """The pieces of a branch on one floor, each as long as it goes; a stair reaches to the edge between its two cells."""
    lines: List[List[Tuple[float, float]]] = []
    for one, other in zip(branch, branch[1:]):
        start = centre(one) if one[1] == level else middle(one, other)
        goal = centre(other) if other[1] == level else middle(one, other)
        if level in (one[1], other[1]):
            if lines and lines[-1][-1] == start:
                lines[-1].append(goal)
            else:
                lines.append([start, goal])
    return lines
