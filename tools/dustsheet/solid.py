"""A room with its net as one isometric picture, seen from the south-east and from above: x goes down to the right, z down to the left, y
up. Wires have the colours and dashes of their branches, so that it can be read in black and white too."""
from __future__ import annotations

from itertools import groupby
from typing import Dict, Iterable, Iterator, List, Optional, Sequence, Set, Tuple

from .answer import Answer, directions, marked_cells
from .check import Remark
from .iso import EDGE, Canvas, Point, middle, nearness, shade, step_points
from .job import (AHEAD, AIR, BUTTON, COMPARATOR, KINDS, LAMP, LEVER, PISTON, PLATE, REDSTONE_BLOCK, REPEATER, SOLID, TORCH, TRANSPARENT,
                  WIRE, Job, Pos)
from .net import supports
from .rules import step
from .symbols import COLOURS, KIND_SIGNS, line_style
from .window import window

LEGEND = 26  # the legend's height
INK, GREY = "#111", "#777"
STONE, STONE_EDGE = ("#cfcfcf", "#b7b7b7", "#e9e9e9"), 'stroke="#999" stroke-width=".8"'  # its south and east sides and its top
# a box's share of its cell: from the sides, and its height
BOXES = {LEVER: (0.3, 0.45), BUTTON: (0.3, 0.2), PLATE: (0.08, 0.1), TORCH: (0.36, 0.6), REPEATER: (0.06, 0.18), COMPARATOR: (0.06, 0.18),
         WIRE: (0.2, 0.06)}
SUPPORT = (("#f2e8b8", "#e6d898", "#fbf6dc"), 'fill-opacity=".6" stroke="#9b8a3a" stroke-dasharray="3 2"')
REACHED = 'fill="#cfe6f5" fill-opacity=".85" stroke="#1b4965" stroke-width="1.4"'
ARROW = [(-0.4, 0.08), (0.02, 0.08), (0.02, 0.26), (0.42, 0.0), (0.02, -0.26), (0.02, -0.08), (-0.4, -0.08)]  # along, across
WHOLE = (SOLID, TRANSPARENT, LAMP, REDSTONE_BLOCK, PISTON)


class Picture(Canvas):
    """The parts of the picture are drawn from the back to the front, so that what is nearer covers what is behind it: by rows along x, these
    from north to south, floor upon floor. The wires come last; what stands before one is drawn as glass."""

    def __init__(self, job: Job, given: Optional[Answer], found: Sequence[Remark] = (), reached: Iterable[Pos] = ()) -> None:
        """`reached` are cells that wire gets to though there is no way: a reason's."""
        answer = given or Answer()
        self.reached = set(reached)
        self.job, self.answer, self.remarks = job, answer, found
        self.kinds = {block.at: block.kind for block in job.blocks}
        self.wires = {at for branch in answer.branches for at in branch}
        self.supports: Set[Pos] = set().union(*supports(answer, job)) if answer.branches else set()
        self.facing = directions(answer, job) if answer.branches else {}
        self.window = window(job, given, [*(remark.at for remark in found), *self.reached])
        super().__init__(self.window)
        self.others = set(job.conductors)
        self.glass = self._before_wires()

    def _before_wires(self) -> Set[Pos]:
        """The cells through which the eye sees a wire: on the way from it towards the eye, a step along each axis."""
        found = set()
        deepest = max(self.job.sides)
        for x, y, z in self.wires | self.reached:
            for k in range(deepest):
                found.update((x + k + a, y + k + b, z + k + c) for a, b, c in ((1, 0, 0), (0, 0, 1), (1, 0, 1), (1, 1, 1)))
        return found

    # ---- floors and walls: runs of Solid along x

    def runs(self) -> Dict[Pos, int]:
        """Each run of Solid blocks that are drawn alike: its first cell, and how many it has."""
        found: Dict[Pos, int] = {}
        first: Optional[Pos] = None
        for at in self.cells():
            same = self.kinds.get(at) == SOLID
            before = step(at, (-1, 0, 0))
            goes_on = self.window.holds(before) and self.kinds.get(before) == SOLID and self.look(before) == self.look(at)
            if not (same and goes_on):
                first = at if same else None
            if first is not None:
                found[first] = found.get(first, 0) + 1
        return found

    def look(self, at: Pos) -> Tuple[bool, bool, bool]:
        """Whether a block is glass, and whether its top and its south side are covered by a block."""
        return at in self.glass, self.hides(step(at, (0, 1, 0))), self.hides(step(at, (0, 0, 1)))

    def hides(self, at: Pos) -> bool:
        return self.window.holds(at) and self.kinds.get(at) == SOLID and at not in self.glass

    def run(self, at: Pos, count: int) -> str:
        glass, under, behind = self.look(at)
        x, y, z = at
        last = (x + count - 1, y, z)
        sides = ("" if under else "t") + ("" if behind else "S") + ("" if self.hides(step(last, (1, 0, 0))) else "e")
        style = 'fill-opacity=".1" stroke="%s" stroke-opacity=".25"' % GREY if glass else STONE_EDGE
        drawn = self.box(at, (x + count, y + 1, z + 1), STONE, style, sides)
        seams = [[(x + k, y, z + 1), (x + k, y + 1, z + 1)] for k in range(1, count)] if "S" in sides and not glass else []
        return drawn + self.seams(seams)

    def seams(self, lines: List[List[Point]]) -> str:
        """The edges between stones of a side that is drawn in one."""
        drawn = "".join("M%g %gL%g %g" % (*self.flat(one), *self.flat(other)) for one, other in lines)
        return '<path d="%s" fill="none" %s/>' % (drawn, STONE_EDGE) if drawn else ""

    def top_seams(self, level: int, runs: Dict[Pos, int]) -> str:
        """Across the tops of a floor, from north to south, as long as they go. What stands upon them comes later."""
        bare = {at: count for at, count in runs.items() if at[1] == level and self.look(at)[:2] == (False, False)}
        tops = {(x + k, z) for (x, _, z), count in bare.items() for k in range(1, count)}
        lines = []
        for x, z in sorted(tops):
            if (x, z - 1) not in tops:
                end = z
                while (x, end) in tops:
                    end += 1
                lines.append([(x, level + 1, z), (x, level + 1, end)])
        return self.seams(lines)

    # ---- what a cell holds

    def cells(self) -> Iterator[Pos]:
        (x0, y0, z0), (x1, y1, z1) = self.window
        return ((x, y, z) for y in range(y0, y1 + 1) for z in range(z0, z1 + 1) for x in range(x0, x1 + 1))

    def cell(self, at: Pos) -> str:
        kind = self.kinds.get(at, AIR)
        parts = [self.block(at, kind)] if kind not in (AIR, SOLID) else []
        if at in self.supports:
            parts.append(self.small_box(at, 0, 1, *SUPPORT))
        if at in self.reached and step(at, (0, -1, 0)) not in self.reached:  # of cells one above another the lowest
            parts.append(self.plate(at, 0.08, REACHED) + self.plate(at, 0.42, 'fill="#1b4965"'))
        if at in self.others:
            parts.append(self.plate(at, 0.22, 'fill="#6b4a2b" stroke="#2b1a0a"'))
        return "".join(parts)

    def block(self, at: Pos, kind: int) -> str:
        fill, letters = KIND_SIGNS[KINDS[kind]]
        margin, height = (0.0, 1.0) if kind in WHOLE else BOXES[kind]
        opacity = ' fill-opacity=".6"' if at in self.glass or kind == TRANSPARENT else ""
        drawn = self.small_box(at, margin, height, (shade(fill, 0.9), shade(fill, 0.78), fill), 'stroke="#555"' + opacity)
        return drawn + self.text((at[0] + 0.5, at[1] + height, at[2] + 0.5), letters, INK, 10)

    # ---- what is drawn over the cells

    def branches(self) -> Iterator[str]:
        for place, branch in enumerate(self.answer.branches):
            yield from self.branch(branch, line_style(place), place + 1)

    def branch(self, cells: Sequence[Pos], style: str, number: int) -> Iterator[str]:
        points = [middle(at) for at in cells[:1]]
        for one, other in zip(cells, cells[1:]):
            points += step_points(one, other)
        if len(points) > 1:
            yield self.line(points, 'stroke="#fff" stroke-width="7" stroke-linejoin="round"')
            yield self.line(points, '%s stroke-width="4" stroke-linejoin="round" data-wire="%d"' % (style, number))

    def repeaters(self) -> List[Pos]:
        return self.answer.repeaters

    def repeater(self, at: Pos) -> str:
        ahead = AHEAD[self.facing[at]]
        side = (ahead[2], 0, -ahead[0])
        x, y, z = at[0] + 0.5, at[1] + 0.16, at[2] + 0.5
        arrow = [(x + along * ahead[0] + across * side[0], y, z + along * ahead[2] + across * side[2]) for along, across in ARROW]
        slab = self.small_box(at, 0.06, 0.16, ("#ddd", "#bbb", "#fff"), 'stroke="%s"' % INK)
        return '<g class="iso-set">%s%s</g>' % (slab, self.shape(arrow, 'fill="%s"' % INK))

    def ends(self) -> Iterator[str]:
        for place, end in enumerate([self.job.source, *self.job.sinks]):
            fill, colour, ring = ("#fff", INK, COLOURS[(place - 1) % len(COLOURS)]) if place else (INK, "#fff", INK)
            yield ('<circle cx="%g" cy="%g" r="8.5" fill="%s" stroke="%s" stroke-width="2.5"/>' % (*self.flat(middle(end.at)), fill, ring)
                   + self.text(middle(end.at), str(place) if place else "S", colour, 11))

    def warnings(self) -> Iterator[str]:
        """A flag above each cell that a remark speaks of, with the remark's number; a refusal's cell has an exclamation mark."""
        flags: Dict[Pos, List[str]] = {at: ["!"] for at in self.flagged()}
        for place, remark in enumerate(self.remarks, 1):
            flags.setdefault(remark.at, []).append(str(place))
        for at, numbers in sorted(flags.items()):
            x, y = self.flat((at[0] + 0.5, at[1] + 1.1, at[2] + 0.5))
            flag = '<path class="warned" d="M%g %gl9 16h-18z" fill="#ffd43b" stroke="#a8201a" stroke-width="1.6"/>' % (x, round(y - 13, 1))
            yield flag + self.text((at[0] + 0.5, at[1] + 1.23, at[2] + 0.5), " ".join(numbers), INK, 9)

    def flagged(self) -> List[Pos]:
        """The cells that a refusal speaks of."""
        return marked_cells(self.answer, self.job)

    def walls(self) -> str:
        """The edges of what is drawn, behind everything, with the names of the axes."""
        (x0, y0, z0), (x1, y1, z1) = self.window
        x1, y1, z1 = x1 + 1, y1 + 1, z1 + 1
        style = 'stroke="%s" stroke-dasharray="1 4"' % GREY
        north, west = [(x0, y0, z0), (x1, y0, z0), (x1, y1, z0), (x0, y1, z0), (x0, y0, z0)], [(x0, y0, z0), (x0, y0, z1), (x0, y1, z1), (x0, y1, z0)]
        return self.line(north, style) + self.line(west, style) + self.line([(x1, y0, z0), (x1, y0, z1), (x0, y0, z1)], style)

    def axes(self) -> str:
        (x0, y0, z0), (x1, y1, z1) = self.window
        return (self.text(((x0 + x1 + 1) / 2, y0 - 0.55, z1 + 1.2), "x %d to %d" % (x0, x1), GREY, 10)
                + self.text((x1 + 1.2, y0 - 0.55, (z0 + z1 + 1) / 2), "z %d to %d" % (z0, z1), GREY, 10))

    def body(self) -> str:
        """All of it, without the frame round it."""
        runs = self.runs()
        parts = [self.walls()]
        for level, cells in groupby(self.cells(), lambda at: at[1]):
            for at in cells:
                if at in runs:
                    parts.append(self.run(at, runs[at]))
                parts.append(self.cell(at))
            parts.append(self.top_seams(level, runs))
        parts += [self.axes(), *self.branches()]
        parts += [self.repeater(at) for at in sorted(self.repeaters(), key=nearness)]
        parts += [*self.ends(), *self.warnings()]
        return "\n".join(part for part in parts if part)

    def svg(self) -> str:
        """The picture by itself, with a line that explains it."""
        words = "S: source. 1: sink. Coloured line: our wire. Brown: another net. Dashed: new supports. Arrow: repeater."
        width = max(self.width, 640)
        head = ('<svg xmlns="http://www.w3.org/2000/svg" viewBox="0 0 %g %g" font-family="DejaVu Sans, Verdana, sans-serif">'
                % (width, self.height + LEGEND))
        legend = '<text x="%d" y="%g" fill="%s" font-size="11">%s</text>' % (EDGE, self.height + LEGEND - 12, INK, words)
        return "\n".join([head, '<rect width="100%" height="100%" fill="#fff"/>', self.body(), legend, "</svg>", ""])
