"""Isometric shapes as SVG, seen from the south-east and from above: x goes down to the right, z down to the left, y up."""
from __future__ import annotations

from typing import List, Tuple

from .job import Pos
from .window import Window

Point = Tuple[float, float, float]

EAST, SOUTH, UP = (20.8, 12.0), (-20.8, 12.0), (0.0, -24.0)  # how far a step goes on the picture
EDGE = 18  # white round it
LIFT = 0.04  # what lies on a floor is this much above it


class Canvas:
    """Where the cells of a window are on the picture, and shapes there."""

    def __init__(self, shown: Window) -> None:
        (x0, y0, z0), (x1, y1, z1) = shown
        self.origin = (0.0, 0.0)
        corners = [self.flat((x, y, z)) for x in (x0, x1 + 1) for y in (y0, y1 + 1) for z in (z0, z1 + 1)]
        left, top = min(x for x, _ in corners), min(y for _, y in corners)
        self.origin = (EDGE - left, EDGE - top)
        self.width = max(x for x, _ in corners) - left + 2 * EDGE
        self.height = max(y for _, y in corners) - top + 2 * EDGE

    def flat(self, point: Point) -> Tuple[float, float]:
        x, y, z = point
        across, down = (self.origin[axis] + x * EAST[axis] + y * UP[axis] + z * SOUTH[axis] for axis in (0, 1))
        return round(across, 1), round(down, 1)

    def points(self, points: List[Point]) -> str:
        return " ".join("%g,%g" % self.flat(point) for point in points)

    def shape(self, points: List[Point], style: str) -> str:
        return '<polygon points="%s" %s/>' % (self.points(points), style)

    def line(self, points: List[Point], style: str) -> str:
        return '<polyline points="%s" fill="none" %s/>' % (self.points(points), style)

    def box(self, low: Point, high: Point, fills: Tuple[str, str, str], style: str, sides: str = "Set") -> str:
        """The three sides of a box that the eye sees: south (S), east (e) and top (t), with their fills in this order."""
        (x0, y0, z0), (x1, y1, z1) = low, high
        faces = {"S": [(x0, y0, z1), (x1, y0, z1), (x1, y1, z1), (x0, y1, z1)], "e": [(x1, y0, z0), (x1, y0, z1), (x1, y1, z1), (x1, y1, z0)],
                 "t": [(x0, y1, z0), (x1, y1, z0), (x1, y1, z1), (x0, y1, z1)]}
        return "".join(self.shape(points, 'fill="%s" %s' % (fill, style)) for (name, points), fill in zip(faces.items(), fills) if name in sides)

    def small_box(self, at: Pos, margin: float, height: float, fills: Tuple[str, str, str], style: str) -> str:
        """A box on the floor of a cell, with a margin on all sides."""
        x, y, z = at
        return self.box((x + margin, y, z + margin), (x + 1 - margin, y + height, z + 1 - margin), fills, style)

    def plate(self, at: Pos, margin: float, style: str) -> str:
        """A flat piece on the floor of a cell."""
        x, y, z = at
        low, far = margin, 1 - margin
        return self.shape([(x + across, y + LIFT, z + along) for across, along in ((low, low), (far, low), (far, far), (low, far))], style)

    def text(self, point: Point, words: str, colour: str, size: int) -> str:
        x, y = self.flat(point)
        return ('<text x="%g" y="%g" fill="%s" font-size="%d" font-weight="bold" text-anchor="middle">%s</text>'
                % (x, round(y + size * 0.36, 1), colour, size, words))


def middle(at: Pos) -> Point:
    """The middle of a cell's floor."""
    return at[0] + 0.5, at[1] + LIFT, at[2] + 0.5


def step_points(one: Pos, other: Pos) -> List[Point]:
    """The way of a step from the middle of a cell to that of the next. A stair goes to the edge between them, and climbs or falls there."""
    (ax, ay, az), (bx, by, bz) = middle(one), middle(other)
    edge = (ax + bx) / 2, (az + bz) / 2
    stair = [(edge[0], ay, edge[1]), (edge[0], by, edge[1])] if ay != by else []
    return [*stair, (bx, by, bz)]


def nearness(at: Pos) -> Tuple[int, int, int]:
    """What is nearer to the eye comes later: floor upon floor, from north to south, from west to east."""
    return at[1], at[2], at[0]


def shade(colour: str, share: float) -> str:
    """A darker tone of a colour #rrggbb."""
    return "#" + "".join("%02x" % int(int(colour[at:at + 2], 16) * share) for at in (1, 3, 5))
