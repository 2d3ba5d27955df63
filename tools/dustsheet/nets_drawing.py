"""Several nets in one room, drawn: each in its own colour and dashes, on the floors, and in the whole room as it is laid."""
from __future__ import annotations

from html import escape
from typing import Dict, Iterator, List, Optional, Sequence, Tuple

from .answer import Answer
from .check import Remark
from .drawing import Drawing, centre, corner
from .iso import EDGE, middle
from .job import REPEATER, SOLID, TRANSPARENT, Job, Pos
from .several import Laid, Net, puts
from .sink_page import SinkDrawing
from .sinks import Unreached
from .solid import INK, LEGEND, Picture
from .symbols import COLOURS, line_style
from .window import Window, window

STONE_PUT = (("#cfcfcf", "#b7b7b7", "#e9e9e9"), 'fill-opacity=".75" stroke="#555" stroke-dasharray="3 2"')
GLASS_PUT = (("#cfe6f5", "#bcdcf0", "#e3f4fc"), 'fill-opacity=".5" stroke="#3a8fc4" stroke-dasharray="3 2"')


def colour_of(place: int) -> str:
    return COLOURS[place % len(COLOURS)]


def end_label(net: int, place: int) -> str:
    """What stands in a source's square or a sink's ring: the net's number, and of a sink its own behind it."""
    return "%d.%d" % (net, place) if place else str(net)


def net_end_sign(net: int, at: Pos, places: List[int]) -> str:
    """The ends of a net that are in a cell: a square in its colour, or a ring."""
    (x, y), colour = centre(at), colour_of(net)
    label = " ".join(end_label(net, place) for place in places)
    if 0 in places:
        left, top = corner(at)
        return ('<rect x="%d" y="%d" width="28" height="28" rx="3" fill="%s" stroke="%s" stroke-width="2"/>' % (left + 6, top + 6, colour, INK)
                + '<text class="end-light" x="%d" y="%d">%s</text>' % (x, y + 6, label))
    return '<circle class="sink" cx="%d" cy="%d" r="14" stroke="%s"/><text class="end nets" x="%d" y="%d">%s</text>' % (x, y, colour, x, y + 5, label)


def iso_ends(picture: Picture, net: int, job: Job) -> Iterator[str]:
    """The same of all ends of a net, in the whole room."""
    colour = colour_of(net)
    for place, end in enumerate([job.source, *job.sinks]):
        x, y = picture.flat(middle(end.at))
        ring = '<circle cx="%g" cy="%g" r="9.5" fill="#fff" stroke="%s" stroke-width="2.5"/>' % (x, y, colour)
        square = '<rect x="%g" y="%g" width="17" height="17" rx="2" fill="%s" stroke="%s" stroke-width="1.5"/>' % (x - 8.5, y - 8.5, colour, INK)
        yield (ring if place else square) + picture.text(middle(end.at), end_label(net, place), INK if place else "#fff", 9 if place else 11)


class Part(Drawing):
    """One net of a drawing: its wire and its ends, without the room round it."""

    def __init__(self, net: Net) -> None:
        self.net = net
        super().__init__(net.job, net.answer)

    def _survey(self, answer: Optional[Answer]) -> Tuple[List[Remark], Window]:
        return [], Window((0, 0, 0), (self.job.sides[0] - 1, self.job.sides[1] - 1, self.job.sides[2] - 1))

    def _put(self, at: Pos, note: str, *signs: str) -> None:
        super()._put(at, "%s: %s" % (self.net.words(), note), *signs)

    def _put_blocks(self) -> None:
        self.kinds = {}

    def _put_others(self) -> None:
        pass

    def _style(self, branch: int) -> int:
        return self.net.place

    def _end_sign(self, at: Pos, places: List[int]) -> str:
        return net_end_sign(self.net.place, at, places)


class NetsDrawing(Drawing):
    """The floors of a room with several nets. What one net's lists keep free is drawn once; beside them nothing is crossed out, since it is
    another cell for each net."""

    def __init__(self, nets: Sequence[Net], found: Sequence[Remark], marked: Sequence[Pos] = ()) -> None:
        self.nets = nets
        self.found, self.marks = list(found), list(marked)
        self.parts = [Part(net) for net in nets]
        super().__init__(nets[0].job, Answer())
        self.marked = self.marks
        for at in self.marked:
            self._put(at, "the refusal speaks of this cell")
        self.signal = {at: strength for part in self.parts for at, strength in part.signal.items()}
        for part in self.parts:
            part.wide, part.deep = self.wide, self.deep

    def _survey(self, answer: Optional[Answer]) -> Tuple[List[Remark], Window]:
        return self.found, window_of(self.nets, [*(remark.at for remark in self.found), *self.marks])

    def _put_others(self) -> None:
        for part, words in (("conductors", "another net's conductor"), ("clearances", "another net's clearance"),
                            ("terminals", "another net's terminal"), ("reserved", "reserved")):
            for at in dict.fromkeys(at for net in self.nets for at in getattr(net.job, part)):
                self._put(at, words, part if part == "reserved" else part[:-1])

    def _put_net(self) -> None:
        self.signal, self.facing = {}, {}
        for part in self.parts:
            for at, notes in part.notes.items():
                for note in dict.fromkeys(notes):
                    self._put(at, note)
            for at, signs in part.signs.items():
                self.signs.setdefault(at, []).extend(sign for sign in signs if sign not in self.signs.get(at, []))

    def _put_ends(self) -> None:
        self.ends = {}

    def floor(self, level: int, style: str = "large") -> str:
        for part in self.parts:
            part.wide, part.deep = self.wide, self.deep
        return super().floor(level, style)

    def _of_parts(self, name: str, level: int) -> List[str]:
        return [drawn for part in self.parts for drawn in getattr(part, name)(level)]

    def _branches(self, level: int) -> List[str]:
        return self._of_parts("_branches", level)

    def _stairs(self, level: int) -> List[str]:
        drawn = self._of_parts("_stairs", level)
        self.used.update(*(part.used for part in self.parts))
        return drawn

    def _repeaters(self, level: int) -> List[str]:
        return self._of_parts("_repeaters", level)

    def _powers(self, level: int) -> List[str]:
        return self._of_parts("_powers", level)

    def _ends(self, level: int) -> List[str]:
        return self._of_parts("_ends", level)


def window_of(nets: Sequence[Net], shown: Sequence[Pos]) -> Window:
    """The part of the room that is drawn: round all nets."""
    windows = [window(net.job, net.answer, shown) for net in nets]
    low = tuple(min(one.low[axis] for one in windows) for axis in range(3))
    return Window(low, tuple(max(one.high[axis] for one in windows) for axis in range(3)))  # type: ignore[arg-type]


class NetsPicture(Picture):
    """The whole room as it is laid: supports of stone or glass, wire in its net's colour, repeaters as the library has them. Without a laid room the
    nets alone."""

    def __init__(self, nets: Sequence[Net], laid: Optional[Laid], found: Sequence[Remark], marked: Sequence[Pos] = ()) -> None:
        self.nets, self.marks = nets, marked
        merged = Answer([branch for net in nets for branch in net.answer.branches])
        super().__init__(nets[0].job, merged, found)
        self.window = window_of(nets, [*(remark.at for remark in found), *marked])
        super(Picture, self).__init__(self.window)
        self.supports = set()
        self.laid_supports: Dict[Pos, int] = {}
        self.laid_repeaters: List[Pos] = []
        self.others = {at for net in nets for at in net.job.conductors}
        self.facing = {}
        for put in puts(nets, laid) if laid else []:
            if put.kind == REPEATER:
                self.kinds.pop(put.at, None)
                self.laid_repeaters.append(put.at)
                self.facing[put.at] = put.facing
            elif put.kind in (SOLID, TRANSPARENT):
                self.laid_supports[put.at] = put.kind

    def cell(self, at: Pos) -> str:
        drawn = super().cell(at)
        if at in self.laid_supports:
            drawn += self.small_box(at, 0, 1, *(STONE_PUT if self.laid_supports[at] == SOLID else GLASS_PUT))
        return drawn

    def branches(self) -> Iterator[str]:
        for net in self.nets:
            for place, branch in enumerate(net.answer.branches, 1):
                yield from self.branch(branch, line_style(net.place), place)

    def repeaters(self) -> List[Pos]:
        return self.laid_repeaters

    def ends(self) -> Iterator[str]:
        for net in self.nets:
            yield from iso_ends(self, net.place, net.job)

    def flagged(self) -> List[Pos]:
        return list(self.marks)

    def svg(self) -> str:
        """The picture by itself, with the names of the nets and a line that explains it."""
        words = "Square: a net's source. Ring: a sink. Dashed box: a support that is laid. Arrow: a repeater."
        width = max(self.width, 640)
        head = ('<svg xmlns="http://www.w3.org/2000/svg" viewBox="0 0 %g %g" font-family="DejaVu Sans, Verdana, sans-serif">'
                % (width, self.height + 2 * LEGEND))
        names, left = [], float(EDGE)
        for net in self.nets:
            names.append('<path d="M%g %gh34" fill="none" stroke-width="4" %s/><text x="%g" y="%g" fill="%s" font-size="11">%s</text>' % (
                left, self.height + LEGEND - 16, line_style(net.place), left + 40, self.height + LEGEND - 12, INK, escape(net.words())))
            left += 62 + 7 * len(net.words())
        legend = '<text x="%d" y="%g" fill="%s" font-size="11">%s</text>' % (EDGE, self.height + 2 * LEGEND - 12, INK, words)
        return "\n".join([head, '<rect width="100%" height="100%" fill="#fff"/>', self.body(), *names, legend, "</svg>", ""])


# ---- a net that was refused, with those before it

class StoppedDrawing(SinkDrawing):
    """Why a sink of a net wasn't reached: the nets before it are drawn in their colours, upon the cells that they hold."""

    def __init__(self, unreached: Unreached, before: Sequence[Net], place: int) -> None:
        self.place = place
        self.before = before
        self.parts = [Part(net) for net in before]
        super().__init__(unreached)

    def floor(self, level: int, style: str = "large") -> str:
        for part in self.parts:
            part.wide, part.deep = self.wide, self.deep
        return super().floor(level, style)

    def _style(self, branch: int) -> int:
        return self.place

    def _end_sign(self, at: Pos, places: List[int]) -> str:
        return net_end_sign(self.place, at, places)

    def _branches(self, level: int) -> List[str]:
        return [*(drawn for part in self.parts for drawn in part._branches(level)), *super()._branches(level)]

    def _ends(self, level: int) -> List[str]:
        return [*super()._ends(level), *(drawn for part in self.parts for drawn in part._ends(level))]


class StoppedPicture(Picture):
    """The whole room of such a drawing."""

    def __init__(self, drawing: StoppedDrawing) -> None:
        self.drawing = drawing
        super().__init__(drawing.job, drawing.answer, (), drawing.told.reached)

    def branches(self) -> Iterator[str]:
        for net in self.drawing.before:
            for place, branch in enumerate(net.answer.branches, 1):
                yield from self.branch(branch, line_style(net.place), place)
        for place, branch in enumerate(self.answer.branches, 1):
            yield from self.branch(branch, line_style(self.drawing.place), place)

    def ends(self) -> Iterator[str]:
        for net in self.drawing.before:
            yield from iso_ends(self, net.place, net.job)
        yield from iso_ends(self, self.drawing.place, self.job)
