"""The page that draws why a sink wasn't reached: the net as it was at its turn, the cells that wire gets to from it, a thick edge at each
wall by its reason, and the cells that are kept free by their cause. It can be read in black and white."""
from __future__ import annotations

from html import escape
from typing import Callable, List, Set, Tuple

from .answer import Answer
from .drawing import corner
from .job import Pos
from .net import supports
from .page import ISO_SCALE, MODES, document, floor_figures, heading, legend, mode_words, reading_help, sign
from .reason import KEPT_FREE, SUPPORT_KEPT_FREE, ReasonDrawing, reason_legend
from .rules import step
from .sinks import CAUSES, Cause, Unreached, details, first_cause, headline
from .solid import Picture

SO_FAR = "the net so far"
NOT_EXACT = "The net so far is drawn as it is without the other sinks; it may have lain otherwise."
TO_TRY = "What to try"
KEPT = ('<g transform="translate(%d %d)"><path class="kept" d="M0 0L40 40M20 0L40 20M0 20L20 40"/><rect class="kept-box" x="9" y="8" width="22" '
        'height="24" rx="3"/><text class="kept-letter" x="20" y="27">%s</text></g>')


def page(name: str, unreached: Unreached, tried: List[str]) -> str:
    """The page, with what helps in words."""
    return page_of(name, SinkDrawing(unreached), tried, room_picture, "")


def page_of(name: str, drawing: SinkDrawing, tried: List[str], picture: Callable[[SinkDrawing], str], head: str) -> str:
    """The page of a drawing, with a picture of the whole room, and before all else a head, if there is one."""
    unreached = drawing.unreached
    floors = floor_figures(drawing)
    job = unreached.job
    body = [MODES, heading(name, job), mode_words(unreached.strict), head, verdict_box(unreached, tried), in_the_way(drawing), picture(drawing),
            "<h2>Floors</h2>", reading_help(drawing), *floors, legend(job, drawing)]
    return document(name, '<main id="projector">%s</main>' % "".join(body))


def verdict_box(unreached: Unreached, tried: List[str]) -> str:
    known = "".join("<p>%s</p>" % escape(words) for words in details(unreached))
    listed = "".join("<li>%s</li>" % escape(words) for words in tried)
    helps = '<div class="tries"><h2>%s</h2><ul>%s</ul></div>' % (TO_TRY, listed) if tried else ""
    like = "" if unreached.is_exact else '<p class="note">%s</p>' % NOT_EXACT
    return '<section class="slide"><div class="refused"><p><b>%s</b></p>%s</div>%s%s</section>' % (escape(headline(unreached)), known, helps, like)


def in_the_way(drawing: SinkDrawing) -> str:
    """What the edges and the letters of the floors mean; nothing where no wall is told."""
    if not drawing.told.reached:
        return ""
    items = [(sign(KEPT % (0, 0, cause.letter)), "kept free: " + cause.words) for cause in drawing.causes_drawn()]
    return '<section class="slide">%s%s</section>' % (reason_legend(drawing.told, drawing), _spans(items))


def _spans(items: List[Tuple[str, str]]) -> str:
    spans = "".join("<span>%s%s</span>" % (picture, escape(words)) for picture, words in items)
    return '<div class="legend">%s</div>' % spans if items else ""


def room_picture(drawing: SinkDrawing) -> str:
    return pictured(drawing, Picture(drawing.job, drawing.answer, (), drawing.told.reached))


def pictured(drawing: SinkDrawing, picture: Picture) -> str:
    return ('<figure class="iso slide" id="room"><figcaption>The room, seen from the south-east: %s%s</figcaption>'
            '<svg xmlns="http://www.w3.org/2000/svg" class="large" viewBox="0 0 %g %g" width="%g" role="img" aria-label="the room">%s</svg></figure>'
            % (SO_FAR, ", and where wire gets to from sink %d" % drawing.unreached.place if drawing.told.reached else "", picture.width, picture.height,
               ISO_SCALE * picture.width, picture.body()))


class SinkDrawing(ReasonDrawing):
    """The room's blocks and ends, the net so far, the cells that wire gets to from the sink, and a thick edge at each wall."""

    def __init__(self, unreached: Unreached) -> None:
        self.unreached = unreached
        self.kept = self._kept()
        super().__init__(unreached.told, Answer(unreached.net, [], (unreached.number, unreached.detail)))

    def _kept(self) -> Set[Pos]:
        """The cells that are kept free and so in the way: wire would lie in them, or rest on them."""
        told = self.unreached.told
        return {at if reason == KEPT_FREE else step(at, (0, -1, 0)) for at, reason in told.round.items()
                if reason in (KEPT_FREE, SUPPORT_KEPT_FREE)}

    def causes_drawn(self) -> List[Cause]:
        found = {first_cause(self.unreached.causes[at]) for at in self.kept}
        return [cause for cause in CAUSES.values() if cause in found]

    def _put_others(self) -> None:
        """As on any page, and of each cell that is kept free all of its causes."""
        super(ReasonDrawing, self)._put_others()
        for at, bits in sorted(self.unreached.causes.items()):
            if at in self.kinds:
                continue
            self._put(at, "kept free: " + ", ".join(cause.words for bit, cause in CAUSES.items() if bits & bit))
            if at in self.kept:
                self.signs[at] = [sign for sign in self.signs.get(at, []) if sign not in ("blocked", "clearance", "terminal", "reserved")]

    def _put_net(self) -> None:
        """Without repeaters and signals: these come when every sink is reached."""
        self.signal, self.facing = {}, {}
        for at in sorted(set().union(*supports(self.answer, self.job))):
            self._put(at, "air under a wire, which needs a support", "support")
        for place, branch in enumerate(self.answer.branches, 1):
            for at in dict.fromkeys(branch):
                self._put(at, "branch to sink %d" % place)

    def _labels(self) -> List[Tuple[Pos, str, str]]:
        """None: the cell that the sink is approached from is framed, as the refusal speaks of it."""
        return []

    def _cells(self, level: int) -> List[str]:
        kept = [KEPT % (*corner(at), first_cause(self.unreached.causes[at]).letter) for at in sorted(self.kept) if at[1] == level]
        return [*super()._cells(level), '<g class="over">', *kept, "</g>"]
