"""The page of several nets: each net in its colour on all floors, the whole room as it is laid, a table of every net's branches; or the
net that was refused, and why."""
from __future__ import annotations

from html import escape
from typing import List, Optional, Sequence

from . import sink_page
from .answer import Answer, occupied
from .check import NOT_KNOWN, Remark
from .job import KINDS, PORTS, SOLID, TRANSPARENT, spell
from .net import branches
from .nets_drawing import GLASS_PUT, STONE_PUT, NetsDrawing, NetsPicture, StoppedDrawing, StoppedPicture, colour_of, end_label
from .page import (COLUMNS, ISO_SCALE, MODES, SIGN_WORDS, count, cropped, damaged_page, document, floor_figures, mode_words, reading_help, sample_line,
                   sign)
from .several import Laid, Net, RefusedNet, puts
from .symbols import KIND_NAMES, use
from .text import net_name
from .words import sentence


def page(name: str, nets: Sequence[Net], laid: Laid, found: List[Remark], strict: bool) -> str:
    """The page of a list that was answered."""
    drawing = NetsDrawing(nets, found)
    floors = floor_figures(drawing)
    body = [MODES, heading(name, nets), mode_words(strict), answer_words(nets, laid), warnings(found), picture(drawing, laid, "as it is laid"),
            '<h2>Floors</h2>', reading_help(drawing), *floors, net_table(nets), legend(nets, drawing, laid)]
    return document(name, '<main id="projector">%s</main>' % "".join(body))


def refused_page(name: str, refused: RefusedNet, strict: bool) -> str:
    """The page of a list that was refused: which net it is and why, with the nets before it, and where one of its sinks wasn't reached, how far
    wire gets."""
    if refused.stopped is not None:
        drawing = StoppedDrawing(refused.stopped, refused.before, refused.place)
        return sink_page.page_of(name, drawing, refused.tried(), lambda one: sink_page.pictured(one, StoppedPicture(drawing)), refused_head(refused))
    if refused.seen is None:
        return damaged_page(name, refused.number, sentence("; ".join(refused.reason)))
    nets = [*refused.before, Net(refused.place, refused.name, refused.seen, Answer())]
    drawing = NetsDrawing(nets, [], [refused.seen.place(refused.detail)] if refused.number in (14, 16) else [])
    floors = floor_figures(drawing)
    box = '<p class="refused slide"><b>Refused.</b> %s (Number %d, detail %d.)</p>' % (
        escape(" ".join([sentence(refused.reason[0]), *refused.reason[1:]])), refused.number, refused.detail)
    body = [MODES, heading(name, nets), mode_words(strict), box, picture(drawing, None, "with the nets before it"), '<h2>Floors</h2>',
            reading_help(drawing), *floors, legend(nets, drawing, None)]
    return document(name, '<main id="projector">%s</main>' % "".join(body))


def refused_head(refused: RefusedNet) -> str:
    """Which net it is, and those before it as they are drawn."""
    who = "%s, one of %s, was refused." % (sentence(refused.words())[:-1], count(refused.count, "net"))
    drawn = "".join("<span>%s%s</span>" % (sample_line(net.place), escape(net.words())) for net in refused.before)
    before = '<p class="note">The nets before it:</p><div class="legend">%s</div>' % drawn if drawn else ""
    return '<p class="refused slide"><b>Refused:</b> %s (Number %d, detail %d.)</p>%s' % (escape(who), refused.number, refused.detail, before)


def heading(name: str, nets: Sequence[Net]) -> str:
    listed = "".join("<span>%s%s</span>" % (sample_line(net.place), escape(sentence(net.words())[:-1])) for net in nets)
    return '<h1>%s</h1><p>Room of %d x %d x %d cells, %s, routed in this order:</p><div class="legend">%s</div>' % (
        escape(name), *nets[0].job.sides, count(len(nets), "net"), listed)


def answer_words(nets: Sequence[Net], laid: Laid) -> str:
    """How much wire there is, and what is laid: the blocks to fetch."""
    kinds = [put.kind for put in puts(nets, laid)]
    fetch = ", ".join("%d %s" % (kinds.count(kind), KIND_NAMES[KINDS[kind]]) for kind in sorted(set(kinds)))
    cells = sum(len(occupied(net.answer, net.job)) for net in nets)
    return "<p>A way to every sink: %s, %s occupied. To fetch: %s.</p>" % (
        count(sum(len(net.answer.branches) for net in nets), "branch"), count(cells, "cell"), escape(fetch) or "nothing")


def warnings(found: Sequence[Remark]) -> str:
    if not found:
        return '<p class="note">%s</p>' % escape("The check found nothing to warn of. " + NOT_KNOWN)
    listed = "".join("<li>%s</li>" % escape(sentence(remark.words)) for remark in found)
    return '<section class="warnings slide"><h2>Warnings</h2><ol>%s</ol><p class="note">%s</p></section>' % (listed, escape(NOT_KNOWN))


def picture(drawing: NetsDrawing, laid: Optional[Laid], words: str) -> str:
    drawn = NetsPicture(drawing.nets, laid, drawing.remarks, drawing.marked)
    return ('<figure class="iso slide" id="room"><figcaption>The room %s, seen from the south-east%s</figcaption>'
            '<svg xmlns="http://www.w3.org/2000/svg" class="large" viewBox="0 0 %g %g" width="%g" role="img" aria-label="the room">%s</svg></figure>'
            % (words, cropped(drawing), drawn.width, drawn.height, ISO_SCALE * drawn.width, drawn.body()))


def net_table(nets: Sequence[Net]) -> str:
    rows = []
    for net in nets:
        for place, branch in enumerate(branches(net.answer, net.job), 1):
            numbers = (branch.steps, branch.stairs, len(branch.supports), len(branch.repeaters), branch.signal)
            rows.append("<tr><td>%s</td><td>%d</td><td>%s</td><td>%s at %s</td><td>%s</td>%s</tr>" % (
                escape(sentence(net.words())[:-1]), place, sample_line(net.place), PORTS[branch.sink.port], spell(branch.sink.at),
                spell(branch.cells[0]), "".join("<td>%d</td>" % number for number in numbers)))
    head = "".join("<th>%s</th>" % word for word in ["Net", *COLUMNS])
    return '<section class="slide"><h2>Branches</h2><table><thead><tr>%s</tr></thead><tbody>%s</tbody></table></section>' % (head, "".join(rows))


def legend(nets: Sequence[Net], drawing: NetsDrawing, laid: Optional[Laid]) -> str:
    items = []
    for net in nets:
        square = ('<rect x="6" y="6" width="28" height="28" rx="3" fill="%s"/><text class="end-light" x="20" y="26">%d</text>'
                  % (colour_of(net.place), net.place))
        items.append((sign(square), "source of " + net.words()))
    ring = '<circle class="sink" cx="20" cy="20" r="14" stroke="%s"/><text class="end nets" x="20" y="25">%s</text>' % (
        colour_of(nets[0].place), end_label(nets[0].place, 1))
    items.append((sign(ring), "sink 1 of " + net_name(nets[0].place, nets[0].name)))
    items += [(sign(use(kind, 0, 0)), KIND_NAMES[kind]) for kind in KINDS if kind in drawing.used]
    items += [(sign(use(one, 0, 0)), words) for one, words in SIGN_WORDS if one in drawing.used]
    if any(net.answer.repeaters for net in nets):
        items.append((sign(use("repeater-set", 20, 20)), "repeater, pointing the way of the signal"))
    if "stair-up" in drawing.used:
        items.append((sign(use("stair-up", 20, 20)), "the wire goes on one floor up, in the cell across this edge"))
        items.append((sign(use("stair-down", 20, 20)), "the wire goes on one floor down, in the cell across this edge"))
    put = {one.kind for one in puts(nets, laid)} if laid else set()
    for kind, (fills, style), words in ((SOLID, STONE_PUT, "a solid support that is laid"),
                                        (TRANSPARENT, GLASS_PUT, "a transparent support that is laid")):
        if kind in put:
            items.append((sign('<rect x="5" y="5" width="30" height="30" fill="%s" %s/>' % (fills[2], style)), words))
    spans = "".join("<span>%s%s</span>" % (drawn, escape(words)) for drawn, words in items)
    return '<section class="slide"><h2>Legend</h2><div class="legend">%s</div></section>' % spans
