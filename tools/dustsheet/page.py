"""The page: heading, answer in words, warnings, the whole room, floors, table of branches, legend; for the projector each is a screen.
One HTML file without scripts; it is well-formed XML too."""
from __future__ import annotations

from html import escape
from itertools import groupby
from typing import List, Optional, Tuple

from .answer import Answer, occupied, refusal_words
from .check import NOT_KNOWN
from .drawing import HOVER_CELLS, Drawing
from .job import BLOCK_POWER, KINDS, PORTS, Job, spell
from .net import branches
from .solid import Picture
from .supports import Supports, of_answer
from .symbols import CELL, COLOURS, KIND_NAMES, STYLE, definitions, line_style, use
from .words import of_limits, sentence

COLUMNS = ["Sink", "Line", "Port", "Branch from", "Steps", "Stairs", "Supports to fetch", "Repeaters", "Signal"]
ISO_SCALE = 1.4  # how large the whole room is drawn where the page is wide enough
SIGN_WORDS = [
    ("conductor", "another net's conductor"), ("clearance", "another net's clearance"), ("terminal", "another net's terminal"),
    ("reserved", "reserved cell"), ("blocked", "blocked at the outset: too near to something live"),
    ("support", "air under a wire: it needs a support"), ("warned", "a warning, with its number"),
]


def page(name: str, job: Job, answer: Optional[Answer], reason: Optional[str] = None, strict: bool = False) -> str:
    """The page of a job that no number 1 to 5 refuses, and of its answer in a mode. Where more is known of a refusal than its number
    tells, that is the reason."""
    drawing = Drawing(job, answer)
    floors = floor_figures(drawing)
    body = [MODES, heading(name, job), mode_words(strict) if answer else "", answer_words(job, answer, reason), warnings(drawing, answer),
            room_picture(drawing, answer), '<h2>Floors</h2>', reading_help(drawing), *floors, branch_table(job, answer), legend(job, drawing)]
    return document(name, '<main id="projector">%s</main>' % "".join(body))


def damaged_page(name: str, number: int, words: str) -> str:
    return document(name, "<h1>%s</h1>%s" % (escape(name), refused_box(number, 0, words)))


def document(name: str, body: str) -> str:
    return ('<!DOCTYPE html>\n<html lang="en" xmlns="http://www.w3.org/1999/xhtml"><head><meta charset="utf-8"/>'
            '<meta name="viewport" content="width=device-width"/><title>%s</title><style>%s</style></head><body>'
            '<svg xmlns="http://www.w3.org/2000/svg" width="0" height="0" style="position:absolute"><defs>%s</defs></svg>%s</body></html>\n'
            % (escape(name), STYLE, definitions(), body))


# the page's own mode for the projector, without a script: the link's target is styled
MODES = ('<p class="modes screen"><a href="#projector">For the projector: one floor a screen</a></p>'
         '<p class="back screen"><a href="#">Back to the page</a></p>')


def heading(name: str, job: Job) -> str:
    return ('<h1>%s</h1><p>Room of %d x %d x %d cells. Costs in tenths: flat step %d, stair %d, new support %d. Node limit %d.%s</p>'
            % (escape(name), *job.sides, *job.costs, job.limit, limits(job)))


def limits(job: Job) -> str:
    words = of_limits(job)
    return '<br/><span class="limits">%s</span>' % escape(sentence(words)) if words else ""


def mode_words(strict: bool) -> str:
    """Which mode the answer was routed in: docs/MORE-RULES.md."""
    if strict:
        return ('<p class="mode"><b>Strict mode:</b> no wire enters or rests on air that other nets hold or keep clear, or that is reserved, '
                'but at the ends of a search.</p>')
    return ('<p class="mode"><b>Published mode:</b> air that other nets hold or keep clear, or that is reserved, counts as solid, '
            'and wire may rest on it.</p>')


def count(number: int, word: str) -> str:
    plural = word + ("es" if word.endswith("ch") else "s")
    return "%d %s" % (number, word if number == 1 else plural)


def answer_words(job: Job, answer: Optional[Answer], reason: Optional[str]) -> str:
    if answer is None:
        return "<p>The room alone, with %s; no answer was given.</p>" % count(len(job.sinks), "sink")
    if answer.refused:
        return refused_box(*answer.refused, sentence(reason) if reason else refusal_words(*answer.refused, job))
    return "<p>The net: %s, %s occupied, %s, %s.</p>" % (
        count(len(answer.branches), "branch"), count(len(occupied(answer, job)), "cell"), count(len(answer.repeaters), "repeater"),
        fetch_words(of_answer(job, answer)))


def fetch_words(supports: Supports) -> str:
    """What builders fetch, and how it differs from what the searches count: docs/DIFFERENCES.md, Supports."""
    words = count(supports.fetch, "support") + " to fetch"
    if supports.start:
        words += ", %d of them beneath a sink's own wire, where no search counts one" % supports.start
    if supports.on_path:
        words += "; %d that a search counts fall on the net's own wire" % supports.on_path
    return words


def refused_box(number: int, detail: int, words: str) -> str:
    return '<p class="refused slide"><b>Refused.</b> %s (Number %d, detail %d.)</p>' % (escape(words), number, detail)


def warnings(drawing: Drawing, answer: Optional[Answer]) -> str:
    """What the check remarks, numbered as it is drawn, and what it doesn't know."""
    if not drawing.remarks:
        return '<p class="note">%s</p>' % escape("The check found nothing to warn of. " + NOT_KNOWN) if answer and not answer.refused else ""
    listed = "".join("<li>%s</li>" % escape(sentence(remark.words)) for remark in drawing.remarks)
    return '<section class="warnings slide"><h2>Warnings</h2><ol>%s</ol><p class="note">%s</p></section>' % (listed, escape(NOT_KNOWN))


# ---- the whole room

def room_picture(drawing: Drawing, answer: Optional[Answer]) -> str:
    picture = Picture(drawing.job, answer, drawing.remarks)
    return ('<figure class="iso slide" id="room"><figcaption>The room, seen from the south-east%s</figcaption>'
            '<svg xmlns="http://www.w3.org/2000/svg" class="large" viewBox="0 0 %g %g" width="%g" role="img" aria-label="the room">%s</svg></figure>'
            % (cropped(drawing), picture.width, picture.height, ISO_SCALE * picture.width, picture.body()))


def cropped(drawing: Drawing) -> str:
    if drawing.window.is_whole(drawing.job):
        return ""
    (x0, y0, z0), (x1, y1, z1) = drawing.window
    return '<span class="note">; what is drawn, here and below: x = %d to %d, y = %d to %d, z = %d to %d</span>' % (x0, x1, y0, y1, z0, z1)


# ---- floors

def reading_help(drawing: Drawing) -> str:
    job = drawing.job
    hover = ("Rest the pointer on a cell to see its number." if job.cells() <= HOVER_CELLS
             else "Rest the pointer on a cell that holds something to see its number.")
    return ('<div class="help">%s<p>The bottom floor, y = 0, comes first; each next one lies on top of it. x counts to the right, '
            'z downward.%s<br/>Cell (x, y, z) has number (x &#215; %d + y) &#215; %d + z. <span class="screen">%s</span></p></div>'
            % (compass(), " The small number at a wire is its signal." if drawing.signal else "", job.sides[1], job.sides[2], hover))


def compass() -> str:
    letters = "".join('<text class="small" x="%d" y="%d">%s</text>' % item for item in
                      [(30, 10, "North"), (53, 33, "East"), (30, 57, "South"), (6, 33, "West")])
    return ('<svg xmlns="http://www.w3.org/2000/svg" class="compass" viewBox="-12 0 84 60" width="98" height="70" role="img" '
            'aria-label="north is up"><path class="tip" d="M30 13L34 29L30 45L26 29z"/><path class="tip-light" d="M30 28L33 29L30 43L27 29z"/>'
            '%s</svg>' % letters)


def floor_figures(drawing: Drawing) -> List[str]:
    """A figure for each floor with something to see, a line for each run of floors that are alike throughout."""
    high = drawing.job.sides[1]
    parts: List[str] = []
    for says, levels in groupby(range(high), drawing.plain_floor):
        if says is None:
            for level in levels:
                for place, (words, drawn) in enumerate(drawing.pieces(level)):
                    name = "floor-%d-%d" % (level, place) if place else "floor-%d" % level
                    parts.append('<figure class="floor slide" id="%s"><figcaption>%s%s</figcaption>%s</figure>'
                                 % (name, floor_name(level, high), words, drawn))
        else:
            run = list(levels)
            parts.append('<p class="note plain">%s</p>' % plain_words(run[0], run[-1], says))
    return parts


def floor_name(level: int, high: int) -> str:
    ends = [word for word, there in (("bottom", level == 0), ("top", level == high - 1)) if there]
    return "Floor y = %d%s" % (level, " (%s)" % " and ".join(ends) if ends else "")


def plain_words(first: int, last: int, says: str) -> str:
    if first == last:
        return "Floor y = %d is %s." % (first, says)
    return "Floors y = %d to %d are %s." % (first, last, says)


# ---- branches and legend

def sample_line(branch: int) -> str:
    return ('<svg xmlns="http://www.w3.org/2000/svg" viewBox="0 0 60 14" width="60" height="14"><path class="branch" d="M2 7H58" %s/></svg>'
            % line_style(branch))


def branch_table(job: Job, answer: Optional[Answer]) -> str:
    if not answer or not answer.branches:
        return ""
    rows = []
    for place, branch in enumerate(branches(answer, job)):
        numbers = (branch.steps, branch.stairs, len(branch.supports), len(branch.repeaters), branch.signal)
        rows.append("<tr><td>%d</td><td>%s</td><td>%s at %s</td><td>%s</td>%s</tr>" % (
            place + 1, sample_line(place), PORTS[branch.sink.port], spell(branch.sink.at), spell(branch.cells[0]),
            "".join("<td>%d</td>" % number for number in numbers)))
    head = "".join("<th>%s</th>" % word for word in COLUMNS)
    return '<section class="slide"><h2>Branches</h2><table><thead><tr>%s</tr></thead><tbody>%s</tbody></table></section>' % (head, "".join(rows))


def legend(job: Job, drawing: Drawing) -> str:
    items = [(sign(use("source", 0, 0) + '<text class="end-light" x="20" y="26">S</text>'), "source")]
    if job.sinks:
        ring = '<circle class="sink" cx="20" cy="20" r="13" stroke="%s"/><text class="end" x="20" y="26">1</text>' % COLOURS[0]
        items.append((sign(ring), "sink with its number"))
    items += [(sign(use(kind, 0, 0)), KIND_NAMES[kind]) for kind in KINDS if kind in drawing.used]
    if any(used.startswith("facing-") for used in drawing.used):
        frame = '<rect class="ground" width="40" height="40"/>'
        items.append((sign(frame + use("facing-east", 0, 0)), "the way a block faces; up and down are written in it"))
    items += [(sign(use(name, 0, 0)), words) for name, words in SIGN_WORDS if name in drawing.used]
    items += net_items(drawing)
    spans = "".join("<span>%s%s</span>" % (picture, escape(words)) for picture, words in items)
    return '<section class="slide"><h2>Legend</h2><div class="legend">%s</div></section>' % spans


def net_items(drawing: Drawing) -> List[Tuple[str, str]]:
    items = []
    if drawing.marked:
        items.append((sign(use("marked", 0, 0)), "the refusal speaks of this cell"))
    if drawing.answer.repeaters:
        items.append((sign(use("repeater-set", 20, 20)), "repeater, pointing the way of the signal"))
    if "stair-up" in drawing.used:
        items.append((sign(use("stair-up", 20, 20)), "the wire goes on one floor up, in the cell across this edge"))
        items.append((sign(use("stair-down", 20, 20)), "the wire goes on one floor down, in the cell across this edge"))
    if len({branch[0] for branch in drawing.answer.branches if branch}) > 1:
        items.append((sign('<circle class="joint" cx="20" cy="20" r="7"/>'), "a branch begins on another one"))
    if drawing.sound and any(end.port == BLOCK_POWER for end in [drawing.job.source, *drawing.job.sinks]):
        items.append((sign('<path class="power" d="M2 20H38"/>' + use("power", 20, 20)), "power into or out of a block"))
    return items


def sign(content: str) -> str:
    return '<svg xmlns="http://www.w3.org/2000/svg" viewBox="0 0 %d %d" width="28" height="28">%s</svg>' % (CELL, CELL, content)
