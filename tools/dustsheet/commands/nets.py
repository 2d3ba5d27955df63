"""`nets FILE..` routes several nets over one room, one after another, through the proved library: docs/RULES.md has the rules, tools/README.md what
is printed."""
from __future__ import annotations

import argparse
import os
import re
from typing import List, NamedTuple, Optional, Sequence, Union

import dustroute
from dustroute.lists import printed

from .. import answer as answers, files, job as jobs, nets_page, report, several, sinks, text as texts
from ..nets_drawing import NetsPicture
from ..progress import Progress
from ..several import TRY, Laid, Net, RefusedNet
from ..sinks import Unreached
from ..text import net_name
from . import sheet as sheets, unreached
from .given import Given, read_all
from .route import NAME, REFUSED, load, print_out, tell

ABOUT = "route several nets over one room, one after another: texts, sheets or lists"
OVERLAP = 16


def configure(parser: argparse.ArgumentParser) -> None:
    parser.add_argument("file", metavar="FILE", nargs="+", help="the text of several nets, a list of sheets, or a text or sheet for each net, in "
                        "this order; - for standard input")
    parser.add_argument("--view", metavar="PAGE.html", help="also draw them, and the room as it is laid, as a page for a browser")
    parser.add_argument("--picture", metavar="ROOM.svg", help="also draw the room as it is laid, alone")
    parser.add_argument("--strict", action="store_true", help="strict mode for all of them, as of `route`")
    parser.add_argument("--json", action="store_true", help="print coordinates, numbers and the laid blocks as JSON instead")
    parser.add_argument("-q", "--quiet", action="store_true", help="tell nothing of progress")
    parser.set_defaults(run=nets)


class GivenNet(NamedTuple):
    """A net of a list as it was given: the file it stands in, its name, if it has one, and its sheet or draft."""
    place: int
    name: str
    path: str
    given: Given

    def words(self) -> str:
        return net_name(self.place, self.name)


Answered = Union[dustroute.Nets, dustroute.NetRefusal]


def nets(args: argparse.Namespace) -> int:
    return routed(args, read_nets(args.file))


def routed(args: argparse.Namespace, given: List[GivenNet]) -> int:
    progress = Progress(NAME, args.quiet)
    load(progress)
    answered = progress.watch("routing", lambda: attempt(given, args.strict))
    if isinstance(answered, dustroute.NetRefusal):
        refused = progress.watch("looking for the reason", lambda: explained(given, answered, args.strict))
        if args.view:
            files.write(args.view, nets_page.refused_page(title(args.file), refused, args.strict).encode(), is_text=True)
        print_out(report.of_refused_net(refused, args.strict) if args.json else answered.line())
        tell(refused.reason, [])
        return REFUSED
    found = nets_of(given, answered)
    laid = Laid(answered.kinds, answered.facings, answered.owners)
    remarks = several.all_remarks(found, laid)
    if args.view:
        files.write(args.view, nets_page.page(title(args.file), found, laid, remarks, args.strict).encode(), is_text=True)
    if getattr(args, "picture", None):
        files.write(args.picture, NetsPicture(found, laid, ()).svg().encode(), is_text=True)
    print_out(report.of_nets(found, laid, remarks, args.strict) if args.json else printed(answered.nets, [net.name for net in found]))
    tell([], remarks)
    return 0


# ---- what is given

def read_nets(paths: Sequence[str]) -> List[GivenNet]:
    """The nets of all files, in their order. One that stands alone in its file, without a name, has the file's, where there are several."""
    if list(paths).count("-") > 1:
        raise files.Stop("%s: standard input can be read once" % NAME)
    found: List[GivenNet] = []
    for path in paths:
        listed = read_all(path, takes_any=True)
        for name, given in listed:
            named = name or (file_name(path) if len(listed) == 1 and len(paths) > 1 else "")
            found.append(GivenNet(len(found), named, path, given))
    return found


def file_name(path: str) -> str:
    """A net's name by its file: one word."""
    stem = os.path.splitext(os.path.basename(path))[0]
    return "" if path == "-" else re.sub(r"[\s#,()]+", "-", files.printable(stem))[:texts.MOST_NAME]


def title(paths: Sequence[str]) -> str:
    return ", ".join(files.title(path) for path in paths)


def attempt(given: Sequence[GivenNet], strict: bool) -> Answered:
    """What the library answers. Behind a sheet that ends too early nothing is handed over: it would be taken for the rest of it."""
    sheets_given = [net.given.sheet for net in given]
    cut = next((place for place, sheet in enumerate(sheets_given) if not jobs.is_whole(sheet)), len(given))
    try:
        return dustroute.nets(sheets_given[:cut + 1], strict=strict)
    except dustroute.NetRefusal as refusal:
        return refusal


def nets_of(given: Sequence[GivenNet], answered: dustroute.Nets) -> List[Net]:
    """The nets with their jobs, of a list that was answered: then each sheet means a job."""
    return [net_of(net, jobs.from_bytes(net.given.sheet), tree) for net, tree in zip(given, answered.nets)]


def net_of(net: GivenNet, job: jobs.Job, tree: dustroute.Tree) -> Net:
    branches = [[job.place(cell) for cell in branch] for branch in tree.branches]
    return Net(net.place, net.name, job, answers.Answer(branches, [job.place(cell) for cell in tree.repeaters]))


# ---- why it was refused

def explained(given: List[GivenNet], refusal: dustroute.NetRefusal, strict: bool) -> RefusedNet:
    net = given[refusal.net]
    where = ", " + files.shown(net.path) if len({other.path for other in given}) > 1 else ""
    head = "%s%s: %s" % (net.words(), where, refusal.words)
    known = RefusedNet(net.place, net.name, len(given), refusal.number, refusal.detail, [head])
    if refusal.number < 13:
        return known._replace(reason=fault_lines(net, head))
    listed = [jobs.from_bytes(other.given.sheet) for other in given]
    job, before = listed[net.place], nets_before(given, listed, net.place, strict)
    stopped, more = None, []
    if refusal.number == OVERLAP:
        more = overlap_words(job.place(refusal.detail), before)
    elif len(before) == net.place:
        job = several.seen_by(job, before, listed[net.place + 1:])
        stopped = stopped_at(job, strict)
        more = sinks.words(stopped) if stopped else []
    return known._replace(before=before, seen=job, stopped=stopped, reason=[head, *more, *order_words(given, refusal, strict)])


def overlap_words(at: jobs.Pos, before: Sequence[Net]) -> List[str]:
    lower = [net for net in before if at in answers.occupied(net.answer, net.job)]
    return ["It is %s that lies there. The router never moves a net that it has laid." % lower[0].words()] if lower else []


def fault_lines(net: GivenNet, head: str) -> List[str]:
    """Numbers 1 to 9: for a text at its lines, if a line is to blame."""
    draft = net.given.draft
    problems = texts.problems_of(draft, texts.job_of(draft)) if draft is not None else []
    if not problems:
        return [head]
    return [net.words() + ": " + line if place == 0 else line for place, line in enumerate(sheets.listed(draft, problems).split("\n"))]


def nets_before(given: Sequence[GivenNet], listed: Sequence[jobs.Job], count: int, strict: bool) -> List[Net]:
    """The first nets of a list as they were routed: each is the tree of a single job. Fewer where one has no sheet that is short enough."""
    found: List[Net] = []
    for net, job in zip(given[:count], listed):
        try:
            tree = dustroute.route(several.seen_by(job, found, listed[net.place + 1:]), strict=strict)
        except dustroute.Refusal:
            break
        found.append(net_of(net, job, tree))
    return found


def stopped_at(seen: jobs.Job, strict: bool) -> Optional[Unreached]:
    try:
        told = unreached.found(seen, strict)
    except dustroute.Refusal:
        return None
    return None if isinstance(told, dustroute.Tree) else told


def order_words(given: List[GivenNet], refusal: dustroute.NetRefusal, strict: bool) -> List[str]:
    """Whether another order helps, or the other mode: found by trying. The refused net comes as late as it may."""
    net = given[refusal.net]
    for place in range(refusal.net - 1, -1, -1):
        changed = [*given[:place], net, *given[place:refusal.net], *given[refusal.net + 1:]]
        if isinstance(attempt(changed, strict), dustroute.Nets):
            return [TRY + "put %s before %s; then all nets are routed" % (net.words(), given[place].words()) + "."]
    if isinstance(attempt(given, not strict), dustroute.Nets):
        return [TRY + "route %s --strict; then all nets are routed" % ("without" if strict else "with") + "."]
    return ["Putting it further to the front doesn't help."] if refusal.net else []
