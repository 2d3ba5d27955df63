"""`build FILE.. -o room.mcfunction` routes one net or several, lays them and writes the room as a function file for the game."""
from __future__ import annotations

import argparse
import re
import sys
from collections import Counter
from typing import List, Optional, TextIO

import dustroute

from .. import datapack, files, job as jobs
from ..check import remarks
from ..progress import Progress
from ..several import Laid, all_remarks
from .nets import GivenNet, attempt, explained, nets_of, read_nets
from .route import NAME, REFUSED, load, print_out, refusal_lines, stopped_at, tell

ABOUT = "route one net or several and write the room as a function file for the game"


def configure(parser: argparse.ArgumentParser) -> None:
    parser.add_argument("file", metavar="FILE", nargs="+", help="a text, of one net or of several, a job sheet or a list of sheets, or - for standard "
                        "input; several files are nets over one room, in this order")
    parser.add_argument("-o", "--output", metavar="ROOM.mcfunction", help="the function file; else it goes to standard output, unless --pack is "
                        "given")
    parser.add_argument("--pack", metavar="ROOM.zip", help="also write it as a data pack, for %s" % datapack.VERSIONS)
    parser.add_argument("--strict", action="store_true", help="strict mode, as of `route`")
    parser.add_argument("-q", "--quiet", action="store_true", help="tell nothing of progress, of loading and of blocks to fetch")
    parser.set_defaults(run=build)


def build(args: argparse.Namespace) -> int:
    given = read_nets(args.file)
    progress = Progress(NAME, args.quiet)
    load(progress)
    answered = progress.watch("routing", lambda: attempt(given, args.strict))
    if isinstance(answered, dustroute.NetRefusal):
        print_out(answered.line() if len(given) > 1 else dustroute.Refusal.line(answered))
        tell(reason_of(given, answered, args.strict), [])
        return REFUSED
    nets = nets_of(given, answered)
    laid = Laid(answered.kinds, answered.facings, answered.owners)
    job = nets[0].job
    unfit = unfit_words(job, laid)
    if unfit:
        tell(unfit, [])
        return REFUSED
    text = dustroute.write_function(job.sides, laid.kinds, laid.facings)
    named = args.file[0] if len(args.file) == 1 and args.file[0] != "-" else "room"
    name = datapack.function_name(args.output or args.pack or named)
    if args.pack:
        files.write(args.pack, datapack.zipped(name, text), is_text=False)
    if args.output or not args.pack:
        files.write(args.output, text, is_text=True)
    if not args.quiet:
        told(job, laid, text, name, args.output, args.pack, sys.stdout if args.output or args.pack else sys.stderr)
    tell([], remarks(job, nets[0].answer) if len(nets) == 1 else all_remarks(nets, laid))
    return 0


def reason_of(given: List[GivenNet], refusal: dustroute.NetRefusal, strict: bool) -> List[str]:
    """Why there is nothing to build: of a net that is alone as `route` says it."""
    if len(given) > 1:
        return explained(given, refusal, strict).reason
    alone = given[0].given
    return refusal_lines(alone, refusal, strict, stopped_at(alone, refusal, strict))


# ---- where a facing can't be

def facings_of(kind: int) -> List[int]:
    """The facings with which a kind can be written: the proved function is asked, so that its table stands once."""
    def can(facing: int) -> bool:
        try:
            dustroute.write_function((1, 1, 1), [kind], [facing])
        except dustroute.Refusal:
            return False
        return True
    return [facing for facing in range(len(jobs.FACINGS)) if can(facing)]


def unfit_words(job: jobs.Job, laid: Laid) -> List[str]:
    """Each block that can't be written, and what to write instead. Routing doesn't look at these facings."""
    lawful = {kind: facings_of(kind) for kind in set(laid.kinds)}
    found = []
    for cell, (kind, facing) in enumerate(zip(laid.kinds, laid.facings)):
        if facing not in lawful[kind]:
            words = listed([jobs.FACINGS[one] for one in lawful[kind]])
            found.append("the %s at %s faces %s, and the game has none that does: write facing %s%s" % (
                jobs.KINDS[kind], jobs.spell(job.place(cell)), jobs.FACINGS[facing], words, standing(kind, facing)))
    return found


def listed(words: List[str]) -> str:
    """`a, b or c`."""
    return " or ".join(filter(None, [", ".join(words[:-1]), words[-1]]))


def standing(kind: int, facing: int) -> str:
    """DustRoute's own standing torch faces up; in the game it has no facing."""
    is_up = jobs.FACINGS[facing] == "up" and kind in (jobs.TORCH, jobs.LEVER, jobs.BUTTON)
    return "; one that stands on the ground has facing none" if is_up else ""


# ---- what a builder is told

def fetched(job: jobs.Job, laid: Laid, text: bytes) -> Counter:
    """The blocks to fetch, by the game's names as the text has them: all that is laid, less what stands in the room already."""
    stands = {job.number(block.at): (block.kind, block.facing) for block in job.blocks}
    cells = (cell for cell, kind in enumerate(laid.kinds) if kind != jobs.AIR)
    lines = text.decode("ascii").splitlines()
    new = (line for cell, line in zip(cells, lines) if stands.get(cell) != (laid.kinds[cell], laid.facings[cell]))
    return Counter(re.findall(r"minecraft:(\w+)", "\n".join(new)))


def told(job: jobs.Job, laid: Laid, text: bytes, name: str, output: Optional[str], pack: Optional[str], out: TextIO) -> None:
    counts = fetched(job, laid, text)
    total = sum(counts.values())
    lines = ["blocks to fetch, %d in all, beside the %d of the room itself:" % (total, text.count(b"\n") - total)]
    lines += [*("%6d  %s" % (counts[block], block) for block in sorted(counts)), "to load it:"]
    if pack:
        lines.append("  put %s into the folder datapacks of the world (%s), and type /reload" % (pack, datapack.VERSIONS))
    else:
        lines.append("  put %s into a data pack as data/%s/function/%s.mcfunction, up to version 1.20.6 as data/%s/functions/%s.mcfunction; "
                     "--pack makes one" % (output or "the text", datapack.NAMESPACE, name, datapack.NAMESPACE, name))
        lines.append("  and type /reload")
    lines.append("  stand where the cell (0, 0, 0) is to be and type /function %s:%s" % (datapack.NAMESPACE, name))
    lines.append("  the room goes %d blocks to the east, %d up and %d to the south from there; its ground must be solid" % job.sides)
    print("\n".join(lines), file=out)
