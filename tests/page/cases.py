"""cases.py OUT.json: what Python's modules say of texts and sheets, for the page's scripts to say the same. Texts are the examples, whole and
with random slips; sheets are the oracle's, with their answers and the nets laid, whole and damaged; reasons are those of its searches without
a route and of its trees that stopped at a sink, the latter in their file's order, with what to try: by an answer that both make up, and, where
the folder of DUSTROUTE_ARCHIVE has the library as well, by the router's own, with the net so far."""
import dataclasses
import itertools
import json
import os
import random
import re
import sys

sys.dont_write_bytecode = True
HERE = os.path.dirname(os.path.abspath(__file__))
sys.path[:0] = [os.path.join(HERE, *path) for path in (("..", "..", "tools"), ("..", "tools"), ("..", "..", "bindings", "python"))]
from common import content, examples, list_examples, random_nets, stored  # noqa: E402
import test_sinks  # noqa: E402
from dustroute import NetRefusal  # noqa: E402
from dustroute.lists import printed  # noqa: E402
from dustsheet import answer as answers, check, job as jobs, laying, net, reason as reasons, rules, several, sinks  # noqa: E402
from dustsheet import text as texts, tries, words  # noqa: E402
from dustsheet.commands import build, nets, unreached  # noqa: E402
from dustsheet.commands.given import Given  # noqa: E402

ROOT = os.path.join(HERE, "..", "..")
MOVES = [(x, up, z) for x, z in ((1, 0), (-1, 0), (0, 1), (0, -1)) for up in (-1, 0, 1)]

SEED, SLIPS, DAMAGED, LISTS = 1, 1500, 400, 150
# the facings that kinds can have in the game, of all others 0 alone: docs/LAYING-RULES.md. The library may be missing here; the page asks its module
CAN_FACE = {jobs.REPEATER: range(1, 5), jobs.COMPARATOR: range(1, 5), jobs.PISTON: range(1, 7),
            jobs.TORCH: range(5), jobs.LEVER: range(5), jobs.BUTTON: range(5)}
build.facings_of = lambda kind: list(CAN_FACE.get(kind, [0]))
STRANGE = ["soild", "lamb", "blok", "sinks", "north", "up", "code-13", "node", "to", "at", "facing", "99", "300", "-1", "1.5", "(3,", "ä", "\u00b2",
           "x" * 60, "#", "Redstone_Wire", "CLEAR", "limit", "costs", "4294967296", "1234567890123", "block-power", "wire", "\u2028", "torches",
           "run", "tail", "tail 3", "16", "0", "net", "net 1", "net light", "source"]


def slipped(text, chance):
    """The text with a few words changed, left out, repeated or put in, or lines lost."""
    lines = text.split("\n")
    for _ in range(chance.randrange(1, 4)):
        place = chance.randrange(len(lines))
        parts = re.split(r"( +)", lines[place])
        at = chance.randrange(len(parts))
        how = chance.randrange(6)
        if how == 0:
            parts[at] = chance.choice(STRANGE)
        elif how == 1:
            parts[at] = ""
        elif how == 2:
            parts[at] = parts[at] * 2
        elif how == 3:
            parts.insert(at, " %s " % chance.choice(STRANGE))
        elif how == 4:
            letters = list(parts[at])
            chance.shuffle(letters)
            parts[at] = "".join(letters)
        lines[place] = "".join(parts)
        if how == 5:
            lines[place:place + 1] = chance.choice([[], [lines[place]] * 2])
    return "\n".join(lines)


def told_of_text(text):
    draft = texts.read(text, "text")
    told = {"text": text, "problems": [[problem.line, problem.words] for problem in draft.problems]}
    if draft.problems:
        return told
    nets = texts.jobs_of(draft)
    told["late"] = [[problem.line, problem.words] for problem in texts.problems_of_all(draft)]
    names = [net.name for net in texts.drafts_of(draft)]
    told["list"], told["names"] = b"".join(map(jobs.to_bytes, nets)).hex(), names
    told["canonical_list"] = texts.write_all(nets, names)
    job = nets[0]
    told["sheet"] = jobs.to_bytes(job).hex()
    told["canonical"] = texts.write(job)
    if jobs.first_fault(job) is None and next(rules.late_faults(job), None) is None:
        told["blocked"] = sorted(job.number(at) for at in rules.blocked(job))
        told["remarks"] = [[list(remark.at), remark.words] for remark in check.remarks(job, None)]
    return told


def told_of_sheet(sheet, number, detail, printed):
    told = {"sheet": sheet.hex(), "number": number, "detail": detail}
    try:
        job = jobs.from_bytes(sheet)
    except jobs.Refused as refused:
        told["refused"] = str(refused)
        return told
    fault = jobs.first_fault(job)
    told["fault"] = None if fault is None else [fault.number, fault.part, fault.index, fault.words]
    unread = dataclasses.replace(job, read_as=None)  # it is written in the lowest version that holds it
    unwritten = jobs.first_fault(unread)
    if unwritten is None:
        told["made"], told["limits"] = jobs.to_bytes(job).hex(), words.of_limits(job)
    else:
        told["unwritten"] = "%s (number %d)" % (words.of_job(unwritten.number, 0, unread), unwritten.number)
    if number:
        told["words"] = words.of_sheet(number, detail, sheet)
    elif number == 0:
        answer = answers.read(printed, job)
        told["printed"] = printed
        told["remarks"] = [[list(remark.at), remark.words] for remark in check.remarks(job, answer)]
        told["signals"] = sorted([job.number(at), strength] for at, strength in net.signals(answer, job).items())
        told["branches"] = [[one.steps, one.stairs, len(one.supports), len(one.repeaters), one.signal] for one in net.branches(answer, job)]
        told["supports"] = sorted({job.number(at) for one in net.branches(answer, job) for at in one.supports})
        laid = laying.lay(job, answer)
        told["kinds"], told["facings"] = laid.kinds.hex(), laid.facings.hex()
        told["unfit"] = [words.sentence(line) for line in build.unfit_words(job, laid)]
    return told


def told_of_reasons():
    """Of the oracle's searches without a route: the room as a text, and what is said of it."""
    with open(os.path.join(ROOT, "tests", "bindings", "whys.bin"), "rb") as file:
        data = file.read()
    place = 4

    def value(size=4):
        nonlocal place
        place += size
        return int.from_bytes(data[place - size:place], "big")

    for _ in range(value()):
        sides = (value(1), value(1), value(1))
        limit, flat, stair, support, start, goal = (value() for _ in range(6))
        place += 8
        kinds = [value(1) for _ in range(value())]
        place += 8
        number = value(1)
        place += 12
        length = value()
        place += 2 * length
        told = [(value(2), [value(1) for _ in range(12)]) for _ in range(value())]
        if number == 11:
            job = jobs.Job(sides, limit, (flat, stair, support), jobs.End((0, 0, 0), 0, 0))
            job.blocks = [jobs.Block(0, job.place(cell), kind, 0) for cell, kind in enumerate(kinds) if kind]
            asked = reasons.Question(job, job.place(start), job.place(goal))
            walls = [(cell, MOVES[move], why) for cell, moves in told for move, why in enumerate(moves) if why]
            said = [reasons.no_way(asked), reasons.sentence(reasons.Surroundings(asked, [cell for cell, _ in told], walls))]
            yield {"text": texts.write(job), "start": asked.start, "goal": asked.goal, "words": said}


def told_of_unreached(one, chance):
    """The words, and what to try over a net that is drawn at random, where a router is thought of that reaches a sink now and then."""
    branches = [[chance.randrange(one.job.cells()) for _ in range(chance.randrange(4))] for _ in one.job.sinks]
    one = one._replace(net=[[one.job.place(cell) for cell in branch] for branch in branches])
    told = {"words": sinks.words(one), "branches": branches}
    for one_in in (2, 7, 10 ** 9):
        told["tries%d" % one_in] = tried(one, tries.tries(one, lambda job, strict, _, one_in=one_in: thought_reached(job, strict, one_in)))
    return told


def thought_reached(job, strict, one_in):
    number = 0
    for byte in jobs.to_bytes(job) + bytes([strict]):
        number = (31 * number + byte) % 1000003
    return number % one_in == 0


def tried(one, found):
    return {"words": tries.helpful(one, found), "tried": found.tried, "isAll": found.is_all,
            "found": [[change.sort, change.words, change.at, jobs.to_bytes(change.job).hex(), change.strict] for change in found.found]}


def explained(one):
    """The same by the library: the net so far, and what really helps. None of a short queue's, which the library's own is not."""
    if one.number != 14:
        return None
    told = unreached.explain(one.job, one.strict)
    branches = [[one.job.number(at) for at in branch] for branch in told.unreached.net]
    return {"soFar": {"branches": branches, "isExact": told.unreached.is_exact}, **tried(told.unreached, told.tried)}


def told_of_list(listed, names, strict):
    """Of several nets, by the library: what is printed, and what is warned of; of a refusal its words, what is known, and what helps."""
    given = [nets.GivenNet(place, name, "list", Given(jobs.to_bytes(job), None)) for place, (name, job) in enumerate(zip(names, listed))]
    told = {"sheets": [net.given.sheet.hex() for net in given], "names": names, "strict": strict}
    answered = nets.attempt(given, strict)
    if isinstance(answered, NetRefusal):
        known = nets.explained(given, answered, strict)
        told["printed"], told["head"] = answered.line(), known.reason[0]
        told["more"] = [line for line in known.reason[1:] if not line.startswith((several.TRY, "Putting it"))]
        told["tries"] = known.tried() or [line for line in known.reason[1:] if line.startswith("Putting it")]
        return told
    found = nets.nets_of(given, answered)
    laid = several.Laid(answered.kinds, answered.facings, answered.owners)
    told["printed"] = printed(answered.nets, names)
    told["remarks"] = [[list(remark.at), remark.words] for remark in several.all_remarks(found, laid)]
    told["put"] = [[found[0].job.number(put.at), put.kind] for put in several.puts(found, laid)]
    return told


def told_of_lists(chance):
    """The example's nets in every order, in both modes, and small ones by chance."""
    draft = texts.read(content("controller.txt").decode(), "text")
    four, names = texts.jobs_of(draft), [net.name for net in draft.nets]
    for order in itertools.permutations(range(4)):
        for strict in (False, True):
            yield told_of_list([four[place] for place in order], [names[place] for place in order], strict)
    for _ in range(LISTS):
        listed = random_nets(chance)
        yield told_of_list(listed, [chance.choice(["", "n%d" % place]) for place in range(len(listed))], chance.random() < 0.5)


def has_library():
    return os.path.exists(os.path.join(os.environ.get("DUSTROUTE_ARCHIVE", ""), "libdustroute.so"))


def damaged(sheet, chance):
    bytes_ = bytearray(sheet)
    if chance.randrange(2):
        bytes_[chance.randrange(len(bytes_))] = chance.randrange(256)
        return bytes(bytes_)
    return bytes(bytes_[:chance.randrange(len(bytes_) + 1)]) + bytes(chance.randrange(2))


def main():
    chance = random.Random(SEED)
    whole = [content(name + ".txt").decode() for name in [*examples(), *list_examples() * 4]]  # a list has more to slip at
    listed = whole + [slipped(chance.choice(whole), chance) for _ in range(SLIPS)]
    sheets = [*stored(), *stored("tests/bindings/limits.bin")]
    told = [told_of_sheet(one.sheet, one.number, one.detail, one.printed()) for one in sheets if one.number != 6]
    told += [told_of_sheet(damaged(chance.choice(sheets).sheet, chance), None, 0, "") for _ in range(DAMAGED)]
    with open(sys.argv[1], "w", encoding="utf-8") as out:
        json.dump({"texts": [told_of_text(text) for text in listed], "sheets": told, "reasons": list(told_of_reasons()),
                   "unreached": [told_of_unreached(one, chance) for one in test_sinks.STORED],
                   "explained": [explained(one) for one in test_sinks.STORED] if has_library() else None,
                   "lists": list(told_of_lists(chance)) if has_library() else []}, out)


main()
