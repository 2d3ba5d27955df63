"""What the tests share: running the tools, the stored sheets with their answers, random jobs."""
import os
import random
import subprocess
import sys

from dustsheet import text as texts
from dustsheet.answer import Answer
from dustsheet.job import MAX_LIMIT, Block, End, Job, Sink, to_bytes

ROOT = os.path.join(os.path.dirname(os.path.abspath(__file__)), "..", "..")
TOOLS = os.path.join(ROOT, "tools")
EXAMPLES = os.path.join(ROOT, "examples")
HEX_SHEET = ("01 00000028 0A0101 00007530 0000000A 00000019 0000000F 0000 0000 0000 0000 0000 0000000000 01 0900000000\n")
TAIL_SHEET = ("02 0000002A 0A0101 00007530 0000000A 00000019 0000000F 0C 0000 0000 0000 0000 0000 0000000000 01 0900000000 03\n")
HEX_ANSWER = "net 1 10\nbranch 0 1 2 3 4 5 6 7 8 9\nrepeaters 1\n"


def run(tool, *words, given=b""):
    """Runs a tool: its status, output and messages."""
    done = subprocess.run([sys.executable, os.path.join(TOOLS, tool), *words], input=given, stdout=subprocess.PIPE, stderr=subprocess.PIPE)
    return done.returncode, done.stdout, done.stderr.decode()


def examples():
    """Those of one net: each has a sheet."""
    return sorted(name[:-6] for name in os.listdir(EXAMPLES) if name.endswith(".sheet"))


def list_examples():
    """Those of several nets: each has a list of sheets."""
    return sorted(name[:-7] for name in os.listdir(EXAMPLES) if name.endswith(".sheets"))


def small_examples():
    """All but the hall, which is too large for program `route`, and in which other routers search for minutes."""
    return [name for name in examples() if name != "hall"]


def content(name):
    with open(os.path.join(EXAMPLES, name), "rb") as file:
        return file.read()


def nets_printed(name, jobs):
    """What `./dustroute nets` printed for an example: of each net its first line, and its answer, whose branches are places."""
    parts = content(name + ".out").decode().split("\nnet ")
    assert parts[0].split() == ["nets", str(len(jobs))]
    found = []
    for part, job in zip(parts[1:], jobs):
        first, *rows = part.strip("\n").split("\n")
        cells = [[job.place(int(word)) for word in row.split()[1:]] for row in rows]
        found.append((first.split(), Answer(cells[:-1], cells[-1])))
    return found


def remade(job):
    """The bytes that the job's text makes."""
    draft = texts.read(texts.write(job), "text")
    assert not draft.problems, draft.problems
    return to_bytes(texts.job_of(draft))


# ---- the oracle's stored sheets; their format is in oracle/STORED.md

class Stored:
    def __init__(self, sheet, number, detail, branches, occupied, repeaters):
        self.sheet, self.number, self.detail = sheet, number, detail
        self.branches, self.occupied, self.repeaters = branches, occupied, repeaters

    def printed(self):
        """The answer as program route prints it."""
        if self.number:
            return "refused %d %d\n" % (self.number, self.detail)
        lines = ["net %d %d" % (len(self.branches), self.occupied)]
        lines += [" ".join(["branch", *map(str, branch)]) for branch in self.branches]
        return "\n".join(lines + [" ".join(["repeaters", *map(str, self.repeaters)])]) + "\n"


def stored(path="crates/replay_sheets/data/sheets.bin", magic=b"DRT1"):
    """Sheets with their answers, of a file in the form of oracle/STORED.md: those of the published mode, or in strict mode."""
    with open(os.path.join(ROOT, path), "rb") as file:
        data = file.read()
    assert data[:4] == magic
    place = 4

    def value(size):
        nonlocal place
        place += size
        return int.from_bytes(data[place - size:place], "big")

    def listed(size):
        return [value(size) for _ in range(value(4))]

    for _ in range(value(4)):
        place += 12  # the sizes of the lent buffers
        length = value(4)
        sheet = data[place:place + length]
        place += length
        number, detail = value(1), value(4)
        branches = [] if number else [listed(2) for _ in range(value(1))]
        occupied = 0 if number else value(4)
        yield Stored(sheet, number, detail, branches, occupied, [] if number else listed(2))
    assert place == len(data)


# ---- random jobs

def random_job(rng: random.Random) -> Job:
    """A job that no number 1 to 5 refuses, with runs of blocks so that boxes come up in its text."""
    sides = tuple(rng.choice([1, 2, 3, 7, 12, 64][:limit]) for limit in (6, 4, 4))

    def cell():
        return tuple(rng.randrange(side) for side in sides)

    def row():
        """A cell, and perhaps those behind it along one axis."""
        start, axis = list(cell()), rng.randrange(3)
        cells = [tuple(start)]
        while rng.random() < 0.6 and start[axis] + 1 < sides[axis]:
            start[axis] += 1
            cells.append(tuple(start))
        return cells

    def end():
        return End(cell(), rng.randrange(2), rng.randrange(7))

    def limit(usual):
        return rng.randint(1, MAX_LIMIT) if rng.random() < 0.3 else usual

    job = Job(sides, rng.randrange(200_001), tuple(rng.choice([0, 10, 100_000]) for _ in range(3)), end(),
              [Sink(*end(), limit(8)) for _ in range(rng.randrange(17))], run=limit(12))
    for _ in range(rng.randrange(8)):
        node, kind, facing = rng.choice([0, 0, 1, 65_535]), rng.randrange(1, 13), rng.choice([0, 0, 2, 6])
        job.blocks += [Block(node, at, kind, facing) for at in row()]
    for places in (job.conductors, job.clearances, job.terminals, job.reserved):
        for _ in range(rng.randrange(4)):
            places += row()
    return job


def random_nets(rng: random.Random) -> list:
    """A few jobs over one small room, with few blocks: a list whose nets no number 1 to 9 refuses."""
    sides = (rng.randrange(3, 9), rng.randrange(2, 5), rng.randrange(3, 9))

    def cell():
        return tuple(rng.randrange(side) for side in sides)

    blocks = {at: Block(0, at, rng.choice([1, 2]), 0) for at in ((x, 0, z) for x, _, z in (cell() for _ in range(rng.randrange(5))))}
    listed = []
    for _ in range(rng.randrange(1, 4)):
        sinks = [Sink(cell(), 0, 0, rng.choice([8, 8, 3])) for _ in range(rng.randrange(3))]
        reserved = [cell() for _ in range(rng.randrange(2))]
        listed.append(Job(sides, 30_000, (10, 25, 15), End(cell(), 0, 0), sinks, list(blocks.values()), reserved=reserved, run=rng.choice([12, 12, 4])))
    return listed


def wild_job(rng: random.Random) -> Job:
    """Any job that the format can carry: no number is where it should be."""
    def byte():
        return rng.choice([0, 1, 6, 12, 13, 64, 254, 255])

    def cell():
        return (byte(), byte(), byte())

    def end():
        return End(cell(), byte(), byte())

    job = Job(cell(), rng.randrange(2 ** 32), tuple(rng.randrange(2 ** 32) for _ in range(3)), end(),
              [Sink(*end(), rng.choice([8, byte()])) for _ in range(rng.randrange(40))], run=rng.choice([12, byte()]))
    job.blocks = [Block(rng.randrange(65_536), cell(), byte(), byte()) for _ in range(rng.randrange(9))]
    for name in ("conductors", "clearances", "terminals", "reserved"):
        setattr(job, name, [cell() for _ in range(rng.randrange(5))])
    return job
