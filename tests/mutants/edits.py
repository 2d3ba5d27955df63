"""Which small edits a file of code or of definitions allows: each makes something else of it, and most still compile."""
import re
from dataclasses import dataclass
from pathlib import Path

CODE_OTHERS = {"<": ["<="], "<=": ["<"], ">": [">="], ">=": [">"], "==": ["!="], "!=": ["=="], "&&": ["||"], "||": ["&&"],
               "+": ["-"], "-": ["+"], "*": ["+"], "/": ["*"], "%": ["/"], "+=": ["-="], "-=": ["+="], "|=": ["&="], "&=": ["|="]}
CODE_WORDS = {"true": ["false"], "false": ["true"]}
CODE_METHODS = {"min": "max", "max": "min", "any": "all", "all": "any", "is_some": "is_none", "is_none": "is_some", "is_ok": "is_err",
                "is_err": "is_ok"}
# the parts of a chain of calls that may be left out, and those behind which one more may stand
LEFT_OUT = {"skip", "take", "rev", "filter", "min", "max"}
PASSED_OVER = {"iter", "iter_mut"}
DEFINITION_OTHERS = {"≤": ["<"], "<": ["≤"], "&&": ["||"], "||": ["&&"], "+": ["-", "*"], "-": ["+"], "*": ["+"], "≡": ["≤"]}
DEFINITION_WORDS = {"ltb": ["leb"], "leb": ["ltb"], "eqb": ["leb", "ltb"], "true": ["false"], "false": ["true"]}
# the definitions whose arguments may change places and still be of the same kinds
SWAPPED_DEFINITIONS = {"ltb": [(0, 1)], "leb": [(0, 1)], "either": [(1, 2)]}


@dataclass(frozen=True)
class Edit:
    """A line of a file, counted from 1, as it is and as it would be."""
    file: str
    line: int
    kind: str
    old: str
    new: str


def replaced(line, start, end, by):
    return line[:start] + by + line[end:]


# ---- edits of a line; a stretch of it alone may change: from `first` up to `last`

def operator_edits(line, first, last, others):
    for match in re.finditer(r"(?<= )[^\w\s()\[\]{}.,;:]+(?= )", line[:last]):
        for other in others.get(match[0], []) if match.start() >= first else []:
            yield "operator", replaced(line, *match.span(), other)


def word_edits(line, first, last, words):
    for match in re.finditer(r"(?<![\w.·-])[a-z]+(?![\w·-])", line[:last]):
        for other in words.get(match[0], []) if match.start() >= first else []:
            yield "word", replaced(line, *match.span(), other)


def constant_edits(line, first, last):
    """One more and one less. A number behind a single dot or before `=` is a field's name."""
    for match in re.finditer(r"(?:(?<![\w.·-])|(?<=\.\.))\d+(?=(?:u8|u16|u32|u64|usize)?(?![\w·-]))(?! = )", line[:last]):
        if match.start() >= first:
            for other in {int(match[0]) + 1, max(int(match[0]) - 1, 0)} - {int(match[0])}:
                yield "constant", replaced(line, *match.span(), str(other))


def denial_edits(line, first, last):
    for match in re.finditer(r"(?<=[ (])!(?=[\w(])", line[:last]):
        if match.start() >= first:
            yield "denial", replaced(line, *match.span(), "")


def argument_edits(line, first, last):
    """Two neighbours among a call's arguments change places."""
    for match in re.finditer(r"\b\w+(?:::<\w+>)?\(([^()]+)\)", line[:last]):
        given = match[1].split(", ")
        for at in range(len(given) - 1) if match.start() >= first else []:
            changed = given[:at] + [given[at + 1], given[at]] + given[at + 2:]
            yield "arguments", replaced(line, *match.span(1), ", ".join(changed))


def range_edits(line, first, last):
    """A range with its last number or without it, and without the first place of all. Dots behind a space are a struct's other fields."""
    for match in re.finditer(r"(?<=[\w)\[])\.\.(=?)(?=[\w(])", line[:last]):
        if match.start() >= first:
            yield "range", replaced(line, *match.span(), ".." if match[1] else "..=")
            if line[match.start() - 1] == "[":
                yield "range", replaced(line, match.start(), match.start(), "1")
    match = re.match(r" *for .+ in &(?:mut )?[\w.:]+(?= \{)", line[:last])
    if match and match.end() > first:
        yield "range", replaced(line, match.end(), match.end(), "[1..]")


def option_edits(line, first, last):
    """Nothing, where something is answered."""
    match = re.fullmatch(r"( *(?:return )?)Some\(.+\)(;?)", line[:last])
    if match and match.start() >= first:
        yield "option", f"{match[1]}None{match[2]}"


def behind_call(line, at):
    """The place behind a call whose bracket opens at `at`, or None where it closes on another line."""
    depth = 0
    for place in range(at, len(line)):
        depth += {"(": 1, ")": -1}.get(line[place], 0)
        if depth == 0:
            return place + 1
    return None


def method_edits(line, first, last):
    """A method for its neighbour, a chain of calls without one of them, and one that passes over its first item."""
    for match in re.finditer(r"\.(\w+)\(", line[:last]):
        end = behind_call(line, match.end() - 1)
        if match.start() < first or end is None:
            continue
        if match[1] in CODE_METHODS:
            yield "method", replaced(line, *match.span(1), CODE_METHODS[match[1]])
        if match[1] in LEFT_OUT:
            yield "method", replaced(line, match.start(), end, "")
        if match[1] in PASSED_OVER:
            yield "method", replaced(line, end, end, ".skip(1)")


def sides_edits(line, first, last):
    """The two sides of an `if` change places."""
    match = re.search(r"\{ ([^{}]+) \} else \{ ([^{}]+) \}", line[:last])
    if match and match.start() >= first:
        yield "sides", replaced(line, match.start(), match.end(), f"{{ {match[2]} }} else {{ {match[1]} }}")


def applied(line, at, last):
    """The spans of the arguments that stand behind a definition's name: words, or what stands in brackets."""
    spans = []
    while at < last and line[at] == " ":
        start = at = at + 1
        depth = 0
        while at < last and (depth > 0 or line[at] not in " )"):
            depth += {"(": 1, ")": -1}.get(line[at], 0)
            at += 1
        spans.append((start, at))
    return spans


def definition_argument_edits(line, first, last):
    for match in re.finditer(r"(?<![\w.·-])[a-z]+(?= )", line[:last]):
        spans = applied(line, match.end(), last)
        for one, other in SWAPPED_DEFINITIONS.get(match[0], []) if match.start() >= first else []:
            if other < len(spans):
                (a, b), (c, d) = spans[one], spans[other]
                yield "arguments", line[:a] + line[c:d] + line[b:c] + line[a:b] + line[d:]


def answer_edits(lines, place):
    """A number that a function answers early, for something that it has counted until then."""
    match = re.match(r"( *return )\d+;$", lines[place])
    while match and place > 0 and not re.match(r" *(pub )?fn ", lines[place]):
        place -= 1
        counted = re.match(r" *let mut (\w+): usize = ", lines[place])
        if counted:
            yield "answer", f"{match[1]}{counted[1]};"


def arm_at(lines, place):
    """The indent, the pattern and the answer of an arm of a `match` that stands on one line, or None."""
    return re.fullmatch(r"( +)(.+?) => (.+),", lines[place]) if 0 <= place < len(lines) else None


def arm_edits(lines, place):
    """An arm with the answer of the arm beside it, where that uses no name of its own pattern."""
    arm = arm_at(lines, place)
    for beside in filter(None, [arm_at(lines, place - 1), arm_at(lines, place + 1)] if arm else []):
        own = set(re.findall(r"\b[a-z]\w*\b(?!::)", beside[2]))
        if arm[1] == beside[1] and not own & set(re.findall(r"\w+", beside[3])):
            yield "arm", f"{arm[1]}{arm[2]} => {beside[3]},"


# ---- edits of a file

def code_edits(line):
    """Of a line of code: no comment, no contract, no name from elsewhere, no head of a function."""
    if re.match(r" *(//|use |ghost |pub use |mod |pub mod |#|(requires|ensures)\b|(pub )?(extern \"C\" )?fn )", line) or 'b"' in line:
        return
    first, last = 0, line.find("//") % (len(line) + 1)
    yield from operator_edits(line, first, last, CODE_OTHERS)
    yield from word_edits(line, first, last, CODE_WORDS)
    yield from constant_edits(line, first, last)
    yield from denial_edits(line, first, last)
    yield from argument_edits(line, first, last)
    yield from range_edits(line, first, last)
    yield from option_edits(line, first, last)
    yield from method_edits(line, first, last)
    yield from sides_edits(line, first, last)


def definition_edits(line, imported):
    """Of a line that defines: what stands behind its first `=`, or behind the colon of a record's field."""
    if re.match(r"(--|use |\S.* : |(pub )?(record|data) )|.*\bType\b", line):
        return
    first = max(re.search(r"^\S.*? =( |$)|^ +(pub )?[\w-]+ : |^ *", line).end() - 1, 0)
    last = len(re.split(r" --( |$)", line)[0])
    others = {token: [other for other in tokens if f"◌{other}◌" in imported] for token, tokens in DEFINITION_OTHERS.items()}
    words = {word: [other for other in names if other in imported] for word, names in DEFINITION_WORDS.items()}
    yield from operator_edits(line, first, last, others)
    yield from word_edits(line, first, last, words)
    yield from constant_edits(line, first, last)
    yield from definition_argument_edits(line, first, last)


def imported_by(text):
    return set(re.findall(r"[^\s{},]+", " ".join(re.findall(r"^use .*\{(.*)\}", text, re.M))))


def edits_of(root, file):
    """All edits of a file, which is given by its path in the repository."""
    text = (root / file).read_text(encoding="utf-8")
    lines, imported = text.split("\n"), imported_by(text)
    found = set()
    for place, line in enumerate(lines):
        if Path(file).suffix == ".rt":
            edits = [*code_edits(line), *answer_edits(lines, place), *arm_edits(lines, place)]
        else:
            edits = definition_edits(line, imported)
        found.update(Edit(file, place + 1, kind, line, new) for kind, new in edits if new != line)
    return sorted(found, key=lambda edit: (edit.file, edit.line, edit.kind, edit.new))
