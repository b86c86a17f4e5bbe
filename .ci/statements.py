"""What the product promises, read from its sources: the statement on whole journals, the laws beside it, the contracts
of the calls and of the program's loop, and the seeded faults."""
import re
from pathlib import Path

ROOT = Path(__file__).resolve().parent.parent
STATEMENT = ["crates/journal/specs/Promise.antt", "crates/journal/proofs/Demand3.antt"]
# The laws beside the statement that a reader is told of: for each file, patterns of their names.
LAWS = {
    "crates/journal/proofs/Theorem.antt": ["demand_3"],
    "crates/journal/proofs/Recalled.antt": ["Remembered", "remembered", "no_26_again"],
    "crates/basics/proofs/Refusals.antt": ["Printed", "Smallest", "NoneHolds", "Refuses", "refuses_by", "refuses_none"],
    "crates/book/proofs/Refused.antt": [".*_refuses"],
    "crates/book/proofs/Usable.antt": ["close_started", "few_held", "rate_taken", "rate_used"],
    "crates/rates/proofs/Ruling.antt": ["Greatest", "in_force_greatest", "none_started"],
    "crates/holidays/proofs/Refused.antt": ["target_refuses"],
    "crates/settle/proofs/Journals.antt": ["held_promised"],
    "crates/settle/proofs/Texts.antt": ["reached_follows", "played_means"],
    "crates/settle/proofs/Completing.antt": ["over_complete", "all_handed"],
    "crates/settle/proofs/Opening.antt": ["days_open"],
    "crates/examples/proofs/Settled.antt": ["settled"],
}
# Each file with contracts that are promised, and patterns of the names of its functions.
CONTRACTS = {
    **{str(path.relative_to(ROOT)): ["pub .*"] for path in sorted(ROOT.glob("crates/book/src/*.rt"))},
    "crates/holidays/src/lib.rt": ["pub target_days"],
    "crates/settle/src/main.rt": ["settle_all"],
}
# Our crates. A path of the toolchain's library has the same form, with the name of a library in the crate's place.
OWN = {path.name for path in (ROOT / "crates").iterdir()}
FUNCTION = re.compile(r"( *)(pub )?fn (\w+)(?:<[^>]*>)?\(")
DECLARATION = re.compile(r"( *)((?:(?:pub|abbrev|unfoldable|record|data) )*)([^\s:(]+) .*")


def lines_of(path):
    return (ROOT / path).read_text(encoding="utf-8").splitlines()


def without_comments(lines, mark):
    """The lines without comments, and with one empty line where there were several."""
    kept = []
    for line in lines:
        if line.lstrip().startswith(mark) or (not line and (not kept or not kept[-1])):
            continue
        kept.append(line)
    return kept


def is_named(names, name):
    return any(re.fullmatch(pattern, name) for pattern in names)


def uses(lines, text):
    """The lines that say from which of our files the names in a text come. Those of the toolchain's library are left
    out: where a name comes from one of our files in its place, there is a line more."""
    words = set(re.findall(r"[^\s(){};,.]+", text))
    for line in lines:
        match = re.fullmatch(r"((?:ghost )?use Rattle\.(\w+)\.\S+)\.\{(.*)\};?", line)
        if match and match[2] in OWN:
            names = [name for name in match[3].split(", ") if name in words]
            if names:
                yield f"{match[1]}.{{{', '.join(names)}}}"


def statement(path):
    """The text of a file of definitions."""
    lines = without_comments(lines_of(path), "--")
    text = [line for line in lines if not line.startswith("use ") or " as " in line]
    return [*uses(lines, "\n".join(text)), *text]


def laws(path):
    """The laws of a file of proofs that are promised, each with what it says and without its proof."""
    lines = without_comments(lines_of(path), "--")
    found, start = [], 0
    while start < len(lines):
        match, end = DECLARATION.match(lines[start]), start + 1
        if match and "pub" in match[2] and is_named(LAWS[path], match[3]):
            inside = match[1] + " "
            goes_on = re.compile(f"{inside}|{match[1]}{re.escape(match[3])} " if "abbrev" in match[2] else inside)
            while end < len(lines) and goes_on.match(lines[end]):
                end += 1
            found += [line.removeprefix(match[1]) for line in lines[start:end]]
        start = end
    return [", ".join(uses(lines, "\n".join(found))), *found]


def contracts(path):
    """The functions of a source file whose contracts are promised: the name and the lines of each, up to its body."""
    lines = without_comments(lines_of(path), "//")
    for start, line in enumerate(lines):
        match = FUNCTION.match(line)
        if match and is_named(CONTRACTS[path], (match[2] or "") + match[3]):
            end = lines.index(match[1] + "{", start)
            yield match[3], [line.removeprefix(match[1]) for line in lines[start:end]]


# What no fault has to break: how a call and a run are told; the words of a line, and the offers of which the clauses
# beside them speak; and that code meets its contract, which each fault of that contract breaks.
FREE = re.compile(r"(\w*Called|Ran|Purchase|Code)\..*|BoughtInTurn\.turns|Demand3\..*_code")


def clauses():
    """What a fault can break, and whether a fault has to: the fields of a record of the statement and the cases of a
    type there, as in Promise.zero_sum; what is a name for other clauses, as EveryMonth, which no fault has to; and the
    contract of each function, as Book::close."""
    found = {}
    for path in STATEMENT:
        for line in statement(path):
            if match := re.match(r"(?:pub record|pub data|abbrev pub|unfoldable pub) (\S+)", line):
                owner = match[1]
                found[owner] = False
            elif match := re.match(r"  (?:pub )?([\w']+) :", line):
                name = f"{owner}.{match[1]}"
                found[name] = not FREE.fullmatch(name)
    for path in CONTRACTS:
        owner = "Book::" if path.startswith("crates/book/") else ""
        found.update({owner + name: True for name, _ in contracts(path)})
    return found


def edits(crate="*"):
    """The files of seeded faults."""
    return sorted(ROOT.glob(f"crates/{crate}/must-fail/*.edit"))
