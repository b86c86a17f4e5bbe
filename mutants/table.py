"""The table of results, RESULTS.md. It is also what the next run starts from, and the only place of the reasons."""
import pathlib
import re
import textwrap

import trial

FILE = pathlib.Path(__file__).resolve().parent / "RESULTS.md"
COLUMNS = ("Mutant", "Change", "Caught by", "Reason")
ROW = re.compile(r"\| `(\S+)` \| (.*) \| ([^|]*) \| ([^|]*?) ?\|")
LONGEST = 72
HEADS = ("Mutants", "Refused", "of these `shape`", "Recorded output", "Differential test", "Survivors", "Not compiled")


class Unread(Exception):
    """A line of the table that is no row."""


class Row:
    """What became of a mutant."""

    def __init__(self, key, change, caught, reason=""):
        self.key, self.change, self.caught, self.reason = key, change, caught, reason
        self.function = key.rpartition("/")[0]
        self.kind = key.rpartition("/")[2].split("-")[0]
        self.compiled = caught != trial.NOT_COMPILED
        self.accepted = caught in (trial.RECORDED, trial.DIFFERENTIAL, trial.NOTHING)
        self.refused = self.compiled and not self.accepted


def read():
    """The rows of the table by their keys."""
    rows = {}
    lines = FILE.read_text(encoding="utf-8").splitlines() if FILE.exists() else []
    start = lines.index(line(COLUMNS)) + 2 if line(COLUMNS) in lines else len(lines)
    for number, text in enumerate(lines[start:], start + 1):
        found = ROW.fullmatch(text)
        if not found:
            raise Unread(f"{FILE}:{number}: this is no row of the table")
        rows[found[1]] = Row(*found.groups())
    return rows


def code(text):
    """Text of the code, on one line and not too long, as a table's cell may have it."""
    text = " ".join(text.split())
    if len(text) > LONGEST:
        text = text[: LONGEST - 2] + " …"
    return "`" + text.replace("|", "\\|") + "`"


def change(mutant):
    place = mutant.place
    if place.kind == "store":
        return code(place.old()) + " dropped"
    shown = f"{code(place.old())} to {code(mutant.new)}"
    if place.kind == "swap":
        return shown
    text = place.unit.file.text.splitlines()[place.line - 1]
    return f"{shown} in {code(text)}"


def line(cells):
    return "|" + "|".join(f" {cell} " if cell != "" else " " for cell in cells) + "|"


def head(cells):
    return [line(cells), "|" + "---|" * len(cells)]


def counts(rows):
    """How many rows there are of each outcome, in the order of HEADS."""
    return [
        sum(row.compiled for row in rows),
        sum(row.refused for row in rows),
        sum(row.caught.endswith(trial.SHAPE) for row in rows),
        sum(row.caught == trial.RECORDED for row in rows),
        sum(row.caught == trial.DIFFERENTIAL for row in rows),
        sum(row.caught == trial.NOTHING for row in rows),
        sum(not row.compiled for row in rows),
    ]


def by_crate(crates, units, rows):
    lines = head(("Crate", "Functions and constants", "Places", *HEADS))
    for crate in crates + ["all"]:
        own = [unit for unit in units if crate in (unit.crate.name, "all")]
        tried = [row for row in rows if crate in (row.function.split("/")[0], "all")]
        lines.append(line((crate, len(own), sum(len(unit.places) for unit in own), *counts(tried))))
    return lines


def by_kind(rows):
    lines = head(("Change", *HEADS))
    for kind in sorted({row.kind for row in rows}):
        lines.append(line((kind, *counts([row for row in rows if row.kind == kind]))))
    return lines


def write(units, rows, stale, seed):
    """The whole of RESULTS.md. `stale` names the functions that are to be tried."""
    crates = list(dict.fromkeys(unit.crate.name for unit in units))
    lines = ["# Results", "", f"Made by `mutants/run`, seed {seed}. [README.md](README.md) says how to read it.", ""]
    if stale:
        names = ", ".join(f"`{name}`" for name in stale)
        text = f"Not tried yet as they are now ({len(stale)} functions and constants): {names}."
        lines += textwrap.wrap(text, 120, break_long_words=False, break_on_hyphens=False) + [""]
    lines += by_crate(crates, units, rows) + [""] + by_kind(rows) + ["", "## Every mutant", ""] + head(COLUMNS)
    # A crate that is gone has rows only until they are dropped.
    place = {crate: number for number, crate in enumerate(crates)}
    for row in sorted(rows, key=lambda row: (place.get(row.function.split("/")[0], -1), row.key)):
        lines.append(line((f"`{row.key}`", row.change, row.caught, row.reason)))
    # A run that is stopped here leaves the table as it was.
    new = FILE.with_suffix(".new")
    new.write_text("\n".join(lines) + "\n", encoding="utf-8")
    new.replace(FILE)
