#!/usr/bin/env python3
"""Spells the definitions and lemmas of this repository as today's Rattle does: words in snake case.

usage: python3 tools/respell.py            at the top of the repository, once, right after the kit's port.py

A name of this repository's own in camel case or with dashes gets underscores: `lastDay` is `last_day`, `next-at` is
`next_at`. Types keep their capitals, and names of Rust, of the kit and of what Rattle generates stay as they are. A
lemma whose new name would be that of its definition ends in `_lem` (see LEMMAS). The files turned are those of specs/,
proofs/ and src/ below crates/, and the texts of the edits in must-fail/, whose projections are joined as well.
"""

import glob
import re

WORD = re.compile(r'[^\s(){}.;,@"«»]+')
COMMENT = re.compile(r'(?<![^\s(){}.;,@"«»])--[^\n]*')
SPAN = re.compile(r"`[^`\n]+`")

# Lemmas that would be spelled like the definition that they are about, by the crate that declares them.
LEMMAS = {
    ("calendar", "by-weeks"),
    ("book", "close-done"),
    ("writing", "digits-within"),
    ("instructions", "entered-with"),
    ("journal", "entered-with"),
    ("rates", "entered-as"),
    ("reading", "found-by"),
    ("reading", "usable-by"),
    ("reading", "is_digit"),
    ("journal", "latest-lines"),
    ("journal", "with-leg"),
    ("holidays", "march-moon"),
    ("settle", "nothing-asked"),
    ("settle", "written-by"),
    ("settle", "given_by"),
    ("ledger", "same-part"),
    ("lines", "held_with"),
    ("examples", "last-day"),
}


def snake(name):
    return re.sub(r"(?<=[a-z0-9])[A-Z]", lambda m: "_" + m[0].lower(), name).replace("-", "_")


def wants(word):
    return bool(word[0].islower() and re.search(r"[a-z0-9][A-Z]", word)) or bool(re.search(r"\w-\w", word))


def crate_of(path):
    return path.split("/")[1]


def own_path(path, crates):
    steps = path.split(".")
    return steps[0] == "Rattle" and len(steps) > 1 and steps[1] in crates


def imported(text, crates):
    """The names that a file takes from the kit, and those that it takes from what Rattle generates."""
    kit, made = set(), set()
    for m in re.finditer(r"^\s*(?:pub )?use ([^\s{;]+?)(?:\.?\{([^}]*)\})?(?: as (\S+))?$", text, re.M):
        items = [it.strip().split(" as ")[-1] for it in (m[2] or "").split(",") if it.strip()]
        if not own_path(m[1], crates):
            kit.update(items)
        if m[3]:
            made.add(m[3])
    return kit, made


def lemmas_and_specs():
    return sorted(glob.glob("crates/*/specs/**/*.antt", recursive=True) + glob.glob("crates/*/proofs/*.antt"))


def by_hand():
    return sorted(set(glob.glob("crates/*/proofs/**/*.antt", recursive=True)) - set(lemmas_and_specs()))


def fields(files):
    found = set()
    for f in files:
        text = COMMENT.sub("", open(f).read())
        for m in re.finditer(r"^\s+(?:pub\s+)?([^\s(){}.;,:]+(?: [^\s(){}.;,:]+)*) : ", text, re.M):
            found.update(m[1].split())
    return found


def turned(word, crate):
    if (crate, word) in LEMMAS:
        return snake(word) + "_lem"
    return snake(word) if wants(word) else word


def turn_words(text, turn):
    """Applies turn to each word, with the character before it, and in comments only inside code spans."""

    def code(part):
        return WORD.sub(lambda m: turn(m[0], part[m.start() - 1] if m.start() else ""), part)

    out, at = [], 0
    for m in COMMENT.finditer(text):
        out += [code(text[at : m.start()]), SPAN.sub(lambda s: code(s[0]), m[0])]
        at = m.end()
    return "".join(out) + code(text[at:])


def main():
    crates = {c.split("/")[1] for c in glob.glob("crates/*/src")}
    plain, walks = lemmas_and_specs(), by_hand()
    kit = set()
    for f in plain + walks:
        kit |= imported(open(f).read(), crates)[0]
    own = set()
    for f in plain:
        text = COMMENT.sub("", open(f).read())
        own |= {w for w in WORD.findall(text) if wants(w) and w not in kit}
    own_fields = {w for w in fields(plain) if wants(w)}

    for f in plain:
        text = open(f).read()
        mine = imported(text, crates)[0]
        suffixed = lemma_names(f, text)
        with open(f, "w") as out:
            out.write(turn_words(text, lambda w, before: w if w in mine else suffixed.get(w) if w in suffixed and before != "." else snake(w) if wants(w) else w))

    for f in walks:
        text = open(f).read()
        mine, aliases = imported(text, crates)
        made = set(re.findall(r"^ *(?:abbrev )?(\S+) : (?:tie|lts)\.", text, re.M)) | aliases | mine
        suffixed = lemma_names(f, text)
        local = {m for m in re.findall(r"^ *(?:abbrev |pub )*(\S+) :", text, re.M) if wants(m) and m not in made and not m.startswith("+")}

        def turn(w, before):
            if before == ".":
                return snake(w) if w in own_fields else w
            if w in suffixed:
                return suffixed[w]
            return snake(w) if w in own | local and w not in made else w

        with open(f, "w") as out:
            out.write(turn_words(text, turn))

    for f in sorted(glob.glob("crates/*/src/**/*.rt", recursive=True)):
        text = open(f).read()
        parts = re.split(r'("(?:[^"\\\n]|\\.)*")', text)
        for i in range(0, len(parts), 2):
            parts[i] = re.sub(r"(?<![\w'-])[a-z][a-z0-9]*(?:[A-Z]\w*)(?![\w'-])", lambda m: snake(m[0]), parts[i])
        with open(f, "w") as out:
            out.write("".join(parts))

    for f in sorted(glob.glob("crates/*/must-fail/*.edit")):
        lines, at = [], ""
        for line in open(f).read().split("\n"):
            if line.startswith("file: "):
                at = line[6:].strip()
            m = re.match(r"(old: |new: )(.*)$", line, re.S)
            if m and at.endswith(".antt"):
                line = m[1] + joined(turn_words(m[2], lambda w, before: snake(w) if wants(w) and w not in kit else w))
            elif m and re.search(r"≡|⌜|ensures|requires", m[2]):
                line = m[1] + re.sub(r"(?<![\w'-])[a-z][a-z0-9]*(?:[A-Z]\w*)(?![\w'-])", lambda s: snake(s[0]), m[2])
            lines.append(line)
        with open(f, "w") as out:
            out.write("\n".join(lines))


def joined(text):
    """Projections as today's Rattle writes them: `(x .a .b)` is `x.a.b`, and `(f x .a)` is `(f x).a`."""
    while m := re.search(r"(?<=[\w')»]) \.(?=[\w'«])", text):
        start, depth = m.start(), 0
        while start:
            c = text[start - 1]
            depth += (c == ")") - (c == "(")
            if depth < 0 or depth == 0 and (c in "=→×,;{:" or re.search(r"(?<= )[◌+*≡≤<∷-]+ $|λ [^.]*\. $", text[:start])):
                break
            start -= 1
        start += len(text[start : m.start()]) - len(text[start : m.start()].lstrip())
        head = text[start : m.start()]
        field = re.match(r"«?[\w']+»?", text[m.end() :])[0]
        end = m.end() + len(field)
        several = " " in re.sub(r"\([^()]*(?:\([^()]*\)[^()]*)*\)", "", head)
        new = (f"({head})" if several else head) + "." + field.strip("«»")
        if text[start - 1 : start] == "(" and text[end : end + 1] == ")":
            start, end = start - 1, end + 1
        text = text[:start] + new + text[end:]
    return text


def lemma_names(f, text):
    """The lemmas of LEMMAS that a file declares or takes from the crate that declares them."""
    named = {}
    for crate, word in LEMMAS:
        declares = crate == crate_of(f) and re.search(rf"^\s*(?:pub )?{re.escape(word)} :", text, re.M)
        takes = re.search(rf"use Rattle\.{crate}\.proofs\.[\w.]+\.\{{[^}}]*(?<![\w'-]){re.escape(word)}(?![\w'-])", text)
        if declares or takes:
            named[word] = snake(word) + "_lem"
    return named


if __name__ == "__main__":
    main()
