#!/usr/bin/env python3
"""Mends what a check says of the proofs of a crate where the message says what to write, and checks again.

usage: python3 tools/mend.py CRATE [ROUNDS [NAMES]]      at the top of the repository

NAMES is the names.json that `rt check --generated DIR --old-names` writes in the crate; with it, places that a proof
hands to a lemma are mended too.

It numbers no more where a record has names now, adds the impossible cases that a lemma lacks, and has the check write
missing imports. What is left it prints.
"""

import json
import os
import re
import subprocess
import sys


def check(where, *flags):
    r = subprocess.run(["rt", "check", *flags], cwd=where, stdout=subprocess.PIPE, stderr=subprocess.STDOUT, text=True)
    return r.stdout


def fields_of(lines, i):
    """The fields that a message names, on its own line or on the next."""
    for line in lines[i : i + 2]:
        m = re.search(r"fields that can be named here are (.*)$", line)
        if m:
            return re.findall(r"`([^`]+)`", m[1])
    return []


def plain(line):
    """A fact of a test, no more read off a Bool: `(ltb-true a b w.if-x.true)` is `w.if-x.true`."""
    return re.sub(r"\((?:ltb|leb)-(true|false) [^\s()]+ [^\s()]+ ([a-z]\w*(?:\.[^\s().]+)+\.\1)\)", r"\2", line)


def mend(where, said):
    done = 0
    lines = said.split("\n")
    files = {}

    def load(path):
        if path not in files:
            files[path] = open(os.path.join(where, path)).read().split("\n")
        return files[path]

    clauses = []
    for i, line in enumerate(lines):
        m = re.match(r"(\./proofs/\S+\.antt):(\d+):(\d+): error: (.*)$", line)
        if not m:
            continue
        path, row, col, text = m[1], int(m[2]) - 1, int(m[3]) - 1, m[4]
        it = load(path)
        f = re.search(r"record `[^`]*By-[^`]*`? ?.* has no field `(\d+)`", text)
        if f:
            names = fields_of(lines, i)
            k = int(f[1])
            at = it[row]
            if k < len(names):
                p = re.compile(r"(\.)" + f[1] + r"(?![\w'-])").search(at, col)
                if p:
                    it[row] = at[: p.start()] + "." + names[k] + at[p.end() :]
                    done += 1
            continue
        f = re.search(r"`Rattle\.\w+\.proofs\.(\S+)\.Lts\.([A-Z][\w-]*)`", text)
        g = re.search(r"\(expected\) and the other has `Rattle\.\w+\.proofs\.\S+\.Lts\.([A-Z][\w-]*)`\s+\(found\)", lines[i + 1] if i + 1 < len(lines) else "")
        if f and g and names_of:
            parents = next((p for k, p in names_of.items() if k.endswith("." + f[1])), {})
            p = re.compile(r"(\w+)((?:\.before)+)(?![\w'.-])").search(it[row], col)

            def depth(low, to):
                n = 0
                while low is not None and low != to:
                    low, n = parents.get(low), n + 1
                return n if low == to else None

            more, less = depth(g[1], f[2]), depth(f[2], g[1])
            if p and (more or less):
                n = p[2].count(".before") + (more or 0) - (less or 0)
                it[row] = it[row][: p.start()] + p[1] + ".before" * n + it[row][p.end() :]
                done += 1
            continue
        f = re.search(r"has no field `(taken|left)`", text)
        if f:
            names = fields_of(lines, i)
            side = {"taken": "true", "left": "false"}[f[1]]
            new = side if side in names else names[0] + "." + side if names else None
            p = re.compile(r"\." + f[1] + r"(?![\w'-])").search(it[row], col)
            if p and new:
                it[row] = plain(it[row][: p.start()] + "." + new + it[row][p.end() :])
                done += 1
            continue
        c = re.search(r"`([^`]+)`: write the clause `([^`]+)`", text)
        if c:
            clauses.append((path, c[1], c[2]))
    for path, name, clause in clauses:
        it = load(path)
        for k, l in enumerate(it):
            g = re.match(r"(\s*)" + re.escape(name) + r" (?!:)", l)
            if g and not re.search(r" : ", l.split("=")[0]):
                clause = re.sub(r" \{\w+ = \w+\}", "", clause)
                it.insert(k, g[1] + clause)
                done += 1
                break
    for path, it in files.items():
        with open(os.path.join(where, path), "w") as out:
            out.write("\n".join(it))
    return done


names_of = {}


def main():
    if len(sys.argv) > 3:
        for key, it in json.load(open(sys.argv[3])).items():
            if isinstance(it, dict) and "places" in it:
                names_of[re.sub(r"\.Lts.*$", "", key)] = {p[0]: p[1] for p in it["places"]}
    crate, rounds = sys.argv[1], int(sys.argv[2]) if len(sys.argv) > 2 else 6
    where = os.path.join("crates", crate)
    said = ""
    for _ in range(rounds):
        said = check(where)
        if re.search(r"(?m)^logic=proved", said):
            break
        if "is not in scope" in said:
            check(where, "--fix-imports")
        if not mend(where, said) and "is not in scope" not in said:
            break
    skip = re.compile(r"^(checked |statements |rt: note: must-fail|logic /|library |note: \S+: `\S+` is rattle's own|.*: proved$)")
    print("\n".join(l[:1100] for l in said.split("\n") if not skip.match(l)))


if __name__ == "__main__":
    main()
