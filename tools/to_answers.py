#!/usr/bin/env python3
"""Turns the proofs that walked the code by hand, proofs/F/Proof.antt, into Invariants.antt and Answers.antt.

usage: python3 tools/to_answers.py CRATE NAMES [OLD]

Run at the top of the repository. NAMES is the names.json that `rt check --generated DIR --old-names` writes in the
crate, and OLD is a folder with the Proof.antt files, if they are no longer in the crate's proofs/. A file is written
only where it has something to say: answers that only said `search rules` go. What the script can't turn is listed.
"""

import json
import os
import re
import sys

# Labels of clauses that said of a `&` that what it lends stays as it was.
DROPPED = {"collected_value", "closed_value", "days_value", "list_value", "lines_value"}
TOKEN = r"[^\s(){}.;,@\"«»]+"


def norm(name):
    return name.replace("_", "-")


class Function:
    """What names.json says of one function."""

    def __init__(self, it):
        self.places = {}
        for row, new, arm in zip(it["places"], it["places_by_name"], it["arms"] or [None] * len(it["places"])):
            old, parent, step, callee, extra = row
            self.places[norm(old)] = dict(parent=parent and norm(parent), old=norm(step[0]), new=step[1], callee=callee, extra=dict(extra or []), name=new, arm=arm)
        self.needs = {}
        for (old, new), (at, _) in zip(it["needs"], it["asked_at"]):
            self.needs[norm(old)] = (new, norm(at))
        self.settled = it["settled"]
        self.loops = [(old, new, names, changed) for ((old, new), names), changed in zip(it["loops"], it["changed"])]
        self.asked = it["asked"]
        self.params = it["params"]
        self.typed = {p: t for p, t in zip(self.places, it["typed"])}

    def whole(self, place):
        """The whole arm to which a part of an arm belongs, or the place itself."""
        arm = self.places[place]["arm"]
        if not arm:
            return place
        name = arm[0][0].upper() + arm[0][1:]
        return next((p for p, row in self.places.items() if row["name"] == name), place)

    def stands_for(self, place):
        """How many steps lie behind the record of a place: an arm stands for those that its pattern took."""
        arm = self.places[place]["arm"]
        return arm[1] if arm and self.whole(place) == place else 1

    def up(self, place, steps):
        for _ in range(steps):
            place = self.places[place]["parent"]
            if place is None:
                return None
        return place


class Clauses:
    """The names of the clauses of each function of the repository, by its path."""

    def __init__(self, root):
        self.of = {}
        for crate in os.listdir(os.path.join(root, "crates")):
            src = os.path.join(root, "crates", crate, "src")
            for folder, _, files in os.walk(src):
                for f in files:
                    if f.endswith(".rt"):
                        self.read(crate, f[:-3], open(os.path.join(folder, f)).read())

    def read(self, crate, module, text):
        impl = None
        for m in re.finditer(r"^impl (\w+)|^}|^( *)(?:pub )?(?:const )?fn (\w+)(.*?)\n *\{\n|^ *(?:pub )?fn (\w+)[^\n]*\{$", text, re.M | re.S):
            if m[1]:
                impl = m[1]
            elif m[0] == "}":
                impl = None
            elif m[3]:
                head = m[4]
                found = {}
                for kind in ("requires", "ensures"):
                    found[kind] = [c[0] for c in re.findall(kind + r"( \w+)? \{", head) for c in [(c.strip(),)]]
                found["params"] = [(p[0], p[1].strip()) for p in re.findall(r"(\w+): ([^,)]+)", head.split(")")[0])]
                if re.search(r"\(&mut self|\(mut self|\(self|\(&self", head):
                    found["params"].insert(0, ("self", "&mut Self" if "&mut self" in head else "Self"))
                found["old"] = list(found["ensures"])
                found["ensures"] = [c for c in found["ensures"] if c not in DROPPED]
                path = [crate] + ([] if module in ("lib", "main") else [module]) + ([impl] if impl else []) + [m[3]]
                self.of["::".join(path)] = found
                if impl:
                    self.of["::".join([crate, impl, m[3]])] = found

    def label(self, path, kind, index):
        """The label of a clause by its place among the old ones; "" where one clause is left, which has none."""
        of = self.of.get(path) or {}
        names = of.get("old" if kind == "ensures" else kind) or []
        if len(names) > 1 and index < len(names) and names[index]:
            return "" if len(of[kind]) == 1 else names[index]
        return None


class Converter:
    def __init__(self, fn, clauses, path):
        self.fn, self.clauses, self.path = fn, clauses, path
        self.used_places = set()
        self.trouble = []
        self.takes = {}
        # helpers that lead from one place to another
        self.leads = {}

    # ---- paths
    def step(self, low, name):
        """The place on the way to `low` that a step leads to."""
        while low:
            if self.fn.places[low]["old"] == name:
                return low
            low = self.fn.places[low]["parent"]
        return None

    def field(self, place, fields, base):
        """The new path of `fields` behind c at `place`."""
        at = self.fn.places[place]
        older = {"inv": "invariant", "taken": "true", "left": "false", "pre": "requires"}
        fields = [older.get(f, f) for f in fields]
        head, rest = fields[0], fields[1:]
        if head in ("args", "ranges", "well_formed"):
            return [head] + rest
        if head == "requires":
            if rest and rest[0].isdigit():
                label = self.clauses.label(self.path, "requires", int(rest[0]))
                if label is not None:
                    rest = [label] * bool(label) + rest[1:]
            return ["requires"] + rest
        # The kit's scripts took some names of steps for lemmas of std and gave them an ending.
        if norm(head) != at["old"] and not self.step(base, norm(head)):
            head = head.removesuffix("_lem")
        # A step more or less than there was: its name tells which it is.
        if norm(head) != at["old"] and self.step(base, norm(head)):
            place = self.step(base, norm(head))
            at = self.fn.places[place]
        if norm(head) != at["old"]:
            self.trouble.append(f"{head} is not the step of {place} ({at['old']})")
            return fields
        arm = self.armed(base, head, rest)
        if arm:
            return arm
        new = at["new"]
        if rest:
            name = rest[0]
            if name in at["extra"]:
                rest = [at["extra"][name]] + rest[1:]
            elif name == "branch":
                rest = ["branch-raw"] + rest[1:]
            elif name == "ensures" and at["callee"] and len(rest) > 1 and rest[1].isdigit():
                label = self.clauses.label(at["callee"], "ensures", int(rest[1]))
                if label is not None:
                    rest = ["ensures"] + [label] * bool(label) + rest[2:]
            elif name == "new" and at["callee"] and len(rest) > 1 and rest[1].isdigit():
                names = [n for n, t in (self.clauses.of.get(at["callee"]) or {}).get("params", []) if t.startswith("&mut")]
                at_index, k = 0, 1
                # (a, (b, tt)): a path of ones that ends in a zero
                while k < len(rest) and rest[k] == "1":
                    at_index, k = at_index + 1, k + 1
                if k < len(rest) and rest[k] == "0" and at_index < len(names):
                    rest = ["new", names[at_index]] + rest[k + 1 :]
        return [new] + rest

    def armed(self, base, head, rest):
        """A fact of an arm, where the way to `base` has the whole arm."""
        low, names = base, []
        while low:
            names.append(self.fn.places[low]["name"])
            low = self.fn.places[low]["parent"]
        low = base
        while low:
            arm = self.fn.places[low]["arm"]
            for new, step, path in arm[2] if arm else []:
                if norm(step) == norm(head) and path and rest[: len(path)] == path:
                    if arm[0][0].upper() + arm[0][1:] in names:
                        return [arm[0], new] + rest[len(path) :]
            low = self.fn.places[low]["parent"]
        return None

    def resolve(self, var, fields, env):
        head, ups, place = env[var][:3]
        base = env[var][3] if len(env[var]) > 3 else place
        fields = list(fields)
        n = 0
        while fields and fields[0] == "before":
            fields.pop(0)
            n += 1
        where = self.fn.up(place, n)
        if where is None and fields:
            where = place
        if where is None:
            self.trouble.append(f"{var}{'.before' * n} leads nowhere from {place}")
            return None, None
        if not fields:
            return (head, ups + n, where, base), None
        return None, head + "." + ".".join(self.field(where, fields, base))

    def chain(self, alias, want):
        """A place by steps back from where the goal stands."""
        low, k, to = alias[3], 0, want or alias[2]
        while low and low != to:
            low, k = self.fn.up(low, self.fn.stands_for(low)), k + 1
        return alias[0] + ".before" * (k if low else alias[1])

    def place_at(self, body, at, env):
        """The place that is written at `at`, as `c.before` or `(start c)`, and where it ends."""
        m = re.compile(r"\(\s*(" + TOKEN + r")\s+").match(body, at)
        if m and m[1] in self.leads:
            inner, end = self.place_at(body, m.end(), env)
            if inner and body[end : end + 1] == ")":
                to, low, k = self.leads[m[1]], inner[3], 0
                while low and low != to:
                    low, k = self.fn.places[low]["parent"], k + 1
                return (inner[0], k, to, inner[3]), end + 1
            return None, at
        m = re.compile(r"(" + TOKEN + r")((?:\.before)*)(?![\w'.-])").match(body, at)
        if m and m[1] in env:
            alias, _ = self.resolve(m[1], ["before"] * m[2].count(".before"), env)
            return alias, m.end()
        return None, at

    def text(self, body, env):
        env = dict(env)
        if self.leads:
            # where such a helper stands, a variable of its own stands for the place
            names = "|".join(map(re.escape, self.leads))
            body = re.sub(r"(let " + TOKEN + r" = )((?:" + names + r") [^\n]*?)(\s+in\s)", r"\1(\2)\3", body)
        out, at = [], 0
        pattern = re.compile(r"let (" + TOKEN + r") = (" + TOKEN + r")((?:\." + TOKEN + r")*) in\s*|(?<![^\s(){};,←@])(" + TOKEN + r")((?:\.(?:" + TOKEN + r"))*)")
        while m := pattern.search(body, at):
            if self.leads:
                p = body.find("(", at)
                lead = re.compile(r"\(\s*(" + TOKEN + r")\s").match(body, p) if 0 <= p <= m.start() else None
                if lead and lead[1] in self.leads:
                    alias, end = self.place_at(body, p, env)
                    if alias:
                        out.append(body[at:p])
                        fields = re.compile(r"((?:\." + TOKEN + r")*)").match(body, end)
                        let = re.search(r"let (" + TOKEN + r") = $", "".join(out))
                        env["§"] = alias
                        more, path = self.resolve("§", fields[1].split(".")[1:], env)
                        if let and more and re.compile(r"\s+in\s").match(body, fields.end()):
                            env[let[1]] = more
                            joined = "".join(out)
                            out = [joined[: let.start()]]
                            at = re.compile(r"\s+in\s*").match(body, fields.end()).end()
                            continue
                        at = fields.end()
                        if more:
                            called = re.search(r"(" + TOKEN + r") $", "".join(out))
                            out.append(self.chain(more, called and self.takes.get(called[1])))
                        else:
                            out.append(path)
                        continue
            if m[1] and re.compile(r"\(").match(body, m.end()) is None and False:
                pass
            out.append(body[at : m.start()])
            at = m.end()
            if m[1]:
                name, var, fields = m[1], m[2], m[3].split(".")[1:]
                if var in env:
                    alias, path = self.resolve(var, fields, env)
                    if alias:
                        env[name] = alias
                        continue
                    if path:
                        env.pop(name, None)
                        out.append(f"let {name} = {path} in" + re.search(r"in(\s*)$", m[0])[1])
                        continue
                env.pop(name, None)
                # only the head was read: go on behind it
                at = m.start() + len(f"let {name} = ")
                out.append(f"let {name} = ")
                continue
            var, fields = m[4], m[5].split(".")[1:]
            if var not in env:
                out.append(m[0])
                continue
            alias, path = self.resolve(var, fields, env)
            if alias:
                called = re.search(r"(" + TOKEN + r") $", "".join(out))
                out.append(self.chain(alias, called and self.takes.get(called[1])))
            else:
                out.append(path or m[0])
        out.append(body[at:])
        return "".join(out)

    def place_of_type(self, text):
        """Turns types of places in a signature; answers the text and the environment."""
        env = {}

        def one(m):
            names, place = m[1].split(), norm(m[2])
            if place not in self.fn.places:
                self.trouble.append(f"no place {m[2]}")
                return m[0]
            place = self.fn.whole(place)
            new = self.fn.places[place]["name"]
            self.used_places.add(new)
            for n in names:
                env[n] = (n, 0, place)
            return f"({m[1].strip()} : {new})"

        text = re.sub(r"\(((?:" + TOKEN + r" )+): (?:tie|lts)\.(" + TOKEN + r")(?: (?:invariant|decreases)-loop\w*)*\)", one, text)

        def bare(m):
            place = norm(m[1])
            if place not in self.fn.places:
                self.trouble.append(f"no place {m[1]}")
                return m[0]
            place = self.fn.whole(place)
            self.used_places.add(self.fn.places[place]["name"])
            env.setdefault(None, []).append(place)
            return self.fn.places[place]["name"]

        text = re.sub(r"(?:tie|lts)\.([A-Z]" + TOKEN + r")(?: (?:invariant|decreases)-loop\w*)*", bare, text)
        return text, env


def closing(text, at):
    """Where the bracket at `at` closes."""
    depth = 0
    for i in range(at, len(text)):
        depth += text[i] in "([{"
        depth -= text[i] in ")]}"
        if depth == 0:
            return i
    return -1


def items(text):
    """The parts of a tuple's inside."""
    out, depth, at = [], 0, 0
    for i, ch in enumerate(text):
        depth += ch in "([{"
        depth -= ch in ")]}"
        if ch == "," and depth == 0:
            out.append(text[at:i].strip())
            at = i + 1
    last = text[at:].strip()
    return out + [last] * bool(last)


def tail_tuple(term):
    """Where the term ends in a tuple: what stands before it, and its items."""
    t = term.rstrip()
    if not t.endswith(")"):
        return None
    for i in range(len(t) - 1, -1, -1):
        if t[i] == "(" and closing(t, i) == len(t) - 1:
            before = t[:i].rstrip()
            if before == "" or re.search(r"(?<!\S)in$", before):
                return t[:i], items(t[i + 1 : -1])
    return None


def clause_wise(term, old, new):
    """A tuple by clauses: a record of them, or the one that is left."""
    if len(old) < 2:
        return term
    got = tail_tuple(term)
    while got and len(got[1]) < len(old) and got[1][-1].startswith("(") and closing(got[1][-1], 0) == len(got[1][-1]) - 1:
        more = items(got[1][-1][1:-1])
        if len(more) < 2:
            break
        got = (got[0], got[1][:-1] + more)
    if not got or len(got[1]) != len(old):
        return term
    pairs = [(n, t) for n, t in zip(old, got[1]) if n in new]
    if len(pairs) == 1:
        return got[0] + pairs[0][1]
    return got[0] + "record {\n  " + "".join(f"{n} = {t};\n  " for n, t in pairs).rstrip() + "\n}"


def simpler(text):
    """Facts of tests that were read off a Bool."""
    while m := re.search(r"\(?(?<![\w'-])(?:ltb|leb)-(?:true|false) ", text):
        # two arguments and a path that ends in -raw
        i, ok = m.end(), True
        for _ in range(2):
            while i < len(text) and text[i].isspace():
                i += 1
            if i >= len(text):
                ok = False
                break
            if text[i] == "(":
                i = closing(text, i) + 1
            else:
                i = re.compile(r"[^\s()\[\]{},;]+").match(text, i).end() if re.compile(r"[^\s()\[\]{},;]+").match(text, i) else len(text)
        p = re.compile(r"\s*([^\s(){},;]+)\.(true|false)-raw(?=[\s),;\]}]|$)").match(text, i) if ok else None
        if p:
            new = p[1] + "." + p[2]
            end = p.end()
            if m[0].startswith("(") and text[end : end + 1] == ")":
                text = text[: m.start()] + new + text[end + 1 :]
            else:
                text = text[: m.start() + m[0].startswith("(")] + new + text[end:]
        else:
            text = text[: m.start()] + m[0].replace("ltb-", "ltb\u0001").replace("leb-", "leb\u0001") + text[m.end() :]
    return text.replace("\u0001", "-")


def argument(text, at):
    """The end of the argument that begins at `at`."""
    if text[at] == "(":
        return closing(text, at) + 1
    return re.compile(r"[^\s()\[\]{},;]+").match(text, at).end()


def by_cases(text, used):
    """A case split on which branch ran, as today's elim."""
    at = 0
    while (i := text.find("⊎_elim", at)) >= 0:
        at = i + 1
        args, k = [], i + len("⊎_elim")
        try:
            for _ in range(3):
                while text[k].isspace():
                    k += 1
                end = argument(text, k)
                args.append(text[k:end])
                k = end
        except (IndexError, AttributeError):
            continue
        m = re.match(r"(\S+\.if-(\S+))\.branch-raw$", args[2])
        arms = [re.match(r"\(λ (\S+?)\. (.*)\)$", a, re.S) for a in args[:2]]
        if not m or not all(arms):
            continue
        step = m[2]
        out = []
        for side, old, new, arm in (("then", "taken", "true", arms[0]), ("else", "left", "false", arms[1])):
            w, body = arm[1], arm[2]
            body = re.sub(rf"(?<![\w.'-]){re.escape(w)}\.0\.(taken|left)(?![\w'-])", f"{w}.if-{step}.{new}", body)
            body = re.sub(r"\.taken(?![\w'-])", ".true", body)
            body = re.sub(r"\.left(?![\w'-])", ".false", body)
            out.append(f"{side}-{step} {w} ↦ {body}")
            used.add(f"{side}-{step}")
        new = f"elim {m[1]}.branch [ {out[0]} | {out[1]} ]"
        text = text[:i] + new + text[k:]
    return text


def blocks(text):
    """The parts of a file: its head, and each declaration with the comments above it."""
    lines = text.split("\n")
    starts = [i for i, l in enumerate(lines) if re.match(r"(?:abbrev |unfoldable |pub )*\S+ : ", l) or re.match(r"(?:abbrev |pub )*\S+ :$", l)]
    starts = [i for i in starts if not lines[i].startswith(("--", "use ", " "))]
    cut = []
    for i in starts:
        while i and lines[i - 1].startswith("--"):
            i -= 1
        cut.append(i)
    head = "\n".join(lines[: cut[0]]) if cut else text
    parts = []
    for k, i in enumerate(cut):
        end = cut[k + 1] if k + 1 < len(cut) else len(lines)
        parts.append("\n".join(lines[i:end]).strip("\n"))
    return head, parts


def split(part):
    lines = part.split("\n")
    k = 0
    while lines[k].startswith("--"):
        k += 1
    comment = "\n".join(lines[:k])
    rest = "\n".join(lines[k:])
    name = re.match(r"(?:abbrev |unfoldable |pub )*(\S+) :", rest)[1]
    # the signature ends where a line begins with `unfolding` or with the name and no colon
    m = re.search(r"^(?:unfolding .*|" + re.escape(name) + r"(?: |$)(?!: ).*)", rest[1:], re.M)
    cut = m.start() + 1 if m else len(rest)
    return comment, name, rest[:cut].rstrip("\n"), rest[cut:]


def merged(unfold, line):
    names = unfold.replace("unfolding", "").split() + line.replace("unfolding", "").split()
    return "unfolding " + " ".join(dict.fromkeys(names)) + "\n"


def as_let(name, sig, body, heads):
    """A helper over a place as a `let` over what is known there, or None."""
    unfold = [l for l in body.split("\n") if l.startswith("unfolding")]
    body = "\n".join(l for l in body.split("\n") if not l.startswith("unfolding")).strip("\n")
    m = re.match(re.escape(name) + r"((?: [^\s=]+)*) =(\s.*)$", body, re.S)
    if not m or re.search(r"^" + re.escape(name) + " ", m[2], re.M) or re.search(r"^\s+where", m[2], re.M):
        return None
    args = m[1].split()
    t = re.match(r"(?:abbrev |pub )*" + re.escape(name) + r" :\s+(.*)$", sig, re.S)
    if not t or not args:
        return None
    of = t[1]
    p = re.match(r"\((\S+) ?: \S+\) →\s*", of) or re.match(r"()\S+ →\s*", of)
    if not p:
        return None
    head = p[1] or args[0]
    return dict(args=args[1:], type=of[p.end() :], term=m[2].strip("\n"), unfold=unfold, head=head, clause=args[0])


def with_lets(term, lets, c, seen):
    """Puts the helpers that a term calls before it."""
    out, unfold = "", []
    for name, let in lets.items():
        if name in seen or not re.search(rf"(?<![^\s(){{}};,]){re.escape(name)}(?![\w'-])", term):
            continue
        inner, more = with_lets(let["type"] + "\u0002" + let["term"], {k: v for k, v in lets.items() if k != name}, let["clause"], seen + [name])
        lead, at = "", inner
        if "\u0003" in inner:
            lead, at = inner.split("\u0003", 1)
        kind, body = at.split("\u0002", 1)
        at_c = lambda t: re.sub(rf"(?<![^\s(){{}};,←]){re.escape(let['clause'])}(?=\.|[\s)])", c, re.sub(rf"(?<![^\s(){{}};,←]){re.escape(let['head'])}(?=\.|[\s)])", c, t))
        lam = f"λ {' '.join(let['args'])}. " if let["args"] else ""
        for one in at_c(lead).split("\n    let "):
            if one and "let " + one not in out:
                out += "\n    let " + one
        out += f"\n    let {name} : {at_c(kind).strip()} = {lam}{at_c(body).strip()} in"
        unfold += let["unfold"] + more
        term = re.sub(rf"(?<![^\s(){{}};,←]){re.escape(name)} {re.escape(c)}(?:\.before)*(?![\w.'-])", name, term)
        term = re.sub(rf"\({re.escape(name)}\)", name, term)
    if not out:
        return term, unfold
    lets_seen = []
    for one in re.split(r"\n    (?=let )", out):
        if one.strip() and one not in lets_seen:
            lets_seen.append(one)
    out = "".join("\n    " + one for one in lets_seen)
    if "\u0002" in term:
        return out + "\u0003" + term, unfold
    return out + ("\n    " if not term.startswith("\n") else "") + term.lstrip(" "), unfold


def invariants(fn, decls):
    out = []
    for comment, name, _, body in decls:
        kind = "invariant" if name.startswith("invariant") else "decreases"
        old = norm(name[len(kind) + 1 :])
        loop = next((l for l in fn.loops if norm(l[0]) == old), None)
        if not loop:
            out.append((None, f"no loop {name}"))
            continue
        unfold = "".join(l + "\n" for l in body.split("\n") if l.startswith("unfolding"))
        body = "\n".join(l for l in body.split("\n") if not l.startswith("unfolding"))
        m = re.match(re.escape(name) + r"((?: [^\s=]+)*) =(\s.*)$", body, re.S)
        binders, term = m[1].split(), m[2]
        names, changed = loop[2], loop[3]
        stay = [n for n, c in zip(names, changed) if not c]
        move = [n for n, c in zip(names, changed) if c]
        paths = ["l." + n for n in stay] + ["l.initial." + n for n in move] + ["l." + n for n in move]
        if len(paths) != len(binders):
            out.append((None, f"{name}: {len(binders)} binders for {len(paths)} variables {names}"))
            continue
        to = {b: p for b, p in zip(binders, paths) if b != "_"}
        bare = {b.rstrip("₀") for b in binders}
        if bare == set(names):
            to = {b: ("l.initial." if b.endswith("₀") else "l.") + b.rstrip("₀") for b in binders}
        term = re.sub(r"((?:\{|;)\s*)?(?<![^\s(){};,←@])(" + TOKEN + r")(?=( = )?)", lambda t: t[0] if t[1] and t[3] else (t[1] or "") + to.get(t[2], t[2]), term)
        new = f"{kind}-{loop[1]}"
        out.append((new, (comment + "\n" if comment else "") + f"abbrev pub {new} : goal.{new}\n{unfold}{new} l ={term}"))
    return out


def main():
    crate, names = sys.argv[1], json.load(open(sys.argv[2]))
    root = os.getcwd()
    proofs = os.path.join("crates", crate, "proofs")
    old = sys.argv[3] if len(sys.argv) > 3 else proofs
    clauses = Clauses(os.environ.get("PORTED", root))
    for folder, _, files in sorted(os.walk(old)):
        if "Proof.antt" not in files:
            continue
        f = os.path.relpath(folder, old)
        text = open(os.path.join(folder, "Proof.antt")).read()
        dotted = f.replace("/", ".")
        key = next((k for k in names if re.fullmatch(rf"Rattle-{crate}-proofs\.{re.escape(dotted)}\.Lts(-\S+)?", k)), None)
        if not key:
            print(f"{f}: no names")
            continue
        if "module _" in text:
            print(f"{f}: a module, by hand")
            continue
        fn = Function(names[key])
        path = crate + "::" + f.replace("/", "::")
        con = Converter(fn, clauses, path)
        head, parts = blocks(text)
        ours, helpers, invs = [], [], []
        for part in parts:
            comment, name, sig, body = split(part)
            if re.search(r"\btie\.(invariant|decreases)-", sig):
                invs.append((comment, name, sig, body))
                continue
            if name.endswith("_spec") or " statement M" in sig:
                continue
            m = re.search(r": tie\.Need-(\S+)", sig)
            if m:
                need = norm(m[1]).removeprefix("overflow-")
                hit = fn.needs.get(need)
                if not hit:
                    if not re.search(r"= search rules\s*$", body):
                        con.trouble.append(f"need {need} is gone: {body[:80]!r}")
                    continue
                goal, place = hit
                if "unfolding" not in body and re.search(r"= (search rules|omega arith)\s*$", body):
                    continue
                unfold = "".join(l + "\n" for l in body.split("\n") if l.startswith("unfolding"))
                body = "\n".join(l for l in body.split("\n") if not l.startswith("unfolding"))
                b = re.match(re.escape(name) + r" (\S+)((?: \S+)*?) =(.*)$", body, re.S)
                if not b:
                    con.trouble.append(f"no body of {name}: {body[:80]!r}")
                    continue
                term = con.text(b[3], {b[1]: (b[1], 0, place)})
                if goal.startswith("returns"):
                    own = clauses.of.get(path) or {"old": [], "ensures": []}
                    term = clause_wise(term, own["old"], own["ensures"])
                elif "requires" in goal:
                    callee = next((p["callee"] for p in fn.places.values() if p["parent"] == place and p["callee"] and goal.startswith(p["callee"].split("::")[-1])), None)
                    names_of = (clauses.of.get(callee) or {}).get("requires") or []
                    term = clause_wise(term, names_of, names_of)
                ours.append([name, comment, goal, unfold, b[1], term])
            elif "tie." in sig:
                leads = re.search(r": (?:tie|lts)\.([A-Z]" + TOKEN + r")(?: (?:invariant|decreases)-loop\w*)* → (?:tie|lts)\.([A-Z]" + TOKEN + r")(?: (?:invariant|decreases)-loop\w*)*\s*$", sig)
                if leads:
                    con.leads[name] = norm(leads[2])
                    continue
                sig2, env = con.place_of_type(sig)
                unnamed = env.pop(None, [])
                first = re.match(r"((?:.*\n)*?)" + re.escape(name) + r"((?: \S+)*?) =", body)
                if unnamed and first:
                    args = first[2].split()
                    for a, p in zip(args, unnamed):
                        env[a] = (a, 0, p)
                elif env and first:
                    # arguments of the clause may have other names than the signature's
                    args = first[2].split()
                    given = list(env)
                    if args and args[0] not in env and len(given) == 1:
                        env[args[0]] = (args[0], 0, env[given[0]][2])
                env = {k: v for k, v in env.items() if k}
                sig_done = con.text(sig2, env)
                whole = (comment + "\n" if comment else "") + sig_done + "\n" + con.text(body, env)
                place = next(iter(env.values()))[2] if env else None
                if len({v[2] for v in env.values()}) == 1:
                    con.takes[name] = place
                let = None
                if place and fn.typed.get(place):
                    let = as_let(name, sig_done, con.text(body, env), {v[0] for v in env.values()})
                    if not let:
                        con.trouble.append(f"{name} takes a place of a function with slices: by hand")
                helpers.append([name, whole, let])
            else:
                helpers.append([name, part, None])
        lets = {h[0]: h[2] for h in helpers if h[2]}
        renamed = {o[0]: o[2] for o in ours if o[0] != o[2]}
        written = []
        for name, comment, goal, unfold, c, term in ours:
            term, more = with_lets(term, lets, c, [])
            for line in more:
                if line not in unfold:
                    unfold = merged(unfold, line)
            term = re.sub(r"(?<![^\s(){};,])(" + TOKEN + r")(?= " + re.escape(c) + r"(?![\w'-]))", lambda t: renamed.get(t[1], t[1]), term)
            term = by_cases(simpler(term), con.used_places)
            written.append((comment + "\n" if comment else "") + f"pub {goal} : goal.{goal}\n{unfold}{goal} {c} ={term}")
        helpers = [by_cases(simpler(h[1]), con.used_places) for h in helpers if not h[2]]
        ours = written
        uses = [l for l in head.split("\n") if l.startswith("use ") and not re.search(r"\.(Statement\.\{statement\}|Tie as tie|Tie\.\{.*)$", l)]
        lead = "\n".join(l for l in head.split("\n") if l.startswith("--"))
        base = f"Rattle.{crate}.proofs.{dotted}"
        done = invariants(fn, invs)
        con.trouble += [t for n, t in done if n is None]
        to = os.path.join(proofs, f)
        os.makedirs(to, exist_ok=True)
        kept = [t for n, t in done if n]
        if kept:
            with open(os.path.join(to, "Invariants.antt"), "w") as out:
                out.write("\n".join(filter(None, [lead])) + "\n" + "\n".join(uses + [f"use {base}.Given as goal"]) + "\n\n" + "\n\n".join(k.strip("\n") for k in kept) + "\n")
        if ours or helpers:
            con.used_places = {p for p in con.used_places if any(re.search(rf"(?<![\w.'-]){re.escape(p)}(?![\w'-])", t) for t in helpers + ours)}
            places = "".join(f"use {base}.Goals.{{{', '.join(sorted(con.used_places))}}}\n" if con.used_places else "")
            if ours:
                with open(os.path.join(to, "Answers.antt"), "w") as out:
                    body = "\n\n".join(t.strip("\n") for t in helpers + ours)
                    out.write((lead + "\n" if lead else "") + "\n".join(uses + [f"use {base}.Goals as goal"]) + "\n" + places + "\n" + body + "\n")
        here = os.path.join(to, "Proof.antt")
        if os.path.exists(here):
            os.remove(here)
        if not os.listdir(to):
            os.rmdir(to)
        for t in con.trouble:
            print(f"{f}: {t}")


if __name__ == "__main__":
    main()
