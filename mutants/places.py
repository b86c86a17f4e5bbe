"""The places of a one-token change in the crates' code: comparison, constant, operand, operator, dropped store.

A place alters the shape if its change adds, removes or renames something that a proof written by hand has to answer.
Such a change is refused whatever the contract says, so it tells little; `run` draws one only where a function has no
other place left.
"""
import hashlib
import re

import declared
import rattle

COMPARISONS = {"<": "<=", "<=": "<", ">": ">=", ">=": ">", "==": "!=", "!=": "=="}
OPERATORS = {"+": "-", "-": "+", "*": "+", "/": "%"}
ARITHMETIC = ("+", "-", "*", "/", "%")
ESCAPES = {"n": 10, "r": 13, "t": 9, "0": 0, "\\": 92, "'": 39, '"': 34}
BYTE = re.compile(r"\\x[0-9a-fA-F]{2}|\\.|.", re.S)
NUMBER = re.compile(r"(0x|0b|0o)?([0-9a-fA-F_]+?)([ui](?:8|16|32|64|size))?$")


class Place:
    """A part of a file's text and what may be there instead: each of `news` is another change of the same place."""

    def __init__(self, unit, kind, start, end, news, alters):
        self.unit, self.kind, self.start, self.end = unit, kind, start, end
        self.news, self.alters = news, alters
        self.name = ""

    @property
    def line(self):
        return rattle.line_of(self.unit.file.text, self.start)

    def old(self):
        return self.unit.file.text[self.start : self.end]

    def changed(self, new):
        """The file's text with the change."""
        text = self.unit.file.text
        return text[: self.start] + new + text[self.end :]


class Unit:
    """A function or a constant: what changes are drawn for. Its mark is that of its text without comments, contract
    and body."""

    def __init__(self, file, node, of):
        self.file, self.node, self.of = file, node, of
        self.crate = file.crate
        within = of or file.module
        self.name = f"{self.crate.name}/{within}::{node.name}" if within else f"{self.crate.name}/{node.name}"
        self.is_const = node.kind == "const"
        self.by_hand = not self.is_const and self.crate.has_proof_file(of, node.name)
        text = rattle.without_comments(file.text[node.start : node.end])
        self.mark = hashlib.sha256(text.encode()).hexdigest()[:6]
        self.places = []

    def name_places(self):
        """Puts the places into the order of the text and names each by its kind and how many such come before it."""
        self.places.sort(key=lambda place: (place.start, place.end))
        seen = {}
        for place in self.places:
            seen[place.kind] = seen.get(place.kind, 0) + 1
            place.name = f"{place.kind}-{seen[place.kind]}"


class Local:
    """A local or a parameter. What it is may be found only by a later use, as of `let mut i = 0;`."""

    def __init__(self, name, meaning):
        self.name, self.meaning = name, meaning


def next_number(text):
    base, digits, suffix = NUMBER.match(text).groups()
    radix = {"0x": 16, "0b": 2, "0o": 8, None: 10}[base]
    more = int(digits.replace("_", ""), radix) + 1
    shown = format(more, {16: "x", 2: "b", 8: "o", 10: "d"}[radix])
    if "_" in digits and radix == 10:
        shown = format(more, "_")
    return (base or "") + shown + (suffix or "")


def byte_after(shown):
    """The next byte after one as it is written in a literal, written so too."""
    if shown[0] != "\\":
        code = ord(shown)
    else:
        code = int(shown[2:], 16) if shown[1] == "x" else ESCAPES[shown[1]]
    more = (code + 1) % 256
    if 32 <= more < 127 and chr(more) not in "\\'\"":
        return chr(more)
    return f"\\x{more:02x}"


def next_literal(node):
    """The literal's neighbour: a number or a byte more, the other truth value, another first byte of a string."""
    if node.kind == "bool":
        return "false" if node.text == "true" else "true"
    if node.kind == "int":
        return next_number(node.text)
    if node.kind == "byte":
        return "b'" + byte_after(node.text[2:-1]) + "'"
    if node.kind == "bytes" and len(node.text) > 3:
        first = BYTE.match(node.text, 2).group()
        return 'b"' + byte_after(first) + node.text[2 + len(first) :]
    return None


def parts_of(node):
    """The nodes right below a node."""
    for value in vars(node).values():
        todo = [value]
        while todo:
            one = todo.pop(0)
            if isinstance(one, rattle.Node):
                yield one
            elif isinstance(one, (list, tuple)):
                todo = list(one) + todo


def below(node):
    """A node and all nodes below it."""
    yield node
    for part in parts_of(node):
        yield from below(part)


def is_difference(node):
    return node.kind == "binary" and node.op.text == "-"


def leaves_needs(node):
    """Whether a proof has something to answer for an expression: a sum, an index, a cast, a call."""
    for part in below(node):
        if part.kind in ("index", "cast", "call", "range"):
            return True
        if part.kind == "method" and part.name != "len":
            return True
        if part.kind == "binary" and part.op.text in ARITHMETIC:
            return True
    return False


class Walk:
    """Goes through a function's body, with what its locals mean, and collects the places. It goes twice: what a local
    means may be found only after its first uses."""

    def __init__(self, world, unit):
        self.world, self.unit, self.file = world, unit, unit.file
        self.locals, self.scopes, self.loops, self.collecting = {}, [], 0, False
        # What is subtracted from what: whether a proof is asked for a difference goes by the test before it.
        self.subtracted = {self.sides(node) for node in below(unit.node) if is_difference(node)}

    def places(self):
        node = self.unit.node
        for self.collecting in (False, True):
            self.scopes = [{}]
            if self.unit.is_const:
                self.value(node.value, self.meaning(node.of))
                continue
            for name, text in node.parameters:
                self.bind(node.start, name, self.meaning(text))
            self.value(node.body, self.meaning(node.gives))
        self.unit.name_places()

    def meaning(self, text):
        return self.world.meaning(self.file, text, self.unit.of)

    def add(self, kind, start, end, news, alters=False):
        """Notes a place. A change alters the shape of a proof only where somebody wrote the proof."""
        if self.collecting and news:
            self.unit.places.append(Place(self.unit, kind, start, end, news, alters and self.unit.by_hand))

    # Locals

    def bind(self, at, name, meaning):
        local = self.locals.setdefault((at, name), Local(name, meaning))
        local.meaning = local.meaning or meaning
        self.scopes[-1][name] = local

    def local(self, node):
        """The local that a node names, if it does."""
        if node.kind != "path" or len(node.path) != 1:
            return None
        for scope in reversed(self.scopes):
            if node.path[0] in scope:
                return scope[node.path[0]]
        return None

    def alike(self, local):
        """The other locals in reach that have the same meaning, the nearest first."""
        seen, found = {local.name}, []
        for scope in reversed(self.scopes):
            for name, other in reversed(list(scope.items())):
                if name not in seen and other.meaning and other.meaning == local.meaning:
                    found.append(name)
                seen.add(name)
        return found

    def operand(self, node):
        """The node is where another local may be."""
        if node.kind == "lend":
            node = node.value
        local = self.local(node)
        if local and not getattr(node, "short", False):
            self.add("operand", node.start, node.end, self.alike(local))

    def pattern(self, node, meaning):
        """Binds what a pattern names."""
        if node.kind == "bind":
            self.bind(node.start, node.name, meaning)
        elif node.kind == "either":
            for option in node.options:
                self.pattern(option, meaning)
        elif node.kind == "numbers":
            for end in node.ends:
                self.literal(end)
        elif node.kind == "parts":
            _, holds = self.world.variant(self.file, node.path or [])
            if not holds and node.path:
                holds = list(self.world.struct(self.meaning("::".join(node.path))).values())
            for i, item in enumerate(node.items):
                self.pattern(item, holds[i] if i < len(holds) else None)
        elif node.kind == "fields":
            fields = self.world.struct(self.meaning("::".join(node.path)))
            for name, item in node.items:
                self.pattern(item, fields.get(name))

    # Values: each gives what the value means, if that is found. `wanted` is what it has to mean.

    def value(self, node, wanted=None):
        return getattr(self, "of_" + node.kind)(node, wanted) or None

    def literal(self, node):
        new = next_literal(node)
        self.add("constant", node.start, node.end, [new] if new else [])

    def of_int(self, node, wanted):
        self.literal(node)
        return NUMBER.match(node.text).group(3)

    def of_byte(self, node, wanted):
        self.literal(node)
        return "u8"

    def of_bool(self, node, wanted):
        self.literal(node)
        return "bool"

    def of_bytes(self, node, wanted):
        self.literal(node)

    def of_macro(self, node, wanted):
        """What a macro writes is not looked at."""

    def of_try(self, node, wanted):
        self.value(node.value)

    def of_float(self, node, wanted):
        return None

    of_string = of_float

    def of_path(self, node, wanted):
        local = self.local(node)
        if local:
            if wanted in declared.INTEGERS and not local.meaning:
                local.meaning = wanted
            return local.meaning
        crate = self.world.owner(self.file, node.path)
        if node.path[-1] in crate.consts:
            home, text = crate.consts[node.path[-1]]
            return self.world.meaning(home, text)
        return self.world.variant(self.file, node.path)[0]

    def of_paren(self, node, wanted):
        found = [self.value(item, wanted) for item in node.items]
        return found[0] if len(found) == 1 else None

    def of_lend(self, node, wanted):
        found = self.value(node.value)
        return found and ("&mut " if node.mutable else "&") + found

    def of_unary(self, node, wanted):
        found = self.value(node.value, wanted)
        if node.op.text == "*":
            return found and found.removeprefix("&mut ").removeprefix("&")
        return found

    def of_cast(self, node, wanted):
        self.value(node.value)
        return self.meaning(node.to)

    def of_binary(self, node, wanted):
        op = node.op
        left = self.value(node.left, wanted if op.text in ARITHMETIC else None)
        right = self.value(node.right, left)
        left = left or self.value_again(node.left, right)
        if op.text in COMPARISONS:
            self.add("comparison", op.start, op.end, [COMPARISONS[op.text]], self.sides(node) in self.subtracted)
        if op.text in ARITHMETIC:
            self.operand(node.left)
            self.operand(node.right)
            if op.text in OPERATORS:
                # Of a quotient by a number nothing is asked, and none of its remainder.
                asked = op.text != "/" or node.right.kind != "int"
                self.add("operator", op.start, op.end, [OPERATORS[op.text]], asked)
            return left or right
        return "bool" if op.text in COMPARISONS or op.text in ("&&", "||") else left

    def sides(self, node):
        return frozenset(self.file.text[side.start : side.end] for side in (node.left, node.right))

    def value_again(self, node, wanted):
        """What a value means once it is known what it has to mean; its places were collected before."""
        return self.of_path(node, wanted) if node.kind == "path" else wanted

    def of_index(self, node, wanted):
        base = self.value(node.base)
        self.value(node.at, "usize")
        self.operand(node.at)
        if node.at.kind == "range":
            for end in (node.at.low, node.at.high):
                if end:
                    self.operand(end)
            return base and "[" + self.item(base) + "]"
        return base and self.item(base)

    def item(self, meaning):
        """What the items of an array or a slice mean."""
        inner = meaning.removeprefix("&mut ").removeprefix("&")
        if not inner.startswith("["):
            return ""
        item, semicolon, length = inner[1:-1].rpartition("; ")
        return item if semicolon else length

    def of_range(self, node, wanted):
        found = None
        for end in (node.low, node.high):
            if end:
                found = self.value(end, wanted or found) or found
        return found

    def of_field(self, node, wanted):
        base = self.value(node.base)
        return base and self.world.struct(base).get(node.name)

    def of_call(self, node, wanted):
        known = None
        if node.function.kind == "path":
            known = self.world.called(self.file, node.function.path, self.unit.of)
        return self.arguments(node.arguments, known)

    def of_method(self, node, wanted):
        known = self.world.method(self.value(node.base), node.name)
        return self.arguments(node.arguments, known)

    def arguments(self, nodes, known):
        takes = known[0] if known and len(known[0]) == len(nodes) else [None] * len(nodes)
        found = []
        for node, wanted in zip(nodes, takes):
            found.append(wanted or self.value(node))
            if wanted:
                self.value(node, wanted)
            self.operand(node)
        for first, second, one, other in zip(nodes, nodes[1:], found, found[1:]):
            if one and one == other:
                self.swap(first, second)
        return known and known[1]

    def swap(self, first, second):
        text = self.file.text
        one, other = text[first.start : first.end], text[second.start : second.end]
        if one != other:
            new = other + text[first.end : second.start] + one
            # Only where both leave needs does their order change.
            self.add("swap", first.start, second.end, [new], leaves_needs(first) and leaves_needs(second))

    def of_struct(self, node, wanted):
        made = self.meaning("::".join(node.path))
        fields = self.world.struct(made)
        for name, value in node.fields:
            self.value(value, fields.get(name))
            if name != "..":
                self.operand(value)
        return made

    def of_array(self, node, wanted):
        inner = wanted and self.item(wanted)
        found = None
        for item in node.items:
            found = self.value(item, inner) or found
        return found and f"[{found}; {len(node.items)}]"

    def of_repeat(self, node, wanted):
        # The count is a part of the array's type.
        found = self.value(node.value, wanted and self.item(wanted))
        count = self.file.text[node.count.start : node.count.end].replace("_", "")
        return found and f"[{found}; {count}]"

    def of_assign(self, node, wanted):
        target = self.value(node.target)
        value = self.value(node.value, target)
        if not target:
            self.value_again(node.target, value)
        sign = node.op.text[:-1]
        if sign in ARITHMETIC:
            self.operand(node.value)
        if sign in OPERATORS:
            self.add("operator", node.op.start, node.op.end, [OPERATORS[sign] + "="], True)

    def of_leave(self, node, wanted):
        if node.value:
            self.value(node.value, self.meaning(self.unit.node.gives) if node.word == "return" else None)

    # Blocks

    def of_block(self, node, wanted):
        self.scopes.append({})
        found = None
        for statement in node.statements:
            found = self.statement(statement, wanted)
        self.scopes.pop()
        return found

    def statement(self, node, wanted):
        if node.kind == "let":
            return self.let(node)
        if node.kind != "statement":
            return None
        found = self.value(node.value, None if node.ended else wanted)
        if node.value.kind == "assign":
            self.store(node)
        return None if node.ended else found

    def store(self, node):
        """A store that is left out takes what its value and its target ask of a proof with it; in a loop, also the
        local's place in the invariant."""
        assign = node.value
        alters = self.loops > 0 or assign.op.text != "=" or leaves_needs(assign.target) or leaves_needs(assign.value)
        self.add("store", node.start, node.end, [""], alters)

    def let(self, node):
        known = node.declared and self.meaning(node.declared)
        found = node.value and self.value(node.value, known)
        if node.other:
            self.value(node.other)
        self.pattern(node.pattern, known or found)

    def of_if(self, node, wanted):
        self.scopes.append({})
        self.value(node.test, "bool")
        found = self.value(node.then, wanted)
        self.scopes.pop()
        other = node.other and self.value(node.other, wanted)
        return found or other

    def of_is(self, node, wanted):
        self.pattern(node.pattern, self.value(node.value))

    def of_match(self, node, wanted):
        over = self.value(node.value)
        found = None
        for pattern, guard, body in node.arms:
            self.scopes.append({})
            self.pattern(pattern, over)
            if guard:
                self.value(guard, "bool")
            found = self.value(body, wanted) or found
            self.scopes.pop()
        return found

    def of_loop(self, node, wanted):
        self.scopes.append({})
        self.loops += 1
        if node.test:
            self.value(node.test, "bool")
        self.value(node.body)
        self.loops -= 1
        self.scopes.pop()

    def of_for(self, node, wanted):
        self.scopes.append({})
        self.pattern(node.name, self.value(node.over))
        self.loops += 1
        self.value(node.body)
        self.loops -= 1
        self.scopes.pop()


def units_below(file, items, of):
    for item in items:
        if item.kind == "impl":
            yield from units_below(file, item.items, item.of.split("::")[-1])
        elif item.kind == "module":
            yield from units_below(file, item.items, of)
        elif item.kind == "const" or (item.kind == "fn" and item.body):
            yield Unit(file, item, of)


def units_of(world, crate):
    """The functions and constants of a crate, with their places."""
    units = []
    for file in crate.files:
        for unit in units_below(file, file.items, ""):
            Walk(world, unit).places()
            units.append(unit)
    return units
