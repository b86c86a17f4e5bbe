"""Reads Rattle: a file's text to tokens, and those to a tree of items, statements and expressions.

Every node has the place of its text, so that a change can be made there and nowhere else. Contracts are passed over:
what is in their braces is another language. A form that the parser does not know is an error, never passed over, since
a file that is read in part would look like one with fewer places to change.
"""
import re


class Unread(Exception):
    """A text that the parser does not know."""


TOKEN = re.compile(
    r"""
    (?P<space>\s+|//[^\n]*|/\*.*?\*/)
  | (?P<bytes>b"(?:\\.|[^"\\])*")
  | (?P<byte>b'(?:\\x[0-9a-fA-F]{2}|\\.|[^'\\])')
  | (?P<string>"(?:\\.|[^"\\])*")
  | (?P<lifetime>'[a-zA-Z_]\w*(?!'))
  | (?P<float>\d[\d_]*\.\d[\d_]*(?:[eE][+-]?\d+)?(?:f32|f64)?|\d[\d_]*(?:f32|f64))
  | (?P<int>(?:0x[0-9a-fA-F_]+?|0b[01_]+|0o[0-7_]+|\d[\d_]*)(?:[ui](?:8|16|32|64|size))?\b)
  | (?P<name>[A-Za-z_]\w*)
  | (?P<sign><<=|>>=|\.\.=|&&|\|\||::|->|=>|==|!=|<=|>=|\+=|-=|\*=|/=|%=|\^=|&=|\|=|<<|>>|\.\.|.)
    """,
    re.X | re.S,
)
# A field's number, as in `pair.0.1`, where `0.1` is no float.
FIELD = re.compile(r"\d+")

CLAUSES = ("requires", "ensures", "ghost")
ASSIGNMENTS = ("=", "+=", "-=", "*=", "/=", "%=", "^=", "&=", "|=", "<<=", ">>=")
# The binary operators, loosest first.
LEVELS = (
    ("||",),
    ("&&",),
    ("==", "!=", "<", ">", "<=", ">="),
    ("|",),
    ("^",),
    ("&",),
    ("<<", ">>"),
    ("+", "-"),
    ("*", "/", "%"),
)
BLOCKS = ("if", "match", "loop", "while", "for", "{", "unsafe")
LITERALS = ("int", "float", "byte", "bytes", "string")


class Token:
    def __init__(self, kind, text, start):
        self.kind, self.text, self.start, self.end = kind, text, start, start + len(text)


class Node:
    """A piece of the tree: its kind, where its text starts and ends, and parts by name."""

    def __init__(self, kind, start, end, **parts):
        self.kind, self.start, self.end = kind, start, end
        self.__dict__.update(parts)


def tokens_of(text):
    tokens, at = [], 0
    while at < len(text):
        after_dot = tokens and tokens[-1].text == "." and FIELD.match(text, at)
        if after_dot:
            tokens.append(Token("int", after_dot.group(), at))
            at = after_dot.end()
            continue
        found = TOKEN.match(text, at)
        if found.lastgroup != "space":
            tokens.append(Token(found.lastgroup, found.group(), at))
        at = found.end()
    return tokens


def without_comments(text):
    """A text without its comments, and with one space for each run of space."""
    shown, end = "", 0
    for token in tokens_of(text):
        shown += (" " if end < token.start else "") + token.text
        end = token.end
    return shown


def line_of(text, at):
    return text.count("\n", 0, at) + 1


class Reader:
    """The tokens of a file and how far they are read."""

    def __init__(self, text, name):
        self.text, self.name, self.at = text, name, 0
        self.tokens = tokens_of(text)
        self.none = Token("end", "", len(text))

    def token(self, ahead=0):
        i = self.at + ahead
        return self.tokens[i] if i < len(self.tokens) else self.none

    def peek(self, ahead=0):
        return self.token(ahead).text

    def is_next(self, *texts):
        token = self.token()
        return token.text in texts and token.kind in ("name", "sign")

    def next(self):
        token = self.token()
        if token is self.none:
            self.fail("the file ends too early")
        self.at += 1
        return token

    def take(self, *texts):
        if self.is_next(*texts):
            return self.next()
        return None

    def need(self, text):
        if not self.is_next(text):
            self.fail(f"expected `{text}`, found `{self.peek()}`")
        return self.next()

    def name_next(self):
        if self.token().kind != "name":
            self.fail(f"expected a name, found `{self.peek()}`")
        return self.next().text

    def fail(self, why):
        raise Unread(f"{self.name}:{line_of(self.text, self.token().start)}: {why}")

    def done(self):
        """Where the last token that was read ends."""
        return self.tokens[self.at - 1].end

    def skip_group(self):
        """Passes over a group in brackets, whatever is in it."""
        pairs = {"(": ")", "[": "]", "{": "}"}
        closers = [pairs[self.next().text]]
        while closers:
            text = self.next().text
            if text in pairs:
                closers.append(pairs[text])
            elif text == closers[-1]:
                closers.pop()

    def skip_to(self, text):
        while self.next().text != text:
            pass

    def listed(self, close, read):
        """What `read` reads, with commas between, up to the bracket that closes."""
        found = []
        while not self.take(close):
            found.append(read())
            if not self.take(","):
                self.need(close)
                break
        return found


class Types(Reader):
    """Types, as text in one form, and patterns."""

    def path(self):
        segments = [self.name_next()]
        while self.is_next("::") and self.token(1).kind == "name":
            self.next()
            segments.append(self.name_next())
        self.lifetimes()
        return segments

    def lifetimes(self):
        """Passes over the lifetimes of a path or a function: `<'a>`."""
        if self.is_next("<") and self.token(1).kind == "lifetime":
            while not self.take(">"):
                self.next()

    def generics(self):
        """Passes over the parameters of a type, an impl or a function: `<'a, T: Write>` or `<()>`."""
        depth = 0
        while depth or self.is_next("<"):
            text = self.next().text
            depth += {"<": 1, "<<": 2, ">": -1, ">>": -2}.get(text, 0)

    def type(self):
        if self.is_next("&&"):
            at = self.token().start
            self.tokens[self.at : self.at + 1] = [Token("sign", "&", at), Token("sign", "&", at + 1)]
        if self.take("&"):
            if self.token().kind == "lifetime":
                self.next()
            return ("&mut " if self.take("mut") else "&") + self.type()
        if self.take("["):
            item = self.type()
            length = ""
            if self.take(";"):
                length = "; " + self.text_of(self.expression())
            self.need("]")
            return f"[{item}{length}]"
        if self.take("("):
            return "(" + ", ".join(self.listed(")", self.type)) + ")"
        self.take("impl", "dyn")
        path = self.path()
        self.generics()
        return "::".join(path)

    def text_of(self, node):
        return self.text[node.start : node.end].replace("_", "")

    def pattern(self):
        start = self.token().start
        self.take("|")
        options = [self.one_pattern()]
        while self.take("|"):
            options.append(self.one_pattern())
        if len(options) == 1:
            return options[0]
        return Node("either", start, self.done(), options=options)

    def one_pattern(self):
        token = self.token()
        if token.kind in LITERALS or token.text in ("-", "true", "false"):
            return self.number_pattern()
        if self.take("&"):
            self.take("mut")
            return self.one_pattern()
        if self.take("("):
            inner = self.listed(")", self.pattern)
            return Node("parts", token.start, self.done(), path=None, items=inner)
        if self.take("ref", "mut"):
            self.take("mut")
            return self.one_pattern()
        if self.take(".."):
            return Node("rest", token.start, self.done())
        return self.named_pattern()

    def number_pattern(self):
        start = self.token().start
        ends = [self.literal_pattern()]
        if self.take("..=", ".."):
            ends.append(self.literal_pattern())
        return Node("numbers", start, self.done(), ends=ends)

    def literal_pattern(self):
        self.take("-")
        return self.literal(self.next())

    def named_pattern(self):
        start = self.token().start
        path = self.path()
        if self.take("("):
            items = self.listed(")", self.pattern)
            return Node("parts", start, self.done(), path=path, items=items)
        if self.take("{"):
            items = self.listed("}", self.field_pattern)
            return Node("fields", start, self.done(), path=path, items=items)
        if len(path) == 1 and path[0] != "_" and not path[0][0].isupper():
            return Node("bind", start, self.done(), name=path[0])
        return Node("parts", start, self.done(), path=path, items=[])

    def field_pattern(self):
        start = self.token().start
        if self.take(".."):
            return (None, Node("rest", start, self.done()))
        self.take("mut")
        name = self.name_next()
        if self.take(":"):
            return (name, self.pattern())
        return (name, Node("bind", start, self.done(), name=name))

    def literal(self, token):
        kind = "bool" if token.text in ("true", "false") else token.kind
        return Node(kind, token.start, token.end, text=token.text)


class Expressions(Types):
    """Expressions and statements. `record` says whether a path before a brace is a struct, which it is not in the
    head of an `if`, a `while`, a `match` or a `for`."""

    def expression(self, record=True):
        left = self.range(record)
        op = self.take(*ASSIGNMENTS)
        if op is None:
            return left
        value = self.expression(record)
        return Node("assign", left.start, self.done(), op=op, target=left, value=value)

    def range(self, record):
        start = self.token().start
        low = None
        if not self.is_next("..", "..="):
            low = self.binary(0, record)
            if not self.is_next("..", "..="):
                return low
        self.next()
        high = None
        if not self.is_next(")", "]", "}", ",", ";", "=>") and not (self.is_next("{") and not record):
            high = self.binary(0, record)
        return Node("range", start, self.done(), low=low, high=high)

    def binary(self, level, record):
        if level == len(LEVELS):
            return self.cast(record)
        left = self.binary(level + 1, record)
        while self.is_next(*LEVELS[level]):
            op = self.next()
            right = self.binary(level + 1, record)
            left = Node("binary", left.start, self.done(), op=op, left=left, right=right)
        return left

    def cast(self, record):
        value = self.unary(record)
        while self.take("as"):
            to = self.type()
            value = Node("cast", value.start, self.done(), value=value, to=to)
        return value

    def unary(self, record):
        token = self.token()
        if self.take("-", "!", "*"):
            value = self.unary(record)
            return Node("unary", token.start, self.done(), op=token, value=value)
        if self.take("&", "&&"):
            mutable = self.take("mut") is not None
            value = self.unary(record)
            return Node("lend", token.start, self.done(), mutable=mutable, value=value)
        return self.after(self.primary(record))

    def after(self, value):
        """What may follow a value: a call, an index, a field, a method."""
        while True:
            if self.take("("):
                arguments = self.listed(")", self.expression)
                value = Node("call", value.start, self.done(), function=value, arguments=arguments)
            elif self.take("["):
                at = self.expression()
                self.need("]")
                value = Node("index", value.start, self.done(), base=value, at=at)
            elif self.take("."):
                value = self.member(value)
            elif self.take("?"):
                value = Node("try", value.start, self.done(), value=value)
            else:
                return value

    def member(self, base):
        name = self.next().text
        if not self.take("("):
            return Node("field", base.start, self.done(), base=base, name=name)
        arguments = self.listed(")", self.expression)
        return Node("method", base.start, self.done(), base=base, name=name, arguments=arguments)

    def primary(self, record):
        token = self.token()
        if token.kind in LITERALS or token.text in ("true", "false"):
            return self.literal(self.next())
        if self.is_next(*BLOCKS):
            return self.block_like()
        if token.kind == "lifetime":
            self.next()
            self.need(":")
            return self.block_like()
        if self.take("("):
            items = self.listed(")", self.expression)
            return Node("paren", token.start, self.done(), items=items)
        if self.take("["):
            return self.array(token.start)
        if self.take("return", "break", "continue"):
            return self.leave(token, record)
        if token.kind == "name":
            return self.named(record)
        return self.fail(f"`{token.text}` starts no expression")

    def array(self, start):
        if self.take("]"):
            return Node("array", start, self.done(), items=[])
        first = self.expression()
        if self.take(";"):
            count = self.expression()
            self.need("]")
            return Node("repeat", start, self.done(), value=first, count=count)
        items = [first]
        if self.take(","):
            items += self.listed("]", self.expression)
        else:
            self.need("]")
        return Node("array", start, self.done(), items=items)

    def leave(self, token, record):
        if self.token().kind == "lifetime":
            self.next()
        value = None
        if not self.is_next(";", "}", ")", ",", "]") and token.text != "continue":
            value = self.expression(record)
        return Node("leave", token.start, self.done(), word=token.text, value=value)

    def named(self, record):
        start = self.token().start
        path = self.path()
        if self.is_next("!") and self.peek(1) in ("(", "["):  # a macro's call, whose arguments are passed over
            self.next()
            self.skip_group()
            return Node("macro", start, self.done(), path=path)
        if record and self.is_next("{"):
            self.next()
            fields = self.listed("}", self.field)
            return Node("struct", start, self.done(), path=path, fields=fields)
        return Node("path", start, self.done(), path=path)

    def field(self):
        start = self.token().start
        if self.take(".."):
            return ("..", self.expression())
        name = self.next().text
        if self.take(":"):
            return (name, self.expression())
        return (name, Node("path", start, self.done(), path=[name], short=True))

    def block_like(self):
        token = self.token()
        if self.is_next("{"):
            return self.block()
        self.next()
        if token.text == "if":
            return self.choice(token.start)
        if token.text == "match":
            return self.match(token.start)
        if token.text == "loop":
            return Node("loop", token.start, self.done(), test=None, body=self.block())
        if token.text == "while":
            test = self.test()
            return Node("loop", token.start, self.done(), test=test, body=self.block())
        if token.text == "for":
            name = self.pattern()
            self.need("in")
            over = self.expression(record=False)
            return Node("for", token.start, self.done(), name=name, over=over, body=self.block())
        return self.block()

    def test(self):
        start = self.token().start
        if not self.take("let"):
            return self.expression(record=False)
        pattern = self.pattern()
        self.need("=")
        value = self.binary(0, False)
        return Node("is", start, self.done(), pattern=pattern, value=value)

    def choice(self, start):
        test = self.test()
        then = self.block()
        other = None
        if self.take("else"):
            other = self.block_like()
        return Node("if", start, self.done(), test=test, then=then, other=other)

    def match(self, start):
        value = self.expression(record=False)
        self.need("{")
        arms = []
        while not self.take("}"):
            pattern = self.pattern()
            guard = self.expression() if self.take("if") else None
            self.need("=>")
            body = self.expression()
            self.take(",")
            arms.append((pattern, guard, body))
        return Node("match", start, self.done(), value=value, arms=arms)

    def block(self):
        start = self.need("{").start
        statements = []
        while not self.take("}"):
            if not self.take(";"):
                statements.append(self.statement())
        return Node("block", start, self.done(), statements=statements)

    def statement(self):
        start = self.token().start
        if self.take("let"):
            return self.let(start)
        if self.is_item():
            return self.item()
        if self.is_next(*BLOCKS) or self.token().kind == "lifetime":
            value = self.primary(True)
            if self.is_next("."):
                value = self.after(value)
        else:
            value = self.expression()
        ended = self.take(";") is not None
        if not ended and not self.is_next("}") and value.kind not in ("if", "match", "loop", "for", "block"):
            self.fail(f"expected `;`, found `{self.peek()}`")
        return Node("statement", start, self.done(), value=value, ended=ended)

    def let(self, start):
        pattern = self.pattern()
        declared = self.type() if self.take(":") else None
        value = self.expression() if self.take("=") else None
        other = self.block() if self.take("else") else None
        self.need(";")
        return Node("let", start, self.done(), pattern=pattern, declared=declared, value=value, other=other)


class Items(Expressions):
    """The items of a file."""

    def is_item(self):
        if self.is_next("fn", "use", "struct", "enum", "const", "static", "type", "mod", "impl", "pub", "extern", "#"):
            return True
        return self.is_next("ghost") and self.peek(1) == "use"

    def file(self):
        items = []
        while self.is_next("#") and self.peek(1) == "!":  # an attribute of the whole file
            self.marks_of_file()
        while self.token() is not self.none:
            items.append(self.item())
        return items

    def marks_of_file(self):
        self.need("#")
        self.need("!")
        self.skip_group()

    def item(self):
        start = self.token().start
        self.marks()
        word = self.next().text
        if word == "ghost":
            self.skip_to(";")
            return Node("passed", start, self.done())
        if word == "use":
            return self.use(start)
        if word == "mod":
            return self.module(start)
        if word == "struct":
            return self.struct(start)
        if word == "enum":
            return self.enum(start)
        if word in ("const", "static"):
            return self.const(start)
        if word == "type":
            name = self.name_next()
            self.need("=")
            same = self.type()
            self.need(";")
            return Node("alias", start, self.done(), name=name, same=same)
        if word == "fn":
            return self.function(start)
        if word == "impl":
            return self.impl(start)
        if word == "extern":
            self.next()
            self.skip_group()
            return Node("passed", start, self.done())
        return self.fail(f"`{word}` starts no item")

    def marks(self):
        """Passes over attributes, `pub`, and the `extern "C"` of an exported function."""
        while True:
            if self.take("#"):
                self.take("!")
                self.skip_group()
            elif self.take("pub"):
                if self.is_next("("):
                    self.skip_group()
            elif self.is_next("extern") and self.peek(2) == "fn":
                self.next()
                self.next()
            else:
                return

    def use(self, start):
        """The path of a `use`, and the name that it brings; a tree in braces gives no name."""
        path = [self.next().text]
        while self.take("::"):
            if self.is_next("{"):
                self.skip_group()
                break
            path.append(self.next().text)
        name = self.name_next() if self.take("as") else path[-1]
        self.need(";")
        return Node("use", start, self.done(), path=path, name=name)

    def module(self, start):
        name = self.name_next()
        if self.take(";"):
            return Node("passed", start, self.done())
        items = self.in_braces()
        return Node("module", start, self.done(), name=name, items=items)

    def in_braces(self):
        """The items between braces."""
        self.need("{")
        items = []
        while not self.take("}"):
            items.append(self.item())
        return items

    def struct(self, start):
        name = self.name_next()
        self.lifetimes()
        fields = {}
        if self.take("("):
            for i, of in enumerate(self.listed(")", self.unnamed)):
                fields[str(i)] = of
            self.need(";")
        elif not self.take(";"):
            self.need("{")
            fields = dict(self.listed("}", self.declared))
        return Node("struct", start, self.done(), name=name, fields=fields)

    def unnamed(self):
        self.marks()
        return self.type()

    def declared(self):
        self.marks()
        self.take("ghost")
        name = self.name_next()
        self.need(":")
        if self.is_next("{"):
            self.skip_group()
            return (name, "")
        return (name, self.type())

    def enum(self, start):
        name = self.name_next()
        self.need("{")
        variants = dict(self.listed("}", self.variant))
        return Node("enum", start, self.done(), name=name, variants=variants)

    def variant(self):
        self.marks()
        name = self.name_next()
        holds = []
        if self.take("("):
            holds = self.listed(")", self.unnamed)
        elif self.take("{"):
            holds = [of for _, of in self.listed("}", self.declared)]
        if self.take("="):
            self.expression()
        return (name, holds)

    def const(self, start):
        name = self.name_next()
        self.need(":")
        of = self.type()
        self.need("=")
        value = self.expression()
        self.need(";")
        return Node("const", start, self.done(), name=name, of=of, value=value)

    def function(self, start):
        name = self.name_next()
        self.generics()
        self.need("(")
        parameters = self.listed(")", self.parameter)
        gives = self.type() if self.take("->") else "()"
        if self.take("where"):
            while not self.is_next("{", ";", *CLAUSES):
                self.next()
        while self.is_next(*CLAUSES):
            self.next()
            if self.token().kind == "name":
                self.next()
            self.skip_group()
        body = None if self.take(";") else self.block()
        return Node("fn", start, self.done(), name=name, parameters=parameters, gives=gives, body=body)

    def parameter(self):
        lent = ""
        if self.take("&"):
            lent = "&"
            if self.token().kind == "lifetime":
                self.next()
        mutable = self.take("mut")
        name = self.next().text
        if name == "self":
            return (name, ("&mut " if lent and mutable else lent) + "Self")
        self.need(":")
        return (name, self.type())

    def impl(self, start):
        self.generics()
        of = self.type()
        if self.take("for"):
            of = self.type()
        items = self.in_braces()
        return Node("impl", start, self.done(), of=of, items=items)


def items_of(text, name):
    """The items of a file's text; `name` is for messages."""
    return Items(text, name).file()
