"""What the crates declare: their files, types, functions and constants, and what a type's name means in each file.

The types only keep most changes from being ones that do not compile; where one is not found, nothing is lost but time.
"""
import pathlib

import rattle

INTEGERS = {sign + size for sign in "ui" for size in ("8", "16", "32", "64", "size")}


class File:
    """A file of a crate. `module` is "" for the crate's root."""

    def __init__(self, crate, path, where):
        self.crate, self.path, self.where = crate, path, where
        self.module = "" if path.stem in ("lib", "main") else path.stem
        self.text = path.read_text(encoding="utf-8")
        self.items = rattle.items_of(self.text, where)
        self.uses = {item.name: item.path for item in self.items if item.kind == "use"}


class Crate:
    """A crate's files and what they declare, by name: modules are not told apart."""

    def __init__(self, root, name, needs):
        self.name, self.needs = name, needs
        self.folder = root / "crates" / name
        self.is_program = (self.folder / "src/main.rt").exists()
        self.structs, self.enums, self.consts, self.aliases = {}, {}, {}, {}
        self.functions = {}
        self.files = [
            File(self, path, str(path.relative_to(root))) for path in sorted((self.folder / "src").rglob("*.rt"))
        ]
        for file in self.files:
            self.declare(file, file.items, "")

    def declare(self, file, items, of):
        for item in items:
            if item.kind == "struct":
                self.structs[item.name] = (file, item.fields)
            elif item.kind == "enum":
                self.enums[item.name] = (file, item.variants)
            elif item.kind == "const":
                self.consts[item.name] = (file, item.of)
            elif item.kind == "alias":
                self.aliases[item.name] = (file, item.same)
            elif item.kind == "fn":
                self.functions[(of, item.name)] = (file, item)
            elif item.kind == "impl":
                self.declare(file, item.items, item.of.split("::")[-1])
            elif item.kind == "module":
                self.declare(file, item.items, of)

    def has_proof_file(self, of, name):
        """Whether a function's proof was written by hand. The functions of a cycle of calls share one: `+f+g`."""
        for proof in (self.folder / "proofs").rglob("Proof.antt"):
            folder = proof.parent
            if name in folder.name.split("+") and (not of or folder.parent.name == of):
                return True
        return False


class Foreign:
    """A library that is not of the repository: nothing is known of it."""

    name = ""
    structs = enums = consts = aliases = functions = {}


FOREIGN = Foreign()


class World:
    """The crates of crates.txt, in its order."""

    def __init__(self, root):
        self.root = pathlib.Path(root)
        self.crates = {}
        for line in (self.root / "crates.txt").read_text(encoding="utf-8").splitlines():
            name, colon, needs = line.split("#")[0].partition(":")
            if colon:
                name = name.strip()
                self.crates[name] = Crate(self.root, name, needs.split())

    def owner(self, file, path):
        """The crate that a path leads to, by its first name or by the file's `use` lines."""
        first = path[0]
        if len(path) > 1 and first in self.crates:
            return self.crates[first]
        if len(path) > 1 and first in file.crate.needs:
            return FOREIGN
        brought = file.uses.get(first)
        if brought and brought[0] != first:
            return self.owner(file, brought)
        return file.crate

    def meaning(self, file, text, of=""):
        """A type in one form: a declared type is CRATE::NAME. `of` is what `Self` means."""
        for mark in ("&mut ", "&"):
            if text.startswith(mark):
                return mark + self.meaning(file, text[len(mark) :], of)
        if text.startswith("["):
            item, semicolon, length = text[1:-1].rpartition("; ")
            if not semicolon:
                return f"[{self.meaning(file, length, of)}]"
            return f"[{self.meaning(file, item, of)}; {length}]"
        if text == "Self":
            text = of
        path = text.split("::")
        crate = self.owner(file, path)
        if path[-1] in crate.aliases:
            home, same = crate.aliases[path[-1]]
            return self.meaning(home, same)
        if path[-1] in crate.structs or path[-1] in crate.enums:
            return f"{crate.name}::{path[-1]}"
        return text

    def struct(self, meaning):
        """The fields of a struct, each with what its type means; none where it is no struct of the repository."""
        crate, _, name = meaning.lstrip("&").removeprefix("mut ").partition("::")
        if crate not in self.crates or name not in self.crates[crate].structs:
            return {}
        file, fields = self.crates[crate].structs[name]
        return {field: self.meaning(file, text) for field, text in fields.items()}

    def variant(self, file, path):
        """The enum that a path's variant belongs to, and what the variant holds."""
        if len(path) < 2:
            return None, []
        crate = self.owner(file, path[:-1])
        home, variants = crate.enums.get(path[-2], (None, {}))
        if path[-1] not in variants:
            return None, []
        return f"{crate.name}::{path[-2]}", [self.meaning(home, text) for text in variants[path[-1]]]

    def signature(self, crate, of, name):
        """What a function takes, without self, and gives; None where it is not of the repository."""
        if (of, name) not in crate.functions:
            return None
        file, function = crate.functions[(of, name)]
        takes = [self.meaning(file, text, of) for parameter, text in function.parameters if parameter != "self"]
        return takes, self.meaning(file, function.gives, of)

    def called(self, file, path, of):
        """What a call of a path takes and gives: a function, a method by its type, a variant or a tuple struct."""
        made, holds = self.variant(file, path)
        if made:
            return holds, made
        crate = self.owner(file, path)
        struct = self.meaning(file, "::".join(path), of)
        fields = self.struct(struct)
        if fields and "0" in fields:
            return list(fields.values()), struct
        if len(path) > 1:
            home, _, holder = self.meaning(file, "::".join(path[:-1]), of).partition("::")
            if holder and home in self.crates and (holder, path[-1]) in self.crates[home].functions:
                return self.signature(self.crates[home], holder, path[-1])
        return self.signature(crate, "", path[-1])

    def method(self, meaning, name):
        """What a method of a value takes and gives."""
        if name == "len":
            return [], "usize"
        crate, _, of = (meaning or "").lstrip("&").removeprefix("mut ").partition("::")
        if crate not in self.crates:
            return None
        return self.signature(self.crates[crate], of, name)
