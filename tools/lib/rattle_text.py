"""The items of Rattle sources, read from their text alone: modules, functions with their bodies, types, what is used.

What is for the prover is left out: contracts, `ghost` items. So are tests. Nothing is expanded, no type is inferred.
"""
import dataclasses
import re
from pathlib import Path

TOKEN = re.compile(
    r"""(?P<skip>\s+|//[^\n]*|/\*.*?\*/)
    |(?P<text>b?r(?P<hash>\#*)"(?:.*?)"(?P=hash)|b?"(?:\\.|[^"\\])*"|b?'(?:\\(?:x..|u\{[^}]*\}|.)|[^'\\])')
    |(?P<life>'[A-Za-z_]\w*)
    |(?P<name>[^\W\d]\w*)
    |(?P<number>\d[\w]*(?:\.\d\w*)?)
    |(?P<sign>::|->|=>|.)""",
    re.S | re.X,
)
PAIRS = {"(": ")", "[": "]", "{": "}"}
CONTRACT = {"requires", "ensures", "invariant", "decreases"}


@dataclasses.dataclass
class Token:
    """A token: its kind, its text, and where it begins."""

    kind: str
    text: str
    at: int


@dataclasses.dataclass(eq=False)
class Function:
    """A function, which begins and ends there, with its body from `opening` on. `owner` is the type of its impl, or its
    trait; `of` is the trait of its impl."""

    name: str
    module: "Module"
    public: bool
    signature: list
    body: list
    begin: int
    opening: int
    end: int
    owner: str = ""
    of: str = ""
    generics: frozenset = frozenset()

    def __str__(self):
        return "::".join([*self.module.path, *([self.owner] if self.owner else []), self.name])


@dataclasses.dataclass(eq=False)
class Type:
    """A struct, an enum, an alias or a trait, or a constant: the tokens by which it names others."""

    name: str
    module: "Module"
    tokens: list
    is_trait: bool = False

    def generics(self):
        """The names that its generics declare."""
        return names_in(self.tokens[1:past_angles(self.tokens, 1)])


@dataclasses.dataclass(eq=False)
class Module:
    """A module, with its items by name; `uses` has the paths that a name stands for, `globs` those of `use ..::*`."""

    path: tuple
    file: Path
    parent: "Module" = None
    functions: dict = dataclasses.field(default_factory=dict)
    types: dict = dataclasses.field(default_factory=dict)
    modules: dict = dataclasses.field(default_factory=dict)
    uses: dict = dataclasses.field(default_factory=dict)
    globs: list = dataclasses.field(default_factory=list)
    methods: list = dataclasses.field(default_factory=list)


def tokens_of(text):
    """The tokens of a text, comments aside."""
    return [Token(m.lastgroup if m.lastgroup != "hash" else "text", m.group(), m.start())
            for m in TOKEN.finditer(text) if m.group("skip") is None]


def closing(tokens, at):
    """The place of the bracket that closes the one at this place."""
    depth = 0
    for place in range(at, len(tokens)):
        if tokens[place].kind == "sign" and tokens[place].text in "([{":
            depth += 1
        elif tokens[place].kind == "sign" and tokens[place].text in ")]}":
            depth -= 1
            if depth == 0:
                return place
    return len(tokens) - 1


def past_angles(tokens, at):
    """The place behind generics that may begin here."""
    if at >= len(tokens) or tokens[at].text != "<":
        return at
    depth = 0
    while at < len(tokens):
        depth += (tokens[at].text == "<") - (tokens[at].text == ">")
        at += 1
        if depth == 0:
            break
    return at


def without_contracts(tokens):
    """These tokens without contracts, of closures and of loops too."""
    left, at = [], 0
    while at < len(tokens):
        behind = at + 1
        if tokens[at].text in CONTRACT and behind < len(tokens):
            behind += tokens[behind].kind == "name"
            if behind < len(tokens) and tokens[behind].text == "{":
                at = closing(tokens, behind) + 1
                continue
        left.append(tokens[at])
        at += 1
    return left


def names_in(tokens):
    """The names that generics declare, roughly: all names in them."""
    return frozenset(token.text for token in tokens if token.kind == "name")


class Reader:
    """Reads the items of one file, or of one block, into a module."""

    def __init__(self, tokens, module, load):
        self.tokens, self.module, self.load = tokens, module, load

    def text(self, at):
        """The text of the token there."""
        return self.tokens[at].text if at < len(self.tokens) else ""

    def read(self, at, end, owner="", of="", generics=frozenset()):
        """Reads the items from a place on."""
        while at < end:
            at = self.item(at, owner, of, generics)

    def item(self, at, owner, of, generics):
        """Reads one item; the place behind it."""
        begin, test, public = at, False, False
        while self.text(at) == "#":
            at += 1 + (self.text(at + 1) == "!")
            end = closing(self.tokens, at)
            words = [token.text for token in self.tokens[at + 1:end]]
            test = test or words == ["test"] or words == ["cfg", "(", "test", ")"]
            at = end + 1
        if self.text(at) == "pub":
            public = self.text(at + 1) != "("
            at = at + 1 if public else closing(self.tokens, at + 1) + 1
        while self.text(at) in ("unsafe", "async") or (self.text(at) == "const" and self.text(at + 1) == "fn"):
            at += 1
        kind = self.text(at)
        if kind == "fn":
            return self.function(begin, at, public, test, owner, of, generics)
        if kind == "mod" and self.text(at + 2) == ";":
            if not test:
                self.load(self.module, self.text(at + 1))
            return at + 3
        end = self.end_of(at)
        if test or kind == "ghost":
            return end
        if kind == "mod":
            inner = Module((*self.module.path, self.text(at + 1)), self.module.file, self.module)
            self.module.modules[self.text(at + 1)] = inner
            Reader(self.tokens, inner, self.load).read(at + 3, end - 1)
        elif kind == "use":
            self.use(self.tokens[at + 1:end - 1])
        elif kind in ("impl", "trait"):
            self.block(kind, at, end)
        elif kind in ("struct", "enum", "const", "static", "type"):
            name = self.text(at + 1)
            self.module.types[name] = Type(name, self.module, self.tokens[at + 1:end])
        return end

    def end_of(self, at):
        """The place behind an item that ends at a `;` or with braces."""
        while at < len(self.tokens):
            text = self.text(at)
            if text in PAIRS:
                at = closing(self.tokens, at)
                if text == "{" and self.text(at + 1) != ";":
                    return at + 1
            elif text == ";":
                return at + 1
            at += 1
        return at

    def function(self, begin, at, public, test, owner, of, generics):
        """Reads a function."""
        name, behind = self.text(at + 1), past_angles(self.tokens, at + 2)
        own = generics | names_in(self.tokens[at + 2:behind])
        end = closing(self.tokens, behind) + 1
        while self.text(end) not in (";", "{"):
            if self.text(end) in CONTRACT:
                break
            end += 1
        signature = self.tokens[at + 2:end]
        while self.text(end) in CONTRACT:
            end += 1 + (self.tokens[end + 1].kind == "name")
            end = closing(self.tokens, end) + 1
        last = closing(self.tokens, end) if self.text(end) == "{" else end
        if not test and self.text(end) == "{":
            body = without_contracts(self.tokens[end + 1:last])
            places = self.tokens[begin].at, self.tokens[end].at, self.tokens[last].at + 1
            made = Function(name, self.module, public, signature, body, *places, owner, of, own)
            if owner:
                self.module.methods.append(made)
            else:
                self.module.functions[name] = made
        return last + 1

    def block(self, kind, at, end):
        """Reads an impl or a trait."""
        opening = next(place for place in range(at, end) if self.text(place) == "{")
        behind = past_angles(self.tokens, at + 1)
        generics = names_in(self.tokens[at + 1:behind])
        head = [token for token in self.tokens[behind:opening]]
        if kind == "trait":
            owner, of = head[0].text, ""
            self.module.types[owner] = Type(owner, self.module, head[1:], True)
        else:
            split = next((place for place, token in enumerate(head) if token.text == "for"), None)
            of = "" if split is None else path_text(head[:split])
            owner = path_text(head if split is None else head[split + 1:])
        self.read(opening + 1, end - 1, owner, of, generics)

    def use(self, tokens, front=()):
        """Notes what a `use` names."""
        path, at = list(front), 0
        while at < len(tokens):
            text = tokens[at].text
            if text == "{":
                for part in parted(tokens[at + 1:closing(tokens, at)]):
                    self.use(part, tuple(path))
                return
            if text == "*":
                self.module.globs.append(tuple(path))
                return
            if text == "as":
                self.module.uses.setdefault(tokens[at + 1].text, []).append(tuple(path))
                return
            if text != "::":
                path.append(text)
            at += 1
        if path and path[-1] == "self":
            path.pop()
        if path:
            self.module.uses.setdefault(path[-1], []).append(tuple(path))


def parted(tokens):
    """The parts between commas that stand in no bracket."""
    parts, part, depth = [], [], 0
    for token in tokens:
        depth += (token.text == "{") - (token.text == "}")
        if token.text == "," and depth == 0:
            parts.append(part)
            part = []
        else:
            part.append(token)
    return [part for part in [*parts, part] if part]


def path_text(tokens):
    """The path at the front of a type, `&`, lifetimes and generics aside."""
    words = []
    for token in tokens:
        if token.kind == "life" or token.text in ("&", "mut", "dyn"):
            continue
        if token.kind != "name" and token.text != "::":
            break
        words.append(token.text)
    return "".join(words)


def read_crate(folder):
    """The module of a crate's root; nothing where it has none."""
    root = next((folder / "src" / name for name in ("lib.rt", "main.rt") if (folder / "src" / name).is_file()), None)
    if root is None:
        return None

    def load(parent, name):
        below = folder / "src" / Path(*parent.path[1:], name)
        file = next((one for one in (below.with_suffix(".rt"), below / "mod.rt") if one.is_file()), None)
        if file is not None:
            parent.modules[name] = read_file(file, (*parent.path, name), parent)

    def read_file(file, path, parent=None):
        module = Module(path, file, parent)
        tokens = tokens_of(file.read_text(encoding="utf-8"))
        Reader(tokens, module, load).read(0, len(tokens))
        return module

    return read_file(root, (folder.name,))


def all_modules(module):
    """A module and those within it."""
    yield module
    for inner in module.modules.values():
        yield from all_modules(inner)


def path_at(tokens, place):
    """The names of the path that begins at a place, generics aside, and the place behind it."""
    path = [tokens[place].text]
    place += 1
    while place + 1 < len(tokens) and tokens[place].text == "::":
        if tokens[place + 1].kind == "name":
            path.append(tokens[place + 1].text)
            place += 2
            continue
        behind = past_angles(tokens, place + 1)
        if behind >= len(tokens) or tokens[behind].text != "::":
            break
        place = behind
    return path, place


def is_behind(tokens, place):
    """Whether a name stands behind a `.` or a `::`, and not behind a range."""
    before = [token.text for token in tokens[max(place - 2, 0):place]]
    return before[-1:] == ["::"] or (before[-1:] == ["."] and before != [".", "."])
