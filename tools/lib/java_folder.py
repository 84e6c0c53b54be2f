"""The classes of a folder of Java with their methods and fields, as far as it takes to follow a thread through them."""
import dataclasses

from java_forms import UNLOCK
from java_outline import CLOSING, NAME, Outline, parameters_of
from java_statements import code_of


@dataclasses.dataclass
class Body:
    """A method or constructor: its parameters, each with the class of its type where that is one name, the class of its
    result, and where its block begins; whether a thread can't enter it, since it is not analysed; its code, once it was
    asked for."""

    names: list
    result: str
    block: int
    is_closed: bool
    made: list = None

    def code(self, outline):
        """Its code."""
        if self.made is None:
            self.made = code_of(outline, self.block)
        return self.made


class Class:
    """A class that is read: its outline, its methods by name and number of parameters, the types of its fields, and
    where the initialisers of those that are not static begin and end."""

    def __init__(self, file, outline, name):
        self.file, self.outline, self.name = file, outline, name
        self.methods, self.fields, self.initial = {}, {}, []

    def add(self, member, last):
        """Adds a member."""
        outline = self.outline
        found = outline.method(member, last)
        if found is None:
            self.add_fields(member, last)
            return
        name = "<new>" if found.name == self.name else found.name
        opened = outline.places.index(found.place) + 1
        block = next(k for k in range(outline.partners[opened], last) if outline.tokens[k] == b"{")
        key = (name, found.parameters)
        result = self.name if name == "<new>" else simple_type(outline.tokens[opened - 2 : opened - 1])
        names = parameters_of(outline, opened)
        is_closed = not {*found.forms} <= {UNLOCK} or key in self.methods
        self.methods[key] = Body(names, result, block, is_closed)

    def add_fields(self, member, last):
        """Adds the fields that a member declares."""
        outline = self.outline
        names, _ = outline.fields(member, last)
        _, modifiers, first = outline.head(member, last)
        kind = simple_type(outline.tokens[first : first + 1]) if outline.tokens[first + 1 : first + 2] else None
        plain = NAME.fullmatch(outline.tokens[min(first + 1, last - 1)])
        self.fields.update(dict.fromkeys(names, kind if plain else None))
        if "static" in modifiers:
            return
        at = first
        while at < last:
            if outline.tokens[at] == b"=":
                end = at
                while end < last and outline.tokens[end] not in (b",", b";"):
                    end = outline.partners[end] + 1 if outline.tokens[end] in CLOSING else end + 1
                self.initial.append((at + 1, end))
                at = end
            at += 1


def simple_type(tokens):
    """The name that a type is, where it is one."""
    return tokens[0].decode("utf-8", "replace") if tokens and NAME.fullmatch(tokens[0]) else None


def classes_of(file, data):
    """The classes of a file that racer reads."""
    outline = Outline(data)
    for first, last in outline.members(0, len(outline.tokens)):
        _, _, i = outline.head(first, last)
        if outline.tokens[i] != b"class" or outline.tokens[i + 2] not in (b"{", b"implements"):
            continue
        found = Class(file, outline, outline.tokens[i + 1].decode("utf-8", "replace"))
        begin = next(k for k in range(i + 2, last) if outline.tokens[k] == b"{")
        for member, behind in outline.members(begin + 1, last - 1):
            _, _, at = outline.head(member, behind)
            if not outline.is_type(at, behind):
                found.add(member, behind)
        yield found


def read_classes(sources):
    """The classes of some files, each as its name and bytes, by their names."""
    found = {}
    for file, data in sources:
        try:
            found.update((one.name, one) for one in classes_of(file, data))
        except (StopIteration, IndexError, KeyError, ValueError, RuntimeError):
            continue
    return found
