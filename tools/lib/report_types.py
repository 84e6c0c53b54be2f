"""The types of sources beside a report: which racer reads and checks, their methods, their locks, what is suppressed.

racer-packages keeps them beside each report (`racer.package`); of other reports they are read from the sources, where
these are at hand.
"""
import collections
import dataclasses
import os

from java_outline import Outline, types_of
from report_files import joined, split_place


@dataclasses.dataclass
class KnownType:
    """A type: its file and place there, its name with those around it, why it is not checked, why it is skipped, in a
    word, its locks, its methods with a body that are no constructors, the public ones apart, and what the sources
    leave out of warnings: all of the type, fields, methods, each with the annotation."""

    file: str
    line: int
    column: int
    name: str
    unchecked: str
    skipped: str
    locks: list
    public: list
    other: list
    suppressed: str
    fields: dict
    methods: dict

    def count(self):
        """How many methods it has."""
        return len(self.public) + len(self.other)

    def place(self):
        """Where its name stands."""
        return f"{self.file}:{self.line}:{self.column}"


@dataclasses.dataclass
class Known:
    """The types of a report, and how many methods are `outside` by each set of forms, as words behind one another."""

    types: list
    outside: dict

    def by_name(self):
        """The types by their names."""
        return {one.name: one for one in self.types}

    def checked(self):
        """The names of the types that are checked."""
        return [one.name for one in self.types if not one.unchecked]


def known_of(facts):
    """What racer-packages tells; nothing where it is of an older one."""
    if "types" not in facts or "outside" not in facts:
        return None
    return Known([KnownType(*one) for one in facts["types"]], facts["outside"])


def facts_of(known):
    """What racer-packages tells, as JSON."""
    return {"outside": known.outside, "types": [list(dataclasses.asdict(one).values()) for one in known.types]}


def known_type(name, outline, one, unread):
    """A type of an outline; `unread` says why its file is not looked at, in a sentence and in a word."""
    own = one.name.rpartition(".")[2]
    methods = [(f"{method.name}/{method.parameters}", method) for method in one.methods if method.name != own]
    public = [key for key, method in methods if "public" in method.modifiers]
    other = [key for key, method in methods if "public" not in method.modifiers]
    suppressed = {key: method.suppressed for key, method in methods if method.suppressed}
    why, word = (unread[0], unread[1]) if unread and not one.skipped else (one.unchecked, one.skipped)
    place = outline.line_and_column(one.place)
    rest = (one.name, why, word, one.locks, public, other, one.suppressed, one.suppressed_fields, suppressed)
    return KnownType(name, *place, *rest)


def offset(data, line, column):
    """Where a place of a report is in its file."""
    at = -1
    for _ in range(line - 1):
        at = data.find(b"\n", at + 1)
    return at + column


class Reader:
    """Reads the types of source files, given what racer said of them."""

    def __init__(self, object_, left_out):
        self.left_out = {name for name, _, _ in left_out}
        self.is_refused = object_ is None
        self.places = collections.defaultdict(list)
        self.types, self.outside = [], collections.Counter()
        for left in object_["not_analysed"] if object_ else []:
            if left["reason"] == "outside":
                name, line, column = split_place(left["place"])
                self.places[name].append((line, column))

    def unread(self, name):
        """Why a file is not looked at; nothing where it is."""
        if name in self.left_out:
            return "its file is left out", "left out"
        return ("its package is refused", "refused") if self.is_refused else None

    def add(self, name, data):
        """Adds a file."""
        outline = Outline(data)
        types = types_of(outline)
        outline.forget()
        unread = self.unread(name)
        self.types += [known_type(name, outline, one, unread) for one in types]
        forms = {method.place: method.forms for one in types for method in one.methods} if name in self.places else {}
        for line, column in self.places[name] if forms else ():
            self.outside[", ".join(forms.get(offset(data, line, column)) or ("other",))] += 1

    def known(self):
        """What is known of all."""
        return Known(self.types, dict(self.outside))


def source_files(report):
    """The names of the sources of a report, from its folder: of a package without those of its subfolders."""
    found = []
    for folder, folders, names in os.walk(report.sources):
        folders[:] = [] if report.is_package else sorted(folders)
        found += [os.path.join(folder, name) for name in names if name.endswith(".java")]
    return sorted(os.path.relpath(path, report.sources) for path in found if not os.path.islink(path))


def known_types(report):
    """What is known of the types of a report; nothing where neither racer-packages nor sources tell it."""
    if report.known is None and report.facts is not None:
        report.known = known_of(report.facts)
    elif report.known is None and report.sources and os.path.isdir(report.sources):
        reader = Reader(report.object, report.left_out)
        for name in source_files(report):
            try:
                with open(joined(report.sources, name), "rb") as file:
                    reader.add(name, file.read())
            except OSError:
                continue
        report.known = reader.known()
    return report.known
