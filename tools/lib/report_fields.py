"""The warnings of reports by field, with how its accesses are locked, and what to look at first."""
import collections
import re

from report_files import split_place
from report_types import known_types

# From the best to the worst.
MARKS = ("confirmed", "blocked", "long", "unread", "unstable", "unnamed")

# What a field is told among the last for, from what is looked at first on: nothing, and in words what its accesses are.
GROUPS = ("", "no access without a lock is in a public method", "written in constructors and setters alone")

SETTER = re.compile(r"set[^a-z].*|set")


def is_public(report, method):
    """Whether a method is public, as far as the sources say: else it is taken for it."""
    known = known_types(report)
    owner, name, count = parts(method)
    one = known.by_name().get(owner) if known else None
    return one is None or f"{name}/{count}" not in one.other


class Field:
    """A field of a class, by the path that leads to it, with its warnings."""

    def __init__(self, report, owner, path):
        self.report, self.owner, self.path = report, owner, path
        self.warnings, self.accesses = [], {}

    def add(self, warning):
        """Adds a warning, and the accesses that it names."""
        self.warnings.append(warning)
        for side in (warning, warning["with"]):
            self.accesses[(side["method"], side["kind"], tuple(side["at"]), side["locked"], side["main"])] = side

    def locked(self, kind):
        """How many of its accesses of this kind are locked, of how many."""
        found = [side["locked"] for side in self.accesses.values() if side["kind"] == kind]
        return sum(found), len(found)

    def is_locked_somewhere(self):
        """Whether an access is locked."""
        return any(side["locked"] for side in self.accesses.values())

    def bare(self):
        """The methods with an access that is not locked."""
        return sorted({side["method"] for side in self.accesses.values() if not side["locked"]})

    def group(self):
        """Where it stands among the others, as a place in GROUPS. What no thread may call that has no lock of its own
        stands behind the others, and what is only set behind that."""
        writers = [parts(side["method"]) for side in self.accesses.values() if side["kind"] == "write"]
        if writers and all(SETTER.fullmatch(name) and count == 1 for _, name, count in writers):
            return 2
        called = [method for method in self.bare() if parts(method)[1] != "finalize"]
        return 0 if any(is_public(self.report, method) for method in called) else 1

    def cause(self):
        """What all findings share that have one cause: the class, and the one method without a lock."""
        bare = self.bare()
        return (self.report.under, self.owner, bare[0]) if len(bare) == 1 else None

    def best(self):
        """The place of its best mark."""
        return min(MARKS.index(w["mark"]["word"]) if w["mark"]["word"] in MARKS else len(MARKS) for w in self.warnings)

    def sides(self):
        """Its accesses, those that are not locked first."""
        def order(side):
            return side["locked"], [split_place(place) for place in side["at"]], side["method"]

        return sorted(self.accesses.values(), key=order)

    def facts(self):
        """How often it is locked, and its marks, in words."""
        counts = [(kind, *self.locked(kind)) for kind in ("read", "write")]
        locked = ", ".join(f"{kind}s locked {own} of {every}" for kind, own, every in counts if every)
        return f"{locked}; {by_word((warning['mark']['word'] for warning in self.warnings), MARKS)}"


class Finding:
    """What is told as one: a field, or all fields of a class that one method reaches without a lock."""

    def __init__(self, field):
        self.fields, self.cause = [field], field.cause()
        self.kind = field.group()
        names = field.report.under, field.owner, field.path
        self.order = self.kind, not field.is_locked_somewhere(), field.best(), *names

    def first(self):
        """The field that is looked at first."""
        return self.fields[0]

    def warnings(self):
        """All its warnings."""
        return [warning for field in self.fields for warning in field.warnings]


def parts(method):
    """The class, the name and the number of parameters of a method."""
    name, count = method.rsplit("/", 1)
    owner, _, own = name.rpartition(".")
    return owner, own, int(count)


def by_word(words, order):
    """How often each word is there, as a text."""
    found = collections.Counter(words)
    known = [word for word in order if word in found] + sorted(set(found) - set(order))
    return ", ".join(f"{found[word]} {word}" for word in known)


def fields_of(reports):
    """The fields that have warnings."""
    found = {}
    for number, report in enumerate(reports):
        for warning in report.object["warnings"] if report.object else []:
            owner = parts(warning["method"])[0]
            key = (number, owner, warning["path"])
            found.setdefault(key, Field(report, owner, warning["path"])).add(warning)
    return list(found.values())


def findings_of(reports):
    """The fields that have warnings, what to look at first on top, those of one cause together."""
    ordered = sorted((Finding(field) for field in fields_of(reports)), key=lambda finding: finding.order)
    found, causes = [], {}
    for one in ordered:
        first = causes.get((one.cause, one.kind)) if one.cause else None
        if first is not None:
            first.fields += one.fields
        else:
            causes[(one.cause, one.kind)] = one
            found.append(one)
    return found
