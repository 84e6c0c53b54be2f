"""What reports find, by words that have no place in them, and what is changed between two states."""
import collections
import dataclasses
import os

from report_files import Fault, read_reports, read_text, refusal_text
from report_types import known_types

HEAD = "racer findings 1"

# How many words a line of a list has behind its count, by its first: of a warning also those of older lists, which have
# neither its lock nor its partner.
LENGTHS = {"warning": (6, 8), "refused": (2,), "left out": (3,), "checked": (3,), "profile": (2,)}


class Findings:
    """What is found in reports: how often each finding is there, with its places and its details, which methods are not
    analysed, and which classes are checked; of the packages whose types are known, these with their methods; and the
    profiles of the reports."""

    def __init__(self):
        self.counts = collections.Counter()
        self.places = collections.defaultdict(list)
        self.details = collections.defaultdict(list)
        self.not_analysed = {}
        self.checked, self.types, self.reports = {}, {}, {}
        self.profiles = set()

    def add(self, key, place):
        """Adds a finding."""
        self.counts[key] += 1
        self.places[key].append(place)

    def add_report(self, report):
        """Adds what a report finds, or that it is none."""
        package, known = report.package, known_types(report)
        self.reports[package] = report
        for name, place, why in report.left_out:
            self.add(left_out_key(report, name), f"{report.under}{name}{place}: introduced: left out: {why}")
        if known is not None:
            self.types[package] = known.by_name()
        if known is not None or report.checked is not None:
            self.checked[package] = set(known.checked() if report.checked is None else report.checked)
        if report.object is None:
            self.add(refused_key(report), f"{refusal_text(report)} (introduced)")
            return
        self.profiles.add(report.object["profile"])
        for warning in report.object["warnings"]:
            key = warning_key(report, warning)
            self.details[key].append(details_of(warning))
            self.add(key, f"{report.under}{warning['at'][-1]}: introduced: {key_text(key)}")
        for left in report.object["not_analysed"]:
            line = f"{report.under}{left['place']}: introduced: not analysed: {left['method']}, which had warnings"
            self.not_analysed[(package, left["method"])] = line

    def lines(self):
        """The lines of a list."""
        found = collections.Counter()
        for key, count in self.counts.items():
            details = self.details.get(key) or [()] * count
            found.update((*key, *one) for one in details)
        found.update(("checked", *one) for one in self.were_checked())
        found.update(("profile", str(profile)) for profile in self.profiles)
        return [HEAD, *("\t".join((str(found[key]), *key)) for key in sorted(found))]

    def add_line(self, count, key):
        """Adds a line of a list."""
        if key[0] == "checked":
            self.checked.setdefault(key[1], set()).add(key[2])
            return
        if key[0] == "profile":
            self.profiles.add(int(key[1]))
            return
        own, details = (tuple(key[:6]), tuple(key[6:])) if key[0] == "warning" else (tuple(key), ())
        self.counts[own] += count
        if details:
            self.details[own] += [details] * count

    def were_checked(self):
        """The classes that are known to be checked, each with its package: those with warnings are."""
        found = {(package, name) for package, names in self.checked.items() for name in names}
        return found | {(key[1], owner_of(key[2])) for key in self.counts if key[0] == "warning"}


@dataclasses.dataclass
class Changes:
    """How often each finding is introduced, fixed, hidden, moved and kept, which methods are not analysed any more,
    and which classes, with their package, are not checked any more, each with the line that says it."""

    introduced: collections.Counter
    fixed: collections.Counter
    hidden: collections.Counter
    moved: collections.Counter
    kept: collections.Counter
    unread: list
    unchecked: dict

    def lost(self):
        """The hidden findings of classes that are not checked any more: they count as introduced."""
        lost = {key: count for key, count in self.hidden.items() if class_of(key) in self.unchecked}
        return collections.Counter(lost)

    def counts(self):
        """How many are introduced, fixed, hidden, moved and kept."""
        lost = sum(self.lost().values())
        introduced = sum(self.introduced.values()) + len(self.unread) + len(self.unchecked) + lost
        rest = [sum(found.values()) for found in (self.fixed, self.hidden, self.moved, self.kept)]
        return (introduced, rest[0], rest[1] - lost, *rest[2:])


def warning_key(report, warning):
    """What a warning is known by."""
    return "warning", report.package, warning["method"], warning["kind"], warning["path"], warning["mark"]["word"]


def details_of(warning):
    """What a warning is not known by, but what is asked of one that is gone: its lock, its partner's method."""
    return "locked" if warning["locked"] else "bare", warning["with"]["method"]


def left_out_key(report, name):
    """What a file that was left out is known by."""
    return "left out", report.package, name


def refused_key(report):
    """What a refusal is known by."""
    return "refused", report.package


def key_text(key):
    """A finding in words."""
    if key[0] == "warning":
        return f"{key[3]} {key[4]} in {key[2]}, {key[5]}"
    return " ".join((key[0], *key[2:]))


def owner_of(method):
    """The class of a method."""
    return method.rsplit("/", 1)[0].rpartition(".")[0]


def class_of(key):
    """The class of a warning, with its package."""
    return (key[1], owner_of(key[2])) if key[0] == "warning" else None


def read_list(text, name):
    """The findings of a list."""
    found = Findings()
    lines = text.split("\n")
    for number, line in enumerate(lines[1:-1], 2):
        count, *key = line.split("\t")
        if not count.isdecimal() or len(key) not in LENGTHS.get(key[0] if key else "", ()):
            raise Fault(f"{name}, line {number}: no finding")
        found.add_line(int(count), key)
    return found


def read_findings(name, list_too, sources=None):
    """The findings of a report, of a folder of them, or of a list where that may be."""
    if list_too and name != "-" and os.path.isfile(name):
        text = read_text(name)
        if text.startswith(HEAD + "\n"):
            return read_list(text, name)
    found = Findings()
    for report in read_reports(name, None, sources):
        report.package = report.package if report.is_package else ""
        found.add_report(report)
    return found


def is_there(package, method, new):
    """Whether a method is there and analysed, as far as that is known: it is taken for it where nothing tells."""
    if (package, method) in new.not_analysed:
        return False
    if package not in new.types:
        return package in new.reports or not any(report.is_package for report in new.reports.values())
    one = new.types[package].get(owner_of(method))
    own = method.rpartition(".")[2]
    return one is not None and (own in one.public or own in one.other)


def is_hidden(key, before, new):
    """Whether a finding that is gone may only be one that is not looked at any more: it itself, or its partner."""
    if key[0] != "warning":
        return False
    package = key[1]
    if ("refused", package) in new.counts:
        return True
    if package in new.checked and owner_of(key[2]) not in new.checked[package]:
        return True
    partners = {one[1] for one in before.details.get(key, ())}
    return not all(is_there(package, method, new) for method in {key[2], *partners})


def why_unchecked(package, name, new):
    """The line that says that a class is not checked any more, where it is known to stand there still."""
    one = new.types.get(package, {}).get(name)
    if one is None or name in new.checked.get(package, ()):
        return None
    why = f": {one.unchecked}" if one.unchecked else ""
    return f"{new.reports[package].under}{one.place()}: introduced: {name} is not checked any more{why}"


def renamed(gone, come, before, new):
    """The findings that are there by another name of their method: of those that are gone, and those that came, which
    have the same class, path, kind, mark and lock."""
    left, found = collections.defaultdict(list), []
    had = {(key[1], key[2]) for key in before.counts if key[0] == "warning"}
    for key, count in sorted(come.items()):
        if key[0] == "warning" and (key[1], key[2]) not in had:
            for lock, _ in new.details[key][-count:]:
                left[(class_of(key), key[3:], lock)].append(key)
    for key, count in sorted(gone.items()):
        if key[0] != "warning" or is_there(key[1], key[2], new):
            continue
        for lock, _ in before.details.get(key, ())[:count]:
            if left[(class_of(key), key[3:], lock)]:
                found.append((key, left[(class_of(key), key[3:], lock)].pop(0)))
    return found


def changes(before, now, old, new):
    """What is changed between two counters of findings, which are those of `old` and of `new`."""
    gone, come = before - now, now - before
    moves = renamed(gone, come, old, new)
    moved = collections.Counter(was for was, _ in moves)
    gone, come = gone - moved, come - collections.Counter(key for _, key in moves)
    hidden = collections.Counter({key: count for key, count in gone.items() if is_hidden(key, old, new)})
    unread = sorted({(key[1], key[2]) for key in hidden} & set(new.not_analysed))
    lines = {one: why_unchecked(*one, new) for one in old.were_checked()}
    unchecked = {one: line for one, line in sorted(lines.items()) if line is not None}
    return Changes(come, gone - hidden, hidden, moved, now & before, unread, unchecked)
