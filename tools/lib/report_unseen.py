"""What reports do not look at: how many methods can have a warning at all, and which types have locks and are not
checked, each with the reason."""
import collections

from report_types import known_types

# How many methods are counted apart, for each set of forms that is not read.
MOST_FORMS = 8


def has_types(report):
    """Whether it is known which types the sources of a report have."""
    return known_types(report) is not None


def checked_and_not(report):
    """The names of the checked types of a report, and those that have locks and are not checked, or whose locks are
    none that are looked at, each with what is said of it."""
    known = known_types(report)
    told = [(one, lock_text(one)) for one in known.types]
    return known.checked(), [(one, text) for one, text in told if text]


def lock_text(one):
    """What is said of the locks of a type; nothing where they are looked at, or there are none."""
    if one.locks == ["java.util.concurrent"]:
        told = "has locks of java.util.concurrent alone, which are not looked at"
        return told + (f", and is not checked: {one.unchecked}" if one.unchecked else "")
    if one.unchecked and one.locks:
        word = "@GuardedBy" if one.locks == ["GuardedBy"] else "locks"
        return f"has {word} and is not checked: {one.unchecked}"
    return ""


class Reach:
    """How far the reports reach: of the methods that the sources declare, how many stand where."""

    def __init__(self, reports):
        known = [(report, known_types(report)) for report in reports]
        self.unknown = sum(types is None for _, types in known)
        self.types = self.methods = self.skipped = self.unread = self.unchecked = 0
        self.by_reason = collections.defaultdict(lambda: [0, 0])
        self.outside = collections.Counter()
        for report, types in known:
            if types is not None:
                self.add(report, types)

    def add(self, report, known):
        """Adds what is known of a report: constructors are no methods here."""
        self.outside.update(known.outside)
        unread = collections.Counter()
        for left in report.object["not_analysed"] if report.object else []:
            owner, _, name = left["method"].rpartition(".")
            unread[owner] += name.partition("/")[0] != "<new>"
        for one in known.types:
            self.types += 1
            self.methods += one.count()
            if one.skipped:
                self.skipped += one.count()
                self.by_reason[one.skipped][0] += 1
                self.by_reason[one.skipped][1] += one.count()
                continue
            left = min(unread[one.name], one.count())
            self.unread += left
            self.unchecked += one.count() - left if one.unchecked else 0

    def line(self):
        """The one line that says it."""
        if not self.types and self.unknown:
            return "How many methods can have a warning is not known without sources."
        can = self.methods - self.skipped - self.unread - self.unchecked
        where = (
            f"{self.skipped:,} stand in types that are skipped, {self.unread:,} are not analysed, "
            f"{self.unchecked:,} in classes that are not checked"
        )
        rest = f" (not known of {self.unknown:,} more reports)" if self.unknown else ""
        return f"Of {self.methods:,} methods in {self.types:,} types {can:,} can have a warning: {where}{rest}."

    def reasons(self):
        """Why types are skipped: each reason with how many types and methods it costs, the most methods first."""
        found = sorted(self.by_reason.items(), key=lambda item: (-item[1][1], -item[1][0], item[0]))
        return [(word, types, methods) for word, (types, methods) in found]

    def forms(self):
        """What is not read in methods that are `outside`: how many have one form alone, or several, the most first."""
        found = collections.Counter()
        for words, count in self.outside.items():
            found[grouped(words)] += count
        told = sorted(found.items(), key=lambda item: (-item[1], item[0]))
        rest = sum(count for _, count in told[MOST_FORMS:])
        return told[:MOST_FORMS] + ([("others", rest)] if rest else [])

    def lines(self):
        """All of it, in lines."""
        yield self.line()
        if self.by_reason:
            told = [f"{word} {types:,} ({methods:,})" for word, types, methods in self.reasons()]
            yield f"types that are skipped, by reason (with their methods): {', '.join(told)}"
        if self.outside:
            told = [f"{words} {count:,}" for words, count in self.forms()]
            yield f"methods outside, by what alone is not read in them: {', '.join(told)}"


def grouped(words):
    """What alone is not read, by words of forms: a form, or several."""
    return "several forms" if ", " in words else words
