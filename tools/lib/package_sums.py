"""The sum of what racer said of the packages of a tree, for racer-packages."""
import collections
import os
import sys

from report_files import FACTS, Fault, read_json, read_manifest, read_package, refusal_text
from report_unseen import Reach
from script_main import say

# From the best to the worst; every other status is worse, and counts as 70.
ORDER = (0, 1, 5, 6, 4, 3)
MARKS = ("confirmed", "unnamed", "unstable", "unread", "long", "blocked")
REASONS = ("overload", "outside", "parameters", "locals", "operations", "recursive", "large")


def rank(status):
    """How bad a status is."""
    return ORDER.index(status) if status in ORDER else len(ORDER)


def worse(one, other):
    """The worse of two statuses."""
    return max(one, other, key=rank)


class Sum:
    """What is counted over packages."""

    def __init__(self):
        self.status = 0
        self.packages = collections.Counter()
        self.counts = collections.Counter()
        self.reasons = collections.Counter()
        self.marks = collections.Counter()
        self.unchecked, self.lines, self.reports = [], [], []

    def add(self, out, tree, package):
        """Adds what is there of a package."""
        if not os.path.exists(os.path.join(out, package, FACTS)):
            self.status = 70
            self.packages["failed"] += 1
            self.lines.append(f"{package}: not run")
            return
        facts = read_json(os.path.join(out, package, FACTS))
        status = facts["status"] if facts["status"] in ORDER else 70
        self.status = worse(self.status, status)
        report = read_package(out, tree, package)
        self.reports.append(report)
        self.counts["left out"] += len(report.left_out)
        self.lines += [f"{report.under}{name}{place}: left out: {why}" for name, place, why in report.left_out]
        self.packages[{0: "clean", 1: "warned", 5: "refused"}.get(status, "failed")] += 1
        if report.object is None:
            self.lines.append(refusal_text(report))
        else:
            self.add_report(report.object, facts["checked"], package)

    def add_report(self, report, checked, package):
        """Adds a report."""
        for name in ("files", "classes", "methods"):
            self.counts[name] += report[name]
        self.counts["checked"] += len(checked)
        self.reasons.update(left["reason"] for left in report["not_analysed"])
        self.marks.update(warning["mark"]["word"] for warning in report["warnings"])
        if not checked:
            self.unchecked.append(package)

    def text(self):
        """The lines that say the sum."""
        packages = ", ".join(f"{self.packages[word]} {word}" for word in ("clean", "warned", "refused", "failed"))
        reasons = ", ".join(f"{self.reasons[word]} {word}" for word in REASONS if self.reasons[word])
        marks = ", ".join(f"{self.marks[word]} {word}" for word in MARKS if self.marks[word])
        missing = sum(self.reasons.values())
        yield from Reach(self.reports).lines()
        yield f"packages {sum(self.packages.values())}: {packages}"
        yield f"files {self.counts['files']}, left out {self.counts['left out']}"
        checked = f"checked {self.counts['checked']}, packages without a checked class {len(self.unchecked)}"
        yield f"classes {self.counts['classes']}, {checked}"
        without = f", not analysed: {reasons}" if reasons else ""
        yield f"methods {self.counts['methods']}, analysed {self.counts['methods'] - missing}{without}"
        yield f"warnings {sum(self.marks.values())}" + (f": {marks}" if marks else "")
        yield from self.lines


def print_sum(out):
    """Prints the sum of a folder of results, and on standard error what has no checked class; the worst status."""
    manifest = read_manifest(out)
    found = Sum()
    try:
        for package in manifest["packages"]:
            found.add(out, manifest["tree"], package)
    except (KeyError, TypeError, AttributeError, ValueError) as fault:
        raise Fault(f"{out}: other files than those of racer-packages: {fault!r}") from fault
    say("".join(line + "\n" for line in found.text()))
    if found.unchecked:
        print("racer-packages: no checked class, so no warning can come, in", file=sys.stderr)
        print("".join(f"  {folder}\n" for folder in found.unchecked), end="", file=sys.stderr)
    return found.status
