"""Warnings that the sources leave out, by an annotation on their class, their field or their method."""
from report_findings import owner_of
from report_types import known_types


def suppressions(report):
    """Each annotation of a report's sources that leaves warnings out: its type, which member it stands before, if it
    stands before one, and its text."""
    known = known_types(report)
    for one in known.types if known else []:
        if one.suppressed:
            yield one, "", one.suppressed
        for member, why in [*one.fields.items(), *one.methods.items()]:
            yield one, member, why


def is_left_out(one, member, method, path):
    """Whether a warning of a method, on a path, is one that stands under an annotation: of its class, of its method, or
    of the field that its path ends with, or what that field's container holds."""
    if owner_of(method) != one.name:
        return False
    own = method[len(one.name) + 1 :]
    fields = (f"this.{member}", f"{one.name}.{member}")
    return not member or own == member or path in fields or path in [f"{field}[]" for field in fields]


def place_of(report, one, member):
    """Where an annotation stands, in words."""
    return f"{report.under}{one.place()}: {one.name}{'.' + member if member else ''}"


class Suppressed:
    """What the sources of some reports leave out, and which of their annotations did so."""

    def __init__(self, reports):
        self.by_class, self.used, self.all = {}, set(), []
        for report in reports:
            for one, member, why in suppressions(report):
                found = (one, member, why, place_of(report, one, member))
                self.by_class.setdefault((report.package, one.name), []).append(found)
                self.all.append(found)

    def why(self, package, method, path):
        """The annotation that leaves a warning out, as its text; nothing where none does."""
        for one, member, why, place in self.by_class.get((package, owner_of(method)), ()):
            if is_left_out(one, member, method, path):
                self.used.add(place)
                return why
        return ""

    def stale(self):
        """The lines that tell annotations that leave nothing out."""
        return [f"{place}: nothing is left out by {why}" for _, _, why, place in self.all if place not in self.used]


def take_suppressed(reports):
    """Takes the warnings that the sources leave out from reports; these, each with its report and the annotation, and
    the lines on those that leave nothing out."""
    known, taken = Suppressed(reports), []
    for report in reports if known.all else []:
        if report.object is None:
            continue
        kept = []
        for warning in report.object["warnings"]:
            why = known.why(report.package, warning["method"], warning["path"])
            if why:
                taken.append((report, warning, why))
            else:
                kept.append(warning)
        report.object = {**report.object, "warnings": kept}
    return taken, known.stale()
