"""What a mark says beyond its word, in words of the sources: the method that is not read, and what is null."""
import functools

from java_outline import NAME, Outline, types_of
from report_fields import parts
from report_files import joined, split_place
from report_types import offset


@functools.lru_cache(maxsize=64)
def outline_of(path):
    """The outline of a file; nothing where it can't be read."""
    try:
        with open(path, "rb") as file:
            return Outline(file.read())
    except OSError:
        return None


@functools.lru_cache(maxsize=64)
def forms_of_file(path):
    """The forms of each method of a file that are not read, by the place of the method's name."""
    outline = outline_of(path)
    return {method.place: method.forms for one in types_of(outline) for method in one.methods} if outline else {}


def token_at(report, place):
    """The outline of the file of a place, and which token stands there; nothing where that is not known."""
    name, line, column = split_place(place)
    outline = outline_of(joined(report.sources, name)) if report.sources else None
    at = offset(outline.data, line, column) if outline else -1
    return (outline, outline.places.index(at)) if outline and at in outline.places else (None, 0)


def why_unread(report, left):
    """Why a method is not analysed, with the forms that are not read where it is `outside`."""
    name, line, column = split_place(left["place"])
    if left["reason"] != "outside" or not report.sources:
        return left["reason"]
    path = joined(report.sources, name)
    outline = outline_of(path)
    forms = forms_of_file(path).get(offset(outline.data, line, column)) if outline else None
    return f"outside, for {', '.join(forms)}" if forms else "outside"


def called(report, place):
    """The methods that are not analysed and may be the one that is called at a place, each with the reason."""
    outline, i = token_at(report, place)
    if outline is None or i + 1 >= len(outline.tokens):
        return []
    name = outline.tokens[i].decode("utf-8", "replace")
    opened = i + 1 if outline.tokens[i + 1] == b"(" else i
    if outline.tokens[i] == b"new":
        name, opened = "<new>", next((k for k in range(i, len(outline.tokens)) if outline.tokens[k] == b"("), i)
    count = outline.commas(opened, outline.partners.get(opened, opened))
    found = [left for left in report.object["not_analysed"] if parts(left["method"])[1:] == (name, count)]
    return [f"{left['method']} ({why_unread(report, left)})" for left in found]


def begin_of(outline, i):
    """Where the expression begins that ends at a token: names, calls and elements, with points between."""
    closing = {k: m for m, k in outline.partners.items()}
    while i > 0:
        if outline.tokens[i] in (b")", b"]"):
            i = closing.get(i, i) - 1
            if not NAME.fullmatch(outline.tokens[i]) and outline.tokens[i] not in (b")", b"]"):
                return i + 1
        elif outline.tokens[i - 1] == b".":
            i -= 2
        else:
            return i
    return 0


def null_at(report, place):
    """What is null at a place, or from outside, as its text; nothing where that is not known."""
    outline, i = token_at(report, place)
    if outline is None:
        return ""
    first, last = 0, -1
    if outline.tokens[i - 1] == b"." and i > 1:
        first, last = begin_of(outline, i - 2), i - 2
    elif outline.tokens[i] == b"synchronized" and outline.tokens[i + 1] == b"(":
        first, last = i + 2, outline.partners[i + 1] - 1
    told = outline.data[outline.places[first] : outline.places[last] + len(outline.tokens[last])] if last >= 0 else b""
    return " ".join(told.decode("utf-8", "replace").split())


def throws_at(report, place):
    """Whether a `throw` stands at a place."""
    outline, i = token_at(report, place)
    return outline is not None and outline.tokens[i] == b"throw"


def mark_note(report, mark):
    """What a mark says beyond its word, to be put behind it; nothing where no more is known."""
    place = mark.get("place")
    if place is None:
        return ""
    if mark["word"] == "unread":
        found = called(report, place)
        return f": {' or '.join(found)} is not read" if 0 < len(found) <= 3 else ""
    if mark["word"] == "blocked" and throws_at(report, place):
        return ": each way on throws there"
    null = null_at(report, place)
    return f": {null} is null there, or from outside" if null else ""
