"""Lines of sources around the places of reports, for a page."""
import os
import re
import urllib.parse

from page_html import safe
from report_files import joined, split_place
from report_turns import Turns

# How many lines stand before and behind the one that is meant, how long a line may be, and what is kept of one that
# is longer before the place that is meant.
AROUND = 2
LONGEST = 160
BEFORE = 60

WORD = re.compile(r"[^\W\d][\w$]*|\$[\w$]*|.", re.DOTALL)
INDENT = re.compile(r"[ \t]*")


class Snippets:
    """Pieces of source files, each read once; what is not at hand is counted. A place may be a link to where a host
    shows it."""

    def __init__(self, link=None):
        self.link, self.turns = link, Turns()
        self.files, self.pieces = {}, {}
        self.missing, self.changed = set(), set()

    def lines(self, path):
        """The lines of a file, which end as racer says: at CR LF, CR or LF. None where it can't be read."""
        if path not in self.files:
            try:
                with open(path, "rb") as file:
                    self.files[path] = file.read().splitlines()
            except (OSError, ValueError):
                self.files[path] = None
        return self.files[path]

    def at(self, report, place):
        """A place, as it is told."""
        if not self.link:
            return f'<span class="at">{safe(place)}</span>'
        file, line, _ = split_place(place)
        name = urllib.parse.quote(os.fsencode(report.under + file))
        found = {"%f": name, "%l": str(line), "%%": "%"}
        address = re.sub("%[fl%]", lambda one: found[one[0]], self.link)
        return f'<a class="at" href="{safe(address)}">{safe(place)}</a>'

    def piece(self, report, place, name=None):
        """Some lines around a place as HTML, nothing where they are not at hand; the name is one that stands there."""
        key = (report.sources, place, name)
        if key not in self.pieces:
            self.pieces[key] = self.new_piece(report, place, name)
        return self.pieces[key]

    def new_piece(self, report, place, name):
        """Some lines around a place as HTML, and a word where they are not those that the report was made of."""
        file, number, column = split_place(place)
        lines = self.lines(joined(report.sources, file)) if report.sources and is_inside(file) else None
        if lines is None:
            self.missing.add((report.under, place))
            return ""
        at = word_at(lines, number, column)
        if not at or (name is not None and at != name):
            self.changed.add((report.under, place))
            told = "This is no line of the source at hand" if not at else "The source at hand has another name there"
            return f'<p class="gone">{told}: it was changed since the report was made.</p>'
        return numbered(lines, number, column)


def is_inside(file):
    """Whether a file is one that racer reads in its folder: what else a report names is not shown."""
    return file.endswith(".java") and not file.startswith("/") and ".." not in file.split("/")


def word_at(lines, number, column):
    """The name or other character at a place; nothing where there is no such place."""
    if not 1 <= number <= len(lines) or column < 1:
        return ""
    found = WORD.match(lines[number - 1][column - 1 :].decode("utf-8", "replace"))
    return found[0] if found else ""


def numbered(lines, number, column):
    """Some lines around a place as a numbered list, with the line and the word that are meant marked."""
    first, last = max(1, number - AROUND), min(len(lines), number + AROUND)
    while first < number and not lines[first - 1].strip():
        first += 1
    while last > number and not lines[last - 1].strip():
        last -= 1
    texts = [lines[i - 1].decode("utf-8", "replace") for i in range(first, last + 1)]
    indent = len(os.path.commonprefix([INDENT.match(text)[0] for text in texts if text.strip()]))
    before = len(lines[number - 1][: column - 1].decode("utf-8", "replace"))
    items = [
        marked(text[indent:], before - indent) if i == number else clipped(text[indent:])
        for i, text in enumerate(texts, first)
    ]
    return f'<ol class="src" start="{first}"><li>' + "<li>".join(items) + "</ol>"


def clipped(text):
    """A line, cut where it is long."""
    return safe(text.rstrip() if len(text) <= LONGEST else text[:LONGEST] + "\u2026")


def marked(text, at):
    """A line that is meant, cut around a place where it is long, with the word there marked."""
    begin = max(0, at - BEFORE) if len(text) > LONGEST else 0
    end = max(begin + LONGEST, at + 1)
    word = WORD.match(text, at)[0][: LONGEST - BEFORE]
    rest = text[at + len(word) : end]
    front = ("\u2026" if begin else "") + text[begin:at]
    back = rest.rstrip() if end >= len(text) else rest + "\u2026"
    return f"<mark>{safe(front)}<b>{safe(word)}</b>{safe(back)}</mark>"
