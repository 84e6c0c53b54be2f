"""The whole of a page, from its head to how to read it; the table of fields and the part of each."""
import base64
import hashlib
import os

from page_html import chip, code, folder, many, number, safe
from page_pair import WHY, mark_kind, mark_rank, pair_html, pairs_of
from page_unseen import folders, overview, unseen
from report_fields import GROUPS

# How many fields of one cause are named in a line.
MOST_PATHS = 6

HEADS = ("Class", "Field", "Warnings", "Methods", "Locked", "Best mark", "New")


def beside(name):
    """The text of a file that stands beside this script."""
    with open(os.path.join(os.path.dirname(os.path.realpath(__file__)), name), encoding="utf-8") as file:
        return file.read()


def digest(text):
    """What a page allows its own style and script by."""
    return "'sha256-" + base64.b64encode(hashlib.sha256(text.encode()).digest()).decode() + "'"


class Row:
    """A line of the table: a field, or all fields of one cause."""

    def __init__(self, finding, new):
        self.place, self.finding, self.field = 0, finding, finding.first()
        self.note = GROUPS[finding.kind]
        self.warnings = finding.warnings()
        self.marks = sorted({warning["mark"]["word"] for warning in self.warnings}, key=mark_rank)
        self.methods = len({side[0] for field in finding.fields for side in field.accesses})
        self.new = sum(id(warning) in new for warning in self.warnings)
        self.locked = "somewhere" if any(field.is_locked_somewhere() for field in finding.fields) else "never"

    def kinds(self):
        """The classes of the style and of the filter."""
        return " ".join([f"m-{mark_kind(word)}" for word in self.marks] + [self.locked] + ["is-new"] * (self.new > 0))

    def paths(self):
        """The paths of the fields, of many the first."""
        fields = self.finding.fields
        told = ", ".join(code(field.path) for field in fields[:MOST_PATHS])
        return told + (f" and {many(len(fields) - MOST_PATHS, 'more field')}" if len(fields) > MOST_PATHS else "")

    def cause(self):
        """What the fields share, where these are several."""
        if len(self.finding.fields) == 1:
            return ""
        return f"one method without a lock: {safe(self.finding.cause[2])}"


def field_row(row, has_baseline):
    """A line of the table of fields."""
    field, place = row.field, row.place
    notes = [note for note in (row.cause(), row.note) if note]
    note = f' <span class="dim">{"; ".join(notes)}</span>' if notes else ""
    cells = [
        f'<tr role="row" id="r{place}" class="{row.kinds()}">',
        f'<th role="rowheader" scope="row">{code(field.owner)} {folder(field.report.under)}',
        f'<td role="cell"><a href="#f{place}">{row.paths()}</a>{note}',
        f'<td role="cell" class="n">{number(len(row.warnings))}<td role="cell" class="n">{number(row.methods)}',
        f'<td role="cell">{chip(row.locked, row.locked)}',
        f'<td role="cell">{chip(mark_kind(row.marks[0]), row.marks[0])}',
    ]
    return "".join(cells) + (f'<td role="cell" class="n">{number(row.new)}' if has_baseline else "") + "\n"


def filters(rows, has_baseline):
    """The filters, which stand there where the script runs."""
    words = sorted({word for row in rows for word in row.marks}, key=mark_rank)
    marks = "".join(f'<option value="{mark_kind(word)}">{safe(word)}' for word in words)
    new = '<label><input type="checkbox" id="by-new"> new only</label>\n' if has_baseline else ""
    return (
        '<form id="filters" hidden aria-label="Filters">\n'
        '<label>Class, field or folder '
        '<input type="search" id="by-name" autocomplete="off" spellcheck="false"></label>\n'
        f'<label>Mark <select id="by-mark"><option value="">any{marks}</select></label>\n'
        '<label>Locked <select id="by-lock"><option value="">any<option>somewhere<option>never</select></label>\n'
        f'{new}<button type="reset">All fields</button> <span id="shown" role="status"></span></form>\n'
        '<p id="none" hidden>No field has all that the filters ask for.</p>\n'
    )


def table(rows, has_baseline):
    """The part with the table of fields."""
    head = '<section id="fields" aria-labelledby="fields-head"><h2 id="fields-head">Fields with warnings</h2>\n'
    if not rows:
        return head + "<p>There is no warning. What was not looked at stands below.</p></section>\n"
    heads = HEADS if has_baseline else HEADS[:-1]
    cells = "".join(
        f'<th role="columnheader" scope="col"{" class=n" if name in ("Warnings", "Methods", "New") else ""}>{name}'
        for name in heads
    )
    first = "what is new, then " if has_baseline else ""
    told = f"What to look at first stands on top: {first}fields that are locked somewhere, then the best mark"
    body = "".join(field_row(row, has_baseline) for row in rows)
    return (
        f'{head}{filters(rows, has_baseline)}<table role="table" class="fields"><caption>{told}</caption>\n'
        f'<thead role="rowgroup"><tr role="row">{cells}\n<tbody role="rowgroup" id="rows">\n{body}</table></section>\n'
    )


def one_field(field, snippets, numbers, new, is_one):
    """What is known of the accesses of a field, and each pair that can meet."""
    pairs = "".join(pair_html(field, pair, snippets, numbers, new) for pair in pairs_of(field))
    head = "" if is_one else f"<p><b>{code(field.path)}</b>: "
    return f"{head or '<p>'}{safe(field.facts())}.</p>\n{pairs}"


def field_part(row, snippets, numbers, new):
    """The part of a line of the table: what is known of its fields."""
    fields, place = row.finding.fields, row.place
    told = f"{many(len(row.warnings), 'warning')}, {many(row.methods, 'method')}, locked {row.locked}"
    mark = chip(mark_kind(row.marks[0]), row.marks[0]) + (" " + chip("new", f"{row.new} new") if row.new else "")
    head = f"<h3>{row.paths()} of {code(row.field.owner)}</h3> <span>{told} {mark}</span>"
    made = "".join(one_field(field, snippets, numbers, new, len(fields) == 1) for field in fields)
    back = f'<p><a href="#r{place}">Back to the table</a></p>\n'
    cause = f"<p>{row.cause()}.</p>\n" if row.cause() else ""
    inside = f'<div class="inside">{back}{cause}{made}</div>'
    under = folder(row.field.report.under)
    return f'<details class="field" id="f{place}"><summary>{head} {under}</summary>\n{inside}</details>\n'


def warnings(rows, snippets, numbers, new):
    """The parts of all fields."""
    made = "".join(field_part(row, snippets, numbers, new) for row in rows)
    buttons = (
        '<p id="folding" hidden><button type="button" id="open-all">Open all that are shown</button> '
        '<button type="button" id="close-all">Close all</button></p>\n'
    )
    head = '<section id="warnings" aria-labelledby="warnings-head">\n'
    head += '<h2 id="warnings-head">Warnings, field by field</h2>\n'
    return head + buttons + made + "</section>\n" if rows else ""


def reading():
    """How to read the page."""
    told = [(code(word), safe(why.replace("`", "")), safe(what)) for word, (why, what) in WHY.items()]
    marks = "".join(f'<tr><th scope="row">{word}<td>{why}<td>{what}\n' for word, why, what in told)
    return beside("page_reading.html").replace("<!-- marks -->\n", marks)


def head_html(title, style, script):
    """The head of the page. It allows itself its own style and script, and nothing else."""
    own = f"style-src {digest(style)}; script-src {digest(script)}"
    rules = f"default-src 'none'; img-src data:; {own}; base-uri 'none'; form-action 'none'"
    return (
        '<!DOCTYPE html>\n<html lang="en">\n<head>\n<meta charset="utf-8">\n'
        f'<meta http-equiv="Content-Security-Policy" content="{rules}">\n'
        '<meta name="viewport" content="width=device-width, initial-scale=1">\n'
        '<meta name="color-scheme" content="light dark">\n'
        f'<title>{safe(title)}</title>\n<link rel="icon" href="data:,">\n<style>{style}</style>\n</head>\n'
    )


def jumps(rows):
    """The links to the parts of the page."""
    names = [("overview", "Overview"), ("fields", "Fields"), ("warnings", "Warnings"), ("folders", "Folders")]
    names += [("unseen", "Not looked at"), ("reading", "How to read this")]
    links = " ".join(f'<a href="#{name}">{text}</a>' for name, text in names if rows or name != "warnings")
    return f'<nav aria-label="Parts of this page">{links}</nav>'


def whole(title, known, rows, snippets, numbers, new, changed, suppressed):
    """All of the page. The parts of the fields are made first, so that it is known whether their sources are there."""
    style, script = beside("page.css"), beside("page.js")
    count, fields = sum(len(row.warnings) for row in rows), sum(len(row.finding.fields) for row in rows)
    parts = warnings(rows, snippets, numbers, new)
    return (
        f'{head_html(f"racer: {title}, " + many(count, "warning"), style, script)}<body>\n'
        f'<a class="skip" href="#fields">To the fields</a>\n<header><h1>racer: {code(title)}</h1>\n'
        f'{jumps(rows)}</header>\n'
        f'<main id="main">\n{overview(known, fields, snippets, changed)}{table(rows, bool(changed))}'
        f"<script>{script}</script>\n{parts}{folders(known)}"
        f"{unseen(known, new, changed, suppressed)}{reading()}</main>\n"
        "<footer><p>Made by tools/racer-html from reports of racer.</p></footer>\n</body>\n</html>\n"
    )
