"""The parts of a page on what was looked at and what was not: the overview, the folders, and what is not looked at."""
import collections

from page_html import chip, code, counted_words, folded, listed, many, number, safe
from page_pair import mark_kind, mark_rank
from report_fields import parts
from report_files import refusal_text
from report_unseen import Reach

# How many folders or files a list may have that is not folded.
SHORT = 12


class Unseen:
    """What is known of one report beside its warnings: its checked types, and those that have locks and are not
    checked. Nothing stands for what is not known."""

    def __init__(self, report, checked, unchecked):
        self.report, self.checked, self.unchecked = report, checked, unchecked

    def folder(self):
        """The folder of the report, for its readers."""
        return self.report.under.rstrip("/") or "."

    def answer(self):
        """What racer said, in a word."""
        if self.report.object is None:
            return "refused" if self.report.refusal.startswith("refused ") else "failed"
        return "warned" if self.report.object["warnings"] else "clean"

    def lacks_check(self):
        """Whether it is known that no class is checked."""
        return self.report.object is not None and self.checked is not None and not self.checked

    def count(self, name):
        """A count of the report."""
        return self.report.object[name] if self.report.object else 0

    def entries(self, name):
        """A list of the report."""
        return self.report.object[name] if self.report.object else []


def sum_of(known, name):
    """A count over all reports."""
    return sum(one.count(name) for one in known)


def by_reason(left):
    """The reasons why methods are not analysed, the most frequent first, each with how often."""
    return collections.Counter(one["reason"] for one in left).most_common()


def by_mark(known):
    """The marks of the warnings, the best first, each with how often."""
    found = collections.Counter(one["mark"]["word"] for each in known for one in each.entries("warnings"))
    return sorted(found.items(), key=lambda item: mark_rank(item[0]))


def tile(name, big, small):
    """One of the counts of the overview."""
    return f'<div><dt>{name}</dt><dd><b>{big}</b> <span class="dim">{small}</span></dd></div>\n'


def checked_tile(known):
    """How many classes are checked, as far as that is known."""
    told = [one for one in known if one.checked is not None]
    classes = sum_of(known, "classes")
    if not told:
        return tile("Classes checked", "?", f"not known, of {number(classes)}: the report does not tell")
    count = sum(len(one.checked) for one in told if one.report.object)
    rest = len(known) - len(told)
    unknown = f"; not known of {many(rest, 'report')}" if rest else ""
    return tile("Classes checked", number(count), f"of {number(classes)} that are read{unknown}")


def tiles(known, fields):
    """The counts of the overview."""
    left = [one for each in known for one in each.entries("not_analysed")]
    methods, left_out = sum_of(known, "methods"), sum(len(one.report.left_out) for one in known)
    marks = " ".join(chip(mark_kind(word), f"{number(count)} {word}") for word, count in by_mark(known))
    reasons = f"; not analysed: {counted_words((why, count) for why, count in by_reason(left))}" if left else ""
    out = f"{many(left_out, 'more file')} left out" if left_out else "none left out"
    yield tile("Files", number(sum_of(known, "files")), out)
    yield checked_tile(known)
    yield tile("Methods analysed", number(methods - len(left)), f"of {number(methods)}{reasons}")
    warnings = sum(len(one.entries("warnings")) for one in known)
    yield tile("Warnings", number(warnings), f"of {many(fields, 'field')} {marks}")


def alerts(known, snippets):
    """What a reader has to know before a page is worth anything: each as a text, and whether it is bad."""
    reports, unknown = len(known), sum(one.checked is None and one.report.object is not None for one in known)
    refused = sum(one.report.object is None for one in known)
    without = sum(one.lacks_check() for one in known)
    locks = sum(len(one.unchecked or ()) for one in known)
    if not sum_of(known, "files"):
        yield "No source was read, so nothing was checked.", True
    elif without and without + refused == reports:
        yield "Nothing was checked: none of these classes is one that racer checks, so no warning can come.", True
    elif without:
        which = f"{number(without)} of {many(reports, 'folder')}"
        yield f"No class is checked in {which}: no warning can come from there.", False
    if refused:
        yield f"Nothing is known of {number(refused)} of {many(reports, 'folder')}: refused, or not answered.", True
    if unknown:
        yield "How many classes are checked is not known where neither racer-packages nor sources tell it.", False
    if locks:
        yield f"{many(locks, 'type')} with locks that are not looked at.", False
    if snippets.missing:
        yield f"The sources of {many(len(snippets.missing), 'place')} are not at hand (--sources FOLDER).", False
    if snippets.changed:
        yield f"The sources of {many(len(snippets.changed), 'place')} were changed since the report was made.", True


def baseline_line(found):
    """What is changed since the baseline, in the words of racer-diff; nothing where there is none."""
    if not found:
        return ""
    counts = [sum(one) for one in zip(*(each.counts() for each in found))]
    words = zip(("introduced", "fixed", "hidden", "moved", "kept"), counts)
    return f"<p>Since the baseline: {', '.join(f'{word} {number(count)}' for word, count in words)}.</p>\n"


def overview(known, fields, snippets, changed):
    """The first part of the page."""
    reach = Reach([one.report for one in known])
    told = [f'<li class="{"bad" if is_bad else "so"}">{text}' for text, is_bad in alerts(known, snippets)]
    more = f'<ul class="alerts">{"".join(told)}<li class="so"><a href="#unseen">What was not looked at</a></ul>\n'
    return (
        '<section id="overview" aria-labelledby="overview-head"><h2 id="overview-head">Overview</h2>\n'
        f"<p><b>{safe(reach.line())}</b></p>\n"
        f'<dl class="tiles">\n{"".join(tiles(known, fields))}</dl>\n{baseline_line(changed)}{more}</section>\n'
    )


def folder_row(one):
    """A line of the table of folders."""
    checked = "?" if one.checked is None else number(len(one.checked)) if one.report.object else ""
    counts = [number(one.count("files")), number(one.count("classes")), checked, number(one.count("methods"))]
    counts += [number(len(one.entries("not_analysed"))), number(len(one.entries("warnings")))]
    shown = counts if one.report.object else [""] * len(counts)
    kind = "none" if one.lacks_check() else one.answer()
    word = "no class checked" if kind == "none" else kind
    cells = "".join(f'<td class="n">{text}' for text in shown)
    return f'<tr><th scope="row">{code(one.folder())}<td>{chip("a-" + kind, word)}{cells}\n'


def folders(known):
    """The table of folders."""
    heads = ("Folder", "Answer", "Files", "Classes", "Checked", "Methods", "Not analysed", "Warnings")
    head = "".join(f'<th scope="col"{" class=n" if i > 1 else ""}>{text}' for i, text in enumerate(heads))
    rows = "".join(folder_row(one) for one in known)
    caption = "<caption>Each folder that racer was given, and what it said of it</caption>"
    table = f"<table>{caption}\n<thead><tr>{head}\n<tbody>\n{rows}</table>"
    table = f'<div class="wide" tabindex="0" role="region" aria-label="Table of folders">{table}</div>\n'
    content = table if len(known) <= SHORT else folded(many(len(known), "folder"), table)
    head = '<section id="folders" aria-labelledby="folders-head"><h2 id="folders-head">Folders</h2>\n'
    return f"{head}{content}</section>\n"


def short_list(title, items, word):
    """A list with a title, folded where it is long; nothing where it is empty."""
    if not items:
        return ""
    made = listed(items)
    return f"<h3>{title}</h3>\n" + (made if len(items) <= SHORT else folded(many(len(items), word), made))


def unread_list(one):
    """The methods of a report that are not analysed, by class."""
    classes = {}
    for left in one.entries("not_analysed"):
        owner, name, count = parts(left["method"])
        file, _, place = left["place"].partition(".java:")
        told = f"{safe(name)}/{count} {safe(place)} {safe(left['reason'])}"
        classes.setdefault((owner, file + ".java"), []).append(told)
    items = [f"{code(owner)} <b>{safe(file)}</b>: {'; '.join(found)}" for (owner, file), found in classes.items()]
    left = one.entries("not_analysed")
    counts = f"{number(len(left))} of {many(one.count('methods'), 'method')}"
    return folded(f"{code(one.folder())}: {counts}, {counted_words(by_reason(left))}", listed(items, "close"))


def skipped_list(one):
    """The places of a report at which something is skipped, by file."""
    files = {}
    for place in one.entries("skipped"):
        file, _, at = place.partition(".java:")
        files.setdefault(file + ".java", []).append(safe(at))
    items = [f"<b>{safe(file)}</b>: {' '.join(found)}" for file, found in files.items()]
    return folded(f"{code(one.folder())}: {number(len(one.entries('skipped')))}", listed(items, "close"))


def unchecked_list(one):
    """The types of a report that have locks and are not checked, each with its reason."""
    items = [
        f"{code(each.name)} <b>{safe(each.file)}</b>:{each.line}:{each.column} {safe(text)}"
        for each, text in one.unchecked
    ]
    return folded(f"{code(one.folder())}: {number(len(items))}", listed(items, "close"))


def per_folder(title, note, known, entries, made):
    """What each folder has of one kind, folded; nothing where none has any."""
    found = [made(one) for one in known if entries(one)]
    if not found:
        return ""
    content, count = "".join(found), sum(len(entries(one)) for one in known)
    shown = content if len(found) <= SHORT else folded(f"{number(count)} in {many(len(found), 'folder')}", content)
    return f"<h3>{title}</h3>\n<p>{note}</p>\n{shown}"


# What each folder may have that is not looked at: the title, what it means, the entries, and how they are listed.
KINDS = (
    (
        "Types with locks that are not looked at",
        "No warning can come from those that are not checked; of the others every lock is a call of a library.",
        lambda one: one.unchecked or (),
        unchecked_list,
    ),
    (
        "Methods that are not analysed",
        "What they do to fields is not seen, neither by themselves nor through their callers.",
        lambda one: one.entries("not_analysed"),
        unread_list,
    ),
    (
        "Skipped",
        "Types and members that racer does not read; nothing is known of what stands in them.",
        lambda one: one.entries("skipped"),
        skipped_list,
    ),
)


def suppressed_list(suppressed):
    """What the sources leave out by an annotation, and the annotations that leave nothing out."""
    taken, stale = suppressed
    items = [
        f"{safe(report.under + warning['at'][-1])}: {safe(warning['kind'])} of {code(warning['path'])} in "
        f"{code(warning['method'])}: {safe(why)}"
        for report, warning, why in taken
    ]
    made = short_list("Left out by an annotation in the sources", items, "warning")
    return made + short_list("Annotations that leave nothing out", [safe(line) for line in stale], "annotation")


def reach_lists(known):
    """Which types are skipped, and what is not read in methods."""
    reach = Reach([one.report for one in known])
    skipped = [
        f"{safe(word)}: {many(types, 'type')}, {many(methods, 'method')}" for word, types, methods in reach.reasons()
    ]
    forms = [f"{safe(words)}: {many(count, 'method')}" for words, count in reach.forms()]
    made = short_list("Why types are skipped", skipped, "reason")
    return made + short_list("What alone is not read in methods that are outside", forms, "form")


def unseen(known, new, changed, suppressed):
    """The part on what was not looked at."""
    mark = {True: " " + chip("new", "new"), False: ""}
    silent = [one.report for one in known if one.report.object is None]
    refused = [safe(refusal_text(report)) + mark[id(report) in new] for report in silent]
    left = [
        f"{safe(one.report.under + name + place)}: {safe(why)}{mark[(id(one.report), name) in new]}"
        for one in known
        for name, place, why in one.report.left_out
    ]
    without = [code(one.folder()) for one in known if one.lacks_check()]
    made = short_list("Refused, or not answered", refused, "folder") + short_list("Files left out", left, "file")
    made += short_list("Folders without a checked class", without, "folder")
    gone = [f"{code(method)} {safe(package)}" for each in changed for package, method in each.unread]
    made += short_list("Not analysed any more, with warnings in the baseline", gone, "method")
    lost = [f"{code(name)} {safe(package)}" for each in changed for package, name in each.unchecked]
    made += short_list("Not checked any more", lost, "class") + suppressed_list(suppressed) + reach_lists(known)
    for title, note, entries, lines in KINDS:
        made += per_folder(title, note, known, entries, lines)
    told = made or "<p>Of what these reports tell, nothing was left.</p>\n"
    return (
        '<section id="unseen" aria-labelledby="unseen-head"><h2 id="unseen-head">Not looked at</h2>\n'
        "<p>Never looked at: what a constructor does, the elements of arrays and collections, what happens in "
        f"libraries, and whatever is named here.</p>\n{told}</section>\n"
    )
