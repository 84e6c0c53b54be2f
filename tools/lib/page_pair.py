"""A pair of accesses for a page: a column for each thread, and between them the run of both, or why there is none."""
import itertools

from page_drawing import drawing
from page_html import chip, code, folded, listed, many, safe
from report_fields import MARKS, parts
from report_files import Fault
from report_marks import mark_note
from report_turns import contradicting, turn_text

# Why a warning is not confirmed, in the words of docs/WARNINGS.md, and what to do first.
WHY = {
    "unnamed": ("racer did not follow which object it is", "reach the object by a field, or look for yourself"),
    "unstable": (
        "the object on the way may be another one by then",
        "make that field final, or look for yourself",
    ),
    "unstable this": (
        "`this` was stored in a field, lost where two values meet, or given to a method that does so",
        "read it as a warning without a mark",
    ),
    "unread": ("a method on the way is not analysed", "make that method readable"),
    "long": ("the way has more than 65,536 steps", "look for yourself"),
    "blocked": (
        "the only schedule that is tried stops before the access",
        "look at the place at which it stops",
    ),
}

UNKNOWN = ("this page does not know the mark", "")

# How many groups of equal turns are told.
MOST_TURNS = 24


class Pair:
    """Two accesses that can meet: the warning that tells them, and those that tell them from the other side."""

    def __init__(self, warning):
        self.warning, self.others = warning, []

    def all(self):
        """The warnings."""
        return [self.warning, *self.others]

    def marks(self):
        """Their marks, each once, the best first."""
        return sorted({warning["mark"]["word"] for warning in self.all()}, key=mark_rank)


def mark_rank(word):
    """Where a mark stands among the others."""
    return (MARKS.index(word), "") if word in MARKS else (len(MARKS), word)


def mark_kind(word):
    """The class of the style for a mark: no text of a report is one."""
    return word if word in MARKS else "other"


def side_key(side):
    """What tells an access from others."""
    return side["method"], side["kind"], tuple(side["at"]), side["locked"], side["main"], side["path"]


def pairs_of(field):
    """The pairs of a field, the best mark first, and else in the order of the report."""
    found = {}
    for warning in field.warnings:
        one, other = side_key(warning), side_key(warning["with"])
        if (other, one) in found and one != other:
            found[(other, one)].others.append(warning)
        elif (one, other) in found:
            found[(one, other)].others.append(warning)
        else:
            found[(one, other)] = Pair(warning)
    return sorted(found.values(), key=lambda pair: mark_rank(pair.marks()[0]))


def method_text(side, owner):
    """A method, with its class where that is another than the field's."""
    own, name, count = parts(side["method"])
    return code(f"{name}/{count}" if own == owner else side["method"])


def lock_chips(side):
    """Whether an access is locked, and on the main thread."""
    lock = chip("locked", "under a lock") if side["locked"] else chip("bare", "no lock")
    return lock + (" " + chip("main", "main thread") if side["main"] else "")


def place_html(report, place, told, snippets, name=None):
    """A place, what is done there, and the lines around it."""
    return f'<p class="place">{told} {snippets.at(report, place)}</p>{snippets.piece(report, place, name)}\n'


def column(field, side, thread, snippets):
    """The places of a thread, from its entry down to the access."""
    report, name = field.report, side["path"].rpartition(".")[2]
    # What a container holds is touched by a call: the name of the method stands at the place.
    name = None if name.endswith("[]") else name
    places = side["at"]
    made = [place_html(report, place, "calls at" if i else "enters, calls at", snippets) for i, place in
            enumerate(places[:-1])]
    told = f"<b>{safe(side['kind'])}s</b> {code(side['path'])} at"
    made.append(place_html(report, places[-1], told, snippets, name))
    head = f"Thread {thread}: {method_text(side, field.owner)} {lock_chips(side)}"
    group = f'<div class="side t{thread}" role="group" aria-label="Thread {thread}">'
    return f'{group}<h5>{head}</h5>\n{"".join(made)}</div>\n'


def turns_text(turns):
    """The turns of a leg: letters, with how often each stands there in a row."""
    if not turns:
        return "no turns"
    groups = [(letter, len(list(found))) for letter, found in itertools.groupby(turns)]
    told = " ".join(letter if count == 1 else f"{letter}\u00d7{count:,}" for letter, count in groups[:MOST_TURNS])
    more = f" and {many(len(turns) - sum(count for _, count in groups[:MOST_TURNS]), 'more turn')}"
    word = "turn" if len(turns) == 1 else "turns"
    return f"{word} {code(told)}" + (more if len(groups) > MOST_TURNS else "")


def legs_of(mark):
    """The legs of a confirmed mark, each as its thread, its steps and its turns; none where it has no witness."""
    witness = mark.get("witness")
    legs = [(leg["thread"], leg["steps"], leg["turns"]) for leg in witness["legs"]] if witness else []
    good = [leg[0] in (0, 1) and isinstance(leg[1], int) and isinstance(leg[2], str) for leg in legs]
    if not all(good) or len(legs) not in (0, 2):
        raise Fault("no report of racer --json: a witness has other legs than racer writes")
    return legs


def turns_html(field, warning, thread, snippets):
    """The turns of a thread in the warning's own run, each with its condition, where the sources tell them."""
    legs = warning["mark"]["witness"]["legs"]
    found = snippets.turns.of_leg(field.report, warning, next(leg for leg in legs if leg["thread"] == thread))
    items = [
        f"{code(turn.letter)} {snippets.at(field.report, snippets.turns.place(field.report, turn))} "
        f"{safe(turn_text(turn))}"
        for turn in (found or ())[:MOST_TURNS]
    ]
    more = len(found or ()) - len(items)
    items += [f"and {many(more, 'more turn')}"] if more > 0 else []
    against = "<p>These turns contradict one another: <code>racer-witness --agree</code> tries others.</p>\n"
    return (listed(items, "turns") if items else "") + (against if contradicting(found) else "")


def legs_html(legs, warning, field=None, snippets=None):
    """The run, leg by leg in its order: the warning tells the accesses of thread 0 and thread 1. With its field each
    turn is told with its condition."""
    sides = (warning, warning["with"])
    items = []
    for (thread, steps, turns), word in zip(legs, ("First", "Then")):
        told = f"<b>{word} thread {thread}</b> runs alone: {many(steps, 'step')}, {turns_text(turns)}. "
        own = turns_html(field, warning, thread, snippets) if turns and field else ""
        items.append(f'<li class="t{thread}">{told}It stands right before its {safe(sides[thread]["kind"])}.{own}')
    items.append('<li class="both"><b>Now both</b>: the next steps touch one cell, whichever goes first.')
    return f'<ol class="legs">{"".join(items)}</ol>\n'


def run_html(field, pair, snippets):
    """The run of a confirmed warning: its legs, and a drawing of the objects that it begins with."""
    warning = pair.warning
    legs, witness = legs_of(warning["mark"]), warning["mark"].get("witness")
    if not legs:
        return "<h5>Confirmed</h5><p>The report is of an older racer, which wrote no run: make it anew.</p>"
    kinds = [f"{side['kind']}s" for side in (warning, warning["with"])]
    objects = [str(path) for path in witness["objects"]]
    made = "<h5>A run that ends before both</h5>\n" + legs_html(legs, warning, field, snippets)
    return made + drawing(field.owner, warning["path"], objects, kinds) + "\n"


def why_html(field, mark, snippets):
    """Why a warning is not confirmed, and where."""
    word, path, place = mark["word"], mark.get("path"), mark.get("place")
    why, what = WHY.get("unstable this" if (word, path) == ("unstable", "this") else word, UNKNOWN)
    told, where = safe(why.replace("`", "")), []
    if path is not None:
        where.append(f'<p class="place">The path is {code(path)}.</p>')
    if mark.get("steps") is not None:
        where.append(f"<p>It has {many(mark['steps'], 'step')}.</p>")
    if place is not None:
        note = mark_note(field.report, mark)
        where += [f"<p>{safe(note[2:])}.</p>"] if note else []
        thread = f"Thread {mark['thread']} stops at" if "thread" in mark else "The call is at"
        where.append(place_html(field.report, place, safe(thread), snippets))
    first = f"<p>What to do first: {safe(what)}.</p>" if what else ""
    return f"<h5>Not confirmed: {safe(word)}</h5><p>Because {told}.</p>{''.join(where)}{first}\n"


def swapped(legs):
    """Legs of the warning from the other side, with the threads numbered as on this one."""
    return [(1 - thread, steps, turns) for thread, steps, turns in legs]


def other_html(field, pair, other, snippets):
    """What a warning that tells the same pair adds to the first."""
    mark, legs = other["mark"], legs_of(other["mark"])
    if mark["word"] != "confirmed":
        return "" if mark == pair.warning["mark"] else why_html(field, mark, snippets)
    turned = legs if side_key(other) == side_key(pair.warning) else swapped(legs)
    if not legs or turned == legs_of(pair.warning["mark"]):
        return ""
    return folded("Another run, told from the other side", legs_html(turned, pair.warning), "again")


def numbers_html(field, pair, numbers):
    """Which warnings of the report these are, and which of its witnesses they have, with the command that cuts one."""
    told, witnesses = [], []
    for warning in pair.all():
        index, witness = numbers[id(warning)]
        told.append(f"warning {index}" + (f" (witness {witness})" if witness else ""))
        witnesses += [witness] if witness else []
    made = f'<p class="dim which">{" and ".join(told)} of the report'
    if witnesses and field.report.words:
        made += f": {code(f'tools/racer-witness {field.report.words} {witnesses[0]}')}"
    return f"{made}</p>"


def pair_html(field, pair, snippets, numbers, new):
    """A pair: two columns, and what stands between them."""
    warning, partner = pair.warning, pair.warning["with"]
    sides = [f"{safe(side['kind'])} in {method_text(side, field.owner)}" for side in (warning, partner)]
    marks = " ".join(chip(mark_kind(word), word) for word in pair.marks())
    is_new = any(id(one) in new for one in pair.all())
    kinds = " ".join(["pair", *(f"m-{mark_kind(word)}" for word in pair.marks()), *(["is-new"] if is_new else [])])
    head = f"<h4>{sides[0]} meets {sides[1]} {marks}{' ' + chip('new', 'new') if is_new else ''}</h4>\n"
    shown = warning["mark"]["word"] == "confirmed"
    middle = run_html(field, pair, snippets) if shown else why_html(field, warning["mark"], snippets)
    middle += "".join(other_html(field, pair, other, snippets) for other in pair.others)
    between = f'<div class="run" role="group" aria-label="The run">{middle}{numbers_html(field, pair, numbers)}</div>\n'
    columns = [column(field, side, thread, snippets) for thread, side in enumerate((warning, partner))]
    return f'<article class="{kinds}">{head}<div class="two">\n{columns[0]}{between}{columns[1]}</div></article>\n'
