"""Follows a thread through the methods of a folder by its turns, and tells each turn's condition with its place.

It reads what racer reads, by brackets and operators. It tells nothing where it does not come by the access: so what is
told of turns is what the sources say, and is proved by nothing.
"""
import dataclasses
import re

from java_folder import simple_type
from java_outline import CLOSING, NAME
from java_statements import code_of, declared_name

ASSIGNMENTS = set(b"= += -= *= /= %= &= |= ^=".split())
BINARY = set(b"== != < > <= >= + - * / % & | ^ instanceof".split())


def begins(token):
    """Whether an expression begins with a token, so that parentheses before it are a cast."""
    return token in (b"(", b"!", b"~") or (token != b"instanceof" and re.match(rb"[\w$\x80-\xff\"']", token))


@dataclasses.dataclass
class Turn:
    """A turn: its letter, what it is at, where its condition stands, as file and byte, its text, whether it says that
    the condition holds, whether the turns in the condition agree, what tells it from others, and what else it says."""

    letter: str
    kind: str
    file: str
    place: int
    text: str
    holds: bool
    agrees: bool
    key: tuple
    told: str = ""


@dataclasses.dataclass
class Plan:
    """Turns that are wanted: the letters, by what tells the turns from others, which conditions hold, and the last."""

    letters: dict
    holds: dict
    last: tuple


class Stop(Exception):
    """All turns are taken."""


class Returned(Exception):
    """The method returns."""


class Lost(Exception):
    """What comes next is not known."""


class Frame:
    """A method that a thread is in: its class, the types of its variables, and the calls that led here."""

    def __init__(self, owner, names, calls):
        self.owner, self.names, self.calls = owner, dict(names), calls
        self.tokens, self.partners = owner.outline.tokens, owner.outline.partners
        self.tests = {}


class Walk:
    """A walk from the entry of a method, by letters or by what stands in a plan."""

    def __init__(self, classes, letters, plan=None):
        self.classes, self.letters, self.plan = classes, list(letters), plan
        self.turns, self.passed, self.visits, self.holds = [], set(), {}, {}

    def key(self, frame, i):
        """What tells the next turn at a token from all others."""
        own = (frame.calls, frame.owner.file, i)
        self.visits[own] = self.visits.get(own, 0) + 1
        return (*own, self.visits[own])

    def wanted(self, key):
        """Whether the plan has a condition hold; nothing where there is no plan."""
        return None if self.plan is None else self.plan.holds.get(key)

    def next_letter(self, key, forced):
        """The letter of the next turn."""
        if self.plan is None:
            if len(self.turns) == len(self.letters):
                raise Stop
            return self.letters[len(self.turns)]
        if self.turns and self.turns[-1].key == self.plan.last:
            raise Stop
        return forced or self.plan.letters.get(key, "R")

    def turn(self, frame, kind, i, j, key, forced=None):
        """Takes a turn at a condition; its letter."""
        letter = self.next_letter(key, forced)
        outline = frame.owner.outline
        first, last = outline.places[i], outline.places[j - 1] + len(frame.tokens[j - 1])
        text = " ".join(outline.data[first:last].decode("utf-8", "replace").split())
        holds = (letter == "L") != (kind == "||")
        self.turns.append(Turn(letter, kind, frame.owner.file, first, text, holds, True, key))
        self.passed = set()
        return letter

    def settled(self, test, holds):
        """Notes that a condition holds or not, whose turns may say the other."""
        key, truth = test
        self.holds[key] = holds
        if truth not in (None, holds) and self.turns:
            self.turns[-1].agrees = False

    def enter(self, owner, key, calls):
        """Walks through a method; the class of its result, where that is one of the folder."""
        body = owner.methods.get(key)
        if body is None and key == ("<new>", 0):
            return self.initialise(owner, calls)
        if body is None:
            return None
        if body.is_closed or len(calls) > 200:
            raise Lost
        if key[0] == "<new>":
            self.initialise(owner, calls)
        try:
            self.code(Frame(owner, body.names, calls), body.code(owner.outline))
        except Returned:
            pass
        return body.result

    def initialise(self, owner, calls):
        """Walks through the initialisers of the fields of a new object."""
        for i, j in owner.initial:
            self.expression(Frame(owner, {}, calls), i, j)
        return owner.name

    # Statements.

    def code(self, frame, parts):
        """Walks through parts one after another."""
        for part in parts:
            if part.form == "run":
                self.items(frame, part.first, part.end)
            elif part.form == "declare":
                self.declared(frame, part.first, part.end)
            elif part.form == "element":
                name = frame.tokens[part.end - 1].decode("utf-8", "replace")
                frame.names[name] = simple_type(frame.tokens[part.first : part.first + 1])
            elif part.form == "test":
                key = self.key(frame, part.at)
                truth = self.expression(frame, part.first, part.end, self.wanted(key))[1]
                frame.tests[part.at] = key, truth
            elif part.form == "known":
                self.known(frame, part)
            elif part.form == "choice":
                self.choice(frame, part)
            elif part.form == "loop":
                self.loop(frame, part)
            elif part.form == "split":
                self.split(frame, part)
            elif part.form == "ret":
                raise Returned
            elif part.form == "throw":
                raise Lost

    def test_at(self, frame, at):
        """The condition that was looked at last, and what the turns in it say of it."""
        found = frame.tests.pop(at, None)
        return (self.key(frame, at), None) if found is None else found

    def known(self, frame, part):
        """A choice that is settled."""
        if part.word == "if":
            self.settled(self.test_at(frame, part.at), part.side)

    def choice(self, frame, part):
        """A choice: an `if`, or one that has no condition."""
        test = self.test_at(frame, part.at)
        is_left = self.turn(frame, part.word, part.first, part.end, test[0]) == "L"
        if part.word == "told":
            self.turns[-1].told = part.told[not is_left]
        else:
            self.settled(test, is_left)
        self.code(frame, part.left if is_left else part.right)

    def loop(self, frame, part):
        """Rounds of a loop."""
        kind = frame.tokens[part.at].decode()
        while True:
            test = self.test_at(frame, part.at)
            key = (*test[0], "round") if part.word == "may end by a jump" else test[0]
            is_left = self.turn(frame, kind, part.first, part.end, key) == "L"
            if is_left or part.word != "may end by a jump":
                self.settled(test, is_left or bool(part.word))
            else:
                frame.tests[part.at] = test
            if not is_left:
                self.last_round(kind, part.word)
                return
            self.code(frame, part.left)

    def last_round(self, kind, word):
        """Says of the last turn that a loop has no more whole rounds, where one may come that a jump ends."""
        if word:
            self.turns[-1].told = f"{kind} ({self.turns[-1].text}): no more whole round; the next one {word}"

    def split(self, frame, part):
        """A choice between paths that a jump ends and others."""
        if part.end:
            self.last(frame, part)
            return
        heads = [side[0] if side and side[0].form == "known" else None for side in (part.left, part.right)]
        if all(heads) and heads[0].at == heads[1].at and heads[0].at in frame.tests:
            self.condition(frame, part, heads[0])
            return
        jump = jump_in(part.left)
        if jump is None:
            raise Lost
        end = self.find(frame, jump.at, len(frame.tokens), (b";",))
        is_left = self.turn(frame, "jump", jump.at, end, self.key(frame, jump.at)) == "L"
        self.turns[-1].told = f"{self.turns[-1].text}: {'is taken' if is_left else 'is not taken'}"
        self.code(frame, part.left if is_left else part.right)

    def condition(self, frame, part, head):
        """A choice between a jump and what stands behind it, by one condition."""
        test = self.test_at(frame, head.at)
        closed = frame.partners[head.at + 1]
        is_left = self.turn(frame, "if", head.at + 2, closed, test[0]) == "L"
        self.turns[-1].holds = is_left == head.side
        self.settled(test, self.turns[-1].holds)
        self.code(frame, (part.left if is_left else part.right)[1:])

    def last(self, frame, part):
        """One more round of a loop that a jump ends, or none."""
        test = self.test_at(frame, part.at)
        is_left = self.turn(frame, frame.tokens[part.at].decode(), part.first, part.end, test[0]) == "L"
        self.settled(test, is_left)
        self.code(frame, part.left if is_left else part.right)

    def declared(self, frame, i, end):
        """A local variable, or an expression."""
        k = declared_name(frame.tokens, i, end)
        if k is None:
            self.items(frame, i, end)
            return
        while frame.tokens[i] == b"final":
            i += 1
        kind = simple_type(frame.tokens[i:k]) if k == i + 1 else None
        while k < end:
            frame.names[frame.tokens[k].decode("utf-8", "replace")] = kind
            comma = self.find(frame, k, end, (b",",))
            equal = self.find(frame, k, comma, (b"=",))
            self.expression(frame, min(equal + 1, comma), comma)
            k = comma + 1

    # Expressions.

    def find(self, frame, i, j, words, last=False):
        """The first token, or the last, of these outside of brackets; the end where there is none."""
        found = j
        while i < j:
            token = frame.tokens[i]
            if token in words and not (token == b"?" and frame.tokens[i - 1] in (b"<", b",")):
                if not last:
                    return i
                found = i
            i = frame.partners[i] + 1 if token in CLOSING else i + 1
        return found

    def items(self, frame, i, j):
        """Expressions with commas between; how many."""
        count = 0
        while i < j:
            comma = self.find(frame, i, j, (b",",))
            self.expression(frame, i, comma)
            i, count = comma + 1, count + 1
        return count

    def expression(self, frame, i, j, wanted=None):
        """Walks through an expression; the class of its value, and what the turns in it say of a condition."""
        if i >= j:
            return None, None
        equal = self.find(frame, i, j, ASSIGNMENTS)
        if equal < j:
            before = set(self.passed)
            self.expression(frame, i, equal)
            stored = self.passed - before
            kind = self.expression(frame, equal + 1, j)[0]
            self.passed |= stored
            return kind, None
        asked = self.find(frame, i, j, (b"?",))
        if asked < j:
            return self.conditional(frame, i, asked, j)
        for word in (b"||", b"&&"):
            at = self.find(frame, i, j, (word,), True)
            if at < j:
                return self.both(frame, i, at, j, wanted)
        if frame.tokens[i] == b"(" and frame.partners[i] == j - 1:
            return self.expression(frame, i + 1, j - 1, wanted)
        if frame.tokens[i] == b"!" and self.find(frame, i, j, BINARY) == j:
            truth = self.expression(frame, i + 1, j, None if wanted is None else not wanted)[1]
            return None, None if truth is None else not truth
        return self.plain(frame, i, j), None

    def conditional(self, frame, i, asked, j):
        """A `? :`."""
        depth, colon = 0, asked + 1
        while colon < j and (frame.tokens[colon] != b":" or depth):
            depth += (frame.tokens[colon] == b"?") - (frame.tokens[colon] == b":")
            colon = frame.partners[colon] + 1 if frame.tokens[colon] in CLOSING else colon + 1
        key = self.key(frame, asked)
        truth = self.expression(frame, i, asked, self.wanted(key))[1]
        is_left = self.turn(frame, "? :", i, asked, key) == "L"
        self.settled((key, truth), is_left)
        if is_left:
            return self.expression(frame, asked + 1, colon)
        return self.expression(frame, colon + 1, j)

    def both(self, frame, i, at, j, wanted):
        """An `&&` or `||`: L goes into its right side."""
        kind, key = frame.tokens[at].decode(), self.key(frame, at)
        forced = left = None
        if self.plan is not None:
            forced = "L" if wanted is not None and wanted == (kind == "&&") else self.plan.letters.get(key, "R")
            left = (forced == "L") == (kind == "&&")
        truth = self.expression(frame, i, at, left)[1]
        letter = self.turn(frame, kind, i, at, key, forced)
        self.settled((key, truth), self.turns[-1].holds)
        if letter == "R":
            return None, kind == "||"
        return None, self.expression(frame, at + 1, j, wanted)[1]

    def plain(self, frame, i, j):
        """An expression without decisions outside of brackets; the class of its value, where that is one name."""
        kind, cast = None, None
        k = i
        while k < j:
            token = frame.tokens[k]
            if token == b"new":
                k, kind = self.made(frame, k)
                continue
            if token == b"(":
                closed = frame.partners[k]
                if closed == k + 2 and closed + 1 < j and begins(frame.tokens[closed + 1]):
                    cast = simple_type(frame.tokens[k + 1 : k + 2])
                kind, k = self.expression(frame, k + 1, closed)[0], closed + 1
                continue
            if token in (b"[", b"{"):
                self.items(frame, k + 1, frame.partners[k])
                kind, k = None, frame.partners[k] + 1
                continue
            if NAME.fullmatch(token):
                k, kind = self.named(frame, i, k, j, kind)
                continue
            kind, k = kind if token == b"." else None, k + 1
        return cast or kind

    def made(self, frame, k):
        """What `new` makes: the place behind it, and its class."""
        first = k + 1
        while frame.tokens[k] not in (b"(", b"[", b"{"):
            k += 1
        if frame.tokens[k] != b"(":
            return k, None
        count = self.items(frame, k + 1, frame.partners[k])
        name = frame.tokens[first].decode("utf-8", "replace")
        if k != first + 1 or name not in self.classes:
            return frame.partners[k] + 1, None
        self.enter(self.classes[name], ("<new>", count), (*frame.calls, (frame.owner.file, first)))
        return frame.partners[k] + 1, name

    def named(self, frame, i, k, j, kind):
        """A name: a call, a field, a variable or a class; the place behind it, and the class of its value."""
        name, behind = frame.tokens[k].decode("utf-8", "replace"), k > i and frame.tokens[k - 1] == b"."
        owner = frame.owner if not behind else self.classes.get(kind)
        self.passed.add((frame.owner.file, frame.owner.outline.places[k]))
        if k + 1 < j and frame.tokens[k + 1] == b"(" and name != "this":
            count = self.items(frame, k + 2, frame.partners[k + 1])
            found = owner and self.enter(owner, (name, count), (*frame.calls, (frame.owner.file, k)))
            return frame.partners[k + 1] + 1, found
        if behind:
            return k + 1, owner.fields.get(name) if owner else None
        if name == "this":
            return k + 1, frame.owner.name
        if name in frame.names:
            return k + 1, frame.names[name]
        return k + 1, frame.owner.fields.get(name) or (name if name in self.classes else None)


def jump_in(parts):
    """The first jump or return among parts; nothing where there is none."""
    for part in parts:
        found = part if part.form in ("jump", "ret") else jump_in(part.left) or jump_in(part.right)
        if found is not None:
            return found
    return None


def walked(classes, owner, entry, letters, access, plan=None):
    """The walk of a thread that enters a method of a class, up to an access, as file and byte; nothing where the walk
    does not come by it behind its last turn."""
    name, _, count = entry.rpartition("/")
    walk = Walk(classes, letters, plan)
    try:
        walk.enter(classes[owner], (name, int(count)), ())
    except (Stop, Lost):
        pass
    except (KeyError, IndexError, RecursionError, ValueError):
        return None
    good = access in walk.passed and (plan is not None or len(walk.turns) == len(walk.letters))
    return walk if good else None
