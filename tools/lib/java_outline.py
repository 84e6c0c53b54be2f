"""The types of a Java source with their methods and locks, by brackets alone: what a report of racer does not say.

A class is checked where racer checks it (docs/READING.md, "Classes"), and every other type tells why it is not.
Sources of newer Java are read as well as they can be: nothing here refuses a file.
"""
import dataclasses
import re

from java_forms import forms_of

# A token behind white space and comments; the last one of a file may be empty.
TOKEN = re.compile(
    rb"(?:\s+|//[^\n\r]*|/\*[^*]*\*+(?:[^/*][^*]*\*+)*/|/\*.*\Z)*"
    rb"([A-Za-z_$\x80-\xff][\w$\x80-\xff]*|[0-9][\w.]*|->|::|&&|\|\||\+\+|--|[=!<>+*/%&|^-]="
    rb'|"""(?:\\.|[^\\])*?"""|"(?:\\.|[^"\\\n\r])*"?|\'(?:\\.|[^\'\\\n\r])*\'?|\S|\Z)',
    re.DOTALL,
)
NAME = re.compile(rb"[A-Za-z_$\x80-\xff][\w$\x80-\xff]*")
CLOSING = {b"(": b")", b"[": b"]", b"{": b"}"}
BRACKETS = frozenset(b"( ) [ ] { }".split())
TYPE_WORDS = (b"class", b"interface", b"enum", b"record")
MODIFIERS = set(b"public protected private static abstract final strictfp sealed non - default".split())
LOCK_TYPES = set(b"Lock ReentrantLock ReadWriteLock ReentrantReadWriteLock StampedLock".split())

# By which annotations the sources leave warnings of racer out, and the words that have to stand in them.
SUPPRESSIONS = {"SuppressWarnings": {b'"racer"'}, "SuppressFBWarnings": {b'"IS2_INCONSISTENT_SYNC"'}}


@dataclasses.dataclass
class Method:
    """A method or constructor that is declared with a body, and the forms in it that racer does not read."""

    name: str
    parameters: int
    modifiers: set
    place: int
    forms: list
    suppressed: str


@dataclasses.dataclass
class Type:
    """A type: its name with those around it, where that stands, why racer does not check it, if it doesn't, why it is
    skipped, in a word, if it is, its locks, and what the sources say of the warnings of it and of its fields."""

    name: str
    place: int
    unchecked: str
    skipped: str
    locks: list
    methods: list
    suppressed: str
    suppressed_fields: dict


class Outline:
    """The tokens of a source, with the place of each and the partner of each bracket."""

    def __init__(self, data):
        found = list(TOKEN.finditer(data))
        self.data = data
        self.tokens = [one[1] for one in found if one[1]]
        self.places = [one.start(1) for one in found]
        self.partners = self.matched()

    def matched(self):
        """The closing bracket of each opening one; the last token where there is none."""
        partners, opened = {}, []
        for i, token in [(i, token) for i, token in enumerate(self.tokens) if token in BRACKETS]:
            if token in CLOSING:
                opened.append(i)
            elif opened and CLOSING[self.tokens[opened[-1]]] == token:
                partners[opened.pop()] = i
        partners.update(dict.fromkeys(opened, len(self.tokens)))
        return partners

    def forget(self):
        """Forgets the tokens, once the types are known: lines and columns can still be told."""
        self.tokens, self.places, self.partners = [], [], {}

    def line_and_column(self, place):
        """A place as a report tells it: from 1, columns in bytes."""
        return self.data.count(b"\n", 0, place) + 1, place - self.data.rfind(b"\n", 0, place)

    def member_end(self, i, end):
        """Behind the member that begins here."""
        equal = False
        while i < end:
            token = self.tokens[i]
            if token == b";":
                return i + 1
            equal = equal or token == b"="
            if token in CLOSING:
                i = self.partners[i]
                if token == b"{" and not equal:
                    return min(i + 1, end)
            i += 1
        return end

    def members(self, i, end):
        """The members between two places, each as the places of its first token and behind its last."""
        while i < end:
            if self.tokens[i] == b";":
                i += 1
                continue
            behind = self.member_end(i, end)
            yield i, behind
            i = behind

    def annotations_end(self, i, end, found):
        """Behind the annotations that begin here; adds the last part of each one's name, with what stands behind it."""
        while i + 1 < end and self.tokens[i] == b"@" and self.tokens[i + 1] != b"interface":
            i += 2
            while i + 1 < end and self.tokens[i] == b".":
                i += 2
            name, behind = self.tokens[i - 1].decode("utf-8", "replace"), i
            if i < end and self.tokens[i] == b"(":
                behind = self.partners[i] + 1
            found[name] = self.tokens[i:behind]
            i = behind
        return i

    def head(self, i, end):
        """The annotations and modifiers that a member begins with, and the place behind them."""
        annotations, modifiers = {}, set()
        while i < end:
            i = self.annotations_end(i, end, annotations)
            if i >= end or self.tokens[i] not in MODIFIERS | {b"synchronized", b"native", b"transient", b"volatile"}:
                break
            modifiers.add(self.tokens[i].decode())
            i += 1
        return annotations, modifiers, i

    def is_type(self, i, end):
        """Whether a type's word stands here."""
        if i < end and self.tokens[i] == b"@":
            return True
        if i + 2 >= end or self.tokens[i] not in TYPE_WORDS or not NAME.fullmatch(self.tokens[i + 1]):
            return False
        return self.tokens[i] != b"record" or self.tokens[i + 2] in (b"(", b"<")

    def method(self, first, end):
        """The method that a member is, if it is one with a body."""
        annotations, modifiers, i = self.head(first, end)
        head = i
        while i < end and self.tokens[i] not in (b"(", b"=", b"{", b";"):
            i = self.annotations_end(i, end, annotations) if self.tokens[i] == b"@" else i + 1
        if i >= end or self.tokens[i] != b"(" or self.tokens[end - 1] != b"}":
            return None
        if not NAME.fullmatch(self.tokens[i - 1]):
            return None
        name = self.tokens[i - 1].decode("utf-8", "replace")
        forms = forms_of(self.tokens[head:end], self.partners[i] - head, modifiers)
        count, why = self.commas(i, self.partners[i]), suppression(annotations)
        return Method(name, count, modifiers, self.places[i - 1], forms, why)

    def fields(self, first, end):
        """The names of the fields that a member is, and its annotations."""
        annotations, _, i = self.head(first, end)
        names, depth = [], 0
        while i + 1 < end:
            token = self.tokens[i]
            depth += (token == b"<") - (token == b">" and depth > 0)
            if depth == 0 and NAME.fullmatch(token) and self.tokens[i + 1] in (b";", b",", b"=", b"["):
                names.append(token.decode("utf-8", "replace"))
            if token == b"=":
                while i + 1 < end and self.tokens[i] not in (b",", b";"):
                    i = self.partners[i] + 1 if self.tokens[i] in CLOSING else i + 1
            else:
                i = self.partners[i] + 1 if token in CLOSING else i + 1
        return names, annotations

    def commas(self, i, end):
        """How many parameters stand in these parentheses."""
        count, depth, k = 0, 0, i + 1
        while k < end:
            token = self.tokens[k]
            depth += (token == b"<") - (token == b">" and depth > 0)
            count += token == b"," and depth == 0
            k = self.partners[k] + 1 if token in CLOSING else k + 1
        return count + 1 if end > i + 1 else 0


def suppression(annotations):
    """The annotation by which the sources leave warnings of racer out, as its text; nothing where there is none."""
    for name, words in SUPPRESSIONS.items():
        if any(word in words for word in annotations.get(name, ())):
            told = b"".join(token if token != b"," else b", " for token in annotations[name])
            return f"@{name}{told.decode('utf-8', 'replace')}"
    return ""


def locks_of(tokens, annotations):
    """The kinds of locks that a member takes or names: of synchronized, of java.util.concurrent, of @GuardedBy."""
    found = {"GuardedBy"} if "GuardedBy" in annotations else set()
    if b"synchronized" in tokens:
        found.add("synchronized")
    if not LOCK_TYPES.isdisjoint(tokens):
        found.add("java.util.concurrent")
    elif b"lock" in tokens and any(one == b"lock" and tokens[i - 1] == b"." for i, one in enumerate(tokens)):
        found.add("java.util.concurrent")
    return found


def why_skipped(kind, around, behind_name):
    """Why a type is not read at all, in a word or two; nothing where it is."""
    if kind != "class":
        return kind
    if around:
        return "nested"
    if behind_name == b"<":
        return "type parameters"
    if behind_name not in (b"{", b"implements"):
        return "extends" if behind_name == b"extends" else "newer Java"
    return ""


# Why a type that is skipped is not checked, where more than its kind is to be said.
TOLD = {
    "nested": "it is nested",
    "type parameters": "it has type parameters",
    "extends": "it extends another class",
    "newer Java": "it is of newer Java",
}


def why_unchecked(skipped, annotations, synchronized):
    """Why a type is not checked; nothing where it is."""
    if skipped:
        return TOLD.get(skipped) or f"it is {'an' if skipped[0] in 'aei' else 'a'} {skipped}"
    if "NotThreadSafe" in annotations:
        return "@NotThreadSafe stands before it"
    if "ThreadSafe" in annotations or synchronized:
        return ""
    return "it has neither @ThreadSafe nor a synchronized method"


class Body:
    """What stands in a type: its methods, the types in it, its locks, and the fields that are left out of warnings."""

    def __init__(self, outline, begin, end, name):
        self.inner, self.methods, self.locks, self.fields, self.synchronized = [], [], set(), {}, False
        for member, last in outline.members(begin, end):
            types = list(types_of_member(outline, member, last, (name,)))
            if types:
                self.inner += types
            else:
                self.add(outline, member, last)

    def add(self, outline, member, last):
        """Adds a member that is no type."""
        tokens = outline.tokens[member:last]
        method = outline.method(member, last)
        if method:
            self.methods.append(method)
            self.synchronized = self.synchronized or b"synchronized" in tokens
        guarded = b"GuardedBy" in tokens
        self.locks |= locks_of(tokens, {"GuardedBy": ()} if guarded else {})
        if not method and b"@" in tokens:
            names, annotations = outline.fields(member, last)
            why = suppression(annotations)
            self.fields.update(dict.fromkeys(names, why) if why else {})


def type_of(outline, first, end, annotations, i, around):
    """The type whose word stands at i, and those in it."""
    if outline.tokens[i] == b"@":
        kind, i = "annotation type", i + 1
    else:
        kind = outline.tokens[i].decode()
    name = ".".join((*around, outline.tokens[min(i + 1, end - 1)].decode("utf-8", "replace")))
    place, behind, begin = outline.places[min(i + 1, end - 1)], min(i + 2, end - 1), i + 2
    while begin < end and outline.tokens[begin] != b"{":
        begin = outline.partners[begin] + 1 if outline.tokens[begin] in CLOSING else begin + 1
    body = Body(outline, begin + 1, end - 1, name)
    skipped = why_skipped(kind, around, outline.tokens[behind])
    unchecked, why = why_unchecked(skipped, annotations, body.synchronized), suppression(annotations)
    locks = sorted(body.locks)
    return [Type(name, place, unchecked, skipped, locks, body.methods, why, body.fields), *body.inner]


def types_of_member(outline, first, end, around):
    """The types that a member is and has; none where it is no type."""
    annotations, _, i = outline.head(first, end)
    return type_of(outline, first, end, annotations, i, around) if outline.is_type(i, end) else []


def types_of(outline):
    """All types of a source that are no local ones, each before those in it; none of one that is nested very deep."""
    found = []
    try:
        for first, end in outline.members(0, len(outline.tokens)):
            found += types_of_member(outline, first, end, ())
    except RecursionError:
        return []
    return found


def parameters_of(outline, opened):
    """The parameters between the parentheses that open here: the name of each, with the name that its type is."""
    found, i, end = [], opened + 1, outline.partners[opened]
    while i < end:
        _, _, first = outline.head(i, end)
        while i < end and outline.tokens[i] != b",":
            i = outline.partners[i] + 1 if outline.tokens[i] in CLOSING else i + 1
            if i < end and outline.tokens[i] == b"<":
                depth = 1
                while depth and i + 1 < end:
                    i += 1
                    depth += (outline.tokens[i] == b"<") - (outline.tokens[i] == b">")
        name = outline.tokens[i - 1].decode("utf-8", "replace")
        kind = outline.tokens[first].decode("utf-8", "replace") if i == first + 2 else None
        found.append((name, kind))
        i += 1
    return found
