"""The statements of a method as parts with exits, from the tokens of its block: what of them racer lowers."""
import re

from java_drafts import ALL, NORMAL, Part, ends_of, only, within

NAME = re.compile(rb"[A-Za-z_$\x80-\xff][\w$\x80-\xff]*")
TYPE_SIGNS = set(b". < > , ? [ ]".split())
OPENING = (b"(", b"[", b"{")
LOOPS = (b"while", b"do", b"for")
# Words that begin no local variable, though a name stands behind them.
OTHERS = (b"new", b"return", b"throw", b"assert", b"break", b"continue", b"else")


def declared_name(tokens, i, end):
    """Where the name of the first variable stands that is declared here; nothing where none is."""
    while i < end and tokens[i] == b"final":
        i += 1
    k = i
    while k < end and (NAME.fullmatch(tokens[k]) or tokens[k] in TYPE_SIGNS):
        if k > i and NAME.fullmatch(tokens[k]) and tokens[k - 1] not in (b".", b"<", b",", b"?", b"["):
            break
        k += 1
    is_local = i < k < end and NAME.fullmatch(tokens[k]) and tokens[k] != b"instanceof"
    return k if is_local and tokens[i] not in OTHERS else None


class Statements:
    """Reads statements: the exits that are open, where jumps and returns lead, and the labels of the loop that comes."""

    def __init__(self, outline):
        self.tokens, self.partners = outline.tokens, outline.partners
        self.exits, self.targets, self.guards, self.labels = 0, [], [], []

    def find(self, i, end, word):
        """The first such token outside of brackets; the end where there is none."""
        while i < end and self.tokens[i] != word:
            i = self.partners[i] + 1 if self.tokens[i] in OPENING else i + 1
        return min(i, end)

    def opened(self):
        """An exit of its own."""
        self.exits += 1
        return self.exits - 1

    def listed(self, i, end):
        """Statements one after another; their parts, and whether they declare variables."""
        parts, declares = [], False
        while i < end:
            more, i = self.statement(i)
            declares = declares or any(part.form == "declare" for part in more)
            parts += more
        return parts, declares

    def block(self, i):
        """A block; its parts, and the place behind it."""
        parts, declares = self.listed(i + 1, self.partners[i])
        return self.ended(parts, declares), self.partners[i] + 1

    def ended(self, parts, declares):
        """Parts at whose end variables are null, where there are any."""
        return [Part("ending", left=parts)] if declares else parts

    def statement(self, i):
        """A statement; its parts, and the place behind it."""
        token = self.tokens[i]
        if token == b"{":
            return self.block(i)
        if NAME.fullmatch(token) and self.tokens[i + 1] == b":":
            return self.labelled(i)
        reading = {
            b"if": self.choice, b"while": self.while_loop, b"do": self.do_loop, b"for": self.for_loop,
            b"switch": self.switch, b"try": self.attempt, b"synchronized": self.held,
        }.get(token, self.plain)
        return reading(i)

    def plain(self, i):
        """A statement that ends with `;`."""
        token, end = self.tokens[i], self.find(i, len(self.tokens), b";")
        if token == b"return":
            return [Part("run", first=i + 1, end=end), *self.returned(i)], end + 1
        if token == b"throw":
            return [Part("run", first=i + 1, end=end), Part("throw", at=i)], end + 1
        if token in (b"break", b"continue"):
            return self.jump(i, token == b"continue"), end + 1
        if token == b"assert":
            colon = self.find(i, end, b":")
            told = f"assert {' '.join(self.text(i + 1, colon))}"
            test = [Part("run", first=i + 1, end=colon)]
            sides = (f"{told}: looked at", f"{told}: not looked at")
            return [Part("choice", at=i, word="told", first=i, end=colon, left=test, told=sides)], end + 1
        form = "run" if declared_name(self.tokens, i, end) is None else "declare"
        return [Part(form, first=i, end=end)], end + 1

    def text(self, i, end):
        """Tokens as texts."""
        return [token.decode("utf-8", "replace") for token in self.tokens[i:end]]

    def returned(self, i):
        """A return, behind the `finally` of the innermost `try` around."""
        if not self.guards:
            return [Part("ret", at=i)]
        self.guards[-1][1] = True
        return [Part("leave", at=i, exit=self.guards[-1][0])]

    def jump(self, i, goes_on):
        """A `break` or a `continue`, where it has a target."""
        name = self.tokens[i + 1] if self.tokens[i + 1] != b";" else None
        for labels, behind, again, is_unnamed in reversed(self.targets):
            if (again is not None or not goes_on) and (name in labels if name else is_unnamed):
                return [Part("leave", at=i, exit=again if goes_on else behind)]
        return []

    def labelled(self, i):
        """A statement with a label."""
        k = i
        while NAME.fullmatch(self.tokens[k]) and self.tokens[k + 1] == b":":
            k += 2
        if self.tokens[k] in LOOPS:
            self.labels = [self.tokens[name] for name in range(i, k, 2)]
            return self.statement(k)
        number = self.opened()
        self.targets.append(([self.tokens[i]], number, None, False))
        parts, behind = self.statement(i + 2)
        self.left(number)
        return within(number, parts), behind

    def left(self, number):
        """Leaves the statement that this exit was opened for."""
        self.targets.pop()
        self.exits = number

    def choice(self, i):
        """An `if`."""
        closed = self.partners[i + 1]
        test = Part("test", at=i, first=i + 2, end=closed)
        left, behind = self.statement(closed + 1)
        right = []
        if self.tokens[behind] == b"else":
            right, behind = self.statement(behind + 1)
        made = Part("choice", at=i, word="if", first=i + 2, end=closed, left=left, right=right)
        return [test, made], behind

    def held(self, i):
        """A block under the monitor of an object."""
        closed = self.partners[i + 1]
        parts, behind = self.block(closed + 1)
        return [Part("run", first=i + 2, end=closed), Part("sync", left=parts)], behind

    # Loops.

    def round_of(self, i):
        """The body of a loop: the exit of its `break`, its parts, and the place behind it."""
        number, again, labels = self.opened(), self.opened(), self.labels
        self.labels = []
        self.targets.append((labels, number, again, True))
        body, behind = self.statement(i)
        self.left(number)
        return number, body, within(again, body), behind

    def looped(self, loop, number, body, before, is_endless):
        """A loop, behind which its `break` leads; where it has no other end, nothing else does."""
        never = [Part("never")] if is_endless and number in ends_of(body) else []
        return within(number, [*before, loop, *never])

    def while_loop(self, i):
        """A `while`."""
        closed = self.partners[i + 1]
        test = Part("test", at=i, first=i + 2, end=closed)
        number, body, turn, behind = self.round_of(closed + 1)
        loop = Part("loop", at=i, first=i + 2, end=closed, left=[*turn, test])
        is_endless = self.tokens[i + 2 : closed] == [b"true"]
        return [test, *self.looped(loop, number, body, [], is_endless)], behind

    def do_loop(self, i):
        """A `do`."""
        number, body, turn, behind = self.round_of(i + 1)
        closed = self.partners[behind + 1]
        turn = [*turn, Part("test", at=behind, first=behind + 2, end=closed)]
        loop = Part("loop", at=behind, first=behind + 2, end=closed, left=turn)
        is_endless = self.tokens[behind + 2 : closed] == [b"true"]
        return self.looped(loop, number, body, turn, is_endless), closed + 2

    def for_loop(self, i):
        """Both forms of `for`."""
        closed = self.partners[i + 1]
        first = self.find(i + 2, closed, b";")
        if first == closed:
            return self.for_each(i, closed)
        second = self.find(first + 1, closed, b";")
        declares = declared_name(self.tokens, i + 2, first) is not None
        start = [Part("declare" if declares else "run", first=i + 2, end=first)]
        condition = self.tokens[first + 1 : second]
        tests = [Part("test", at=i, first=first + 1, end=second)] if condition else []
        number, body, turn, behind = self.round_of(closed + 1)
        turn = [*turn, Part("run", first=second + 1, end=closed), *tests]
        shown = (first + 1, second) if condition else (i, i + 1)
        loop = Part("loop", at=i, first=shown[0], end=shown[1], left=turn)
        parts = start + tests + self.looped(loop, number, body, [], condition in ([], [b"true"]))
        return [Part("ending", left=parts)] if declares else parts, behind

    def for_each(self, i, closed):
        """A `for` over elements."""
        colon = self.find(i + 2, closed, b":")
        number, body, turn, behind = self.round_of(closed + 1)
        element = Part("element", first=i + 2, end=colon)
        loop = Part("loop", at=i, first=i + 2, end=closed, left=[element, *turn])
        parts = [Part("run", first=colon + 1, end=closed), *self.looped(loop, number, body, [], False)]
        return [Part("ending", left=parts)], behind

    # `switch` and `try`.

    def label_end(self, k, end):
        """The colon of a `case` or of `default`."""
        asked = 0
        while k < end and (self.tokens[k] != b":" or asked):
            asked += (self.tokens[k] == b"?") - (self.tokens[k] == b":")
            k = self.partners[k] + 1 if self.tokens[k] in OPENING else k + 1
        return k

    def groups(self, k, end):
        """The groups of a `switch`: the labels of each as a text, whether `default` is among them, and its tokens."""
        while k < end:
            labels, has_default = [], False
            while k < end and self.tokens[k] in (b"case", b"default"):
                colon = self.label_end(k, end)
                has_default = has_default or self.tokens[k] == b"default"
                labels.append(" ".join(self.text(k, colon)))
                k = colon + 1
            first = k
            while k < end and self.tokens[k] not in (b"case", b"default"):
                k = self.partners[k] + 1 if self.tokens[k] in OPENING else k + 1
            yield ", ".join(labels), has_default, first, k

    def switch(self, i):
        """A `switch`."""
        closed = self.partners[i + 1]
        end = self.partners[closed + 1]
        number = self.opened()
        self.targets.append(([], number, None, True))
        options, before, declares, has_default = [], None, False, False
        for label, is_default, first, behind in self.groups(closed + 2, end):
            parts, more = self.listed(first, behind)
            declares, has_default = declares or more, has_default or is_default
            if before is not None:
                told = (f"switch: from a group before {label}", f"switch: {label}")
                parts = [self.option(i, closed, before, [], told), *parts]
            before = parts if NORMAL in ends_of(parts) and behind < end else None
            options += [(label, parts)] if before is None else []
        self.left(number)
        options += [] if has_default else [("no group", [])]
        fork = within(number, self.fork(i, closed, options))
        return [Part("run", first=i + 2, end=closed), *self.ended(fork, declares)], end + 1

    def option(self, i, closed, left, right, told):
        """A choice between groups."""
        return Part("choice", at=i, word="told", first=i + 2, end=closed, left=left, right=right, told=told)

    def fork(self, i, closed, options):
        """One of these, by halves."""
        if len(options) == 1:
            return options[0][1]
        half = len(options) // 2
        sides = options[:half], options[half:]
        told = tuple(f"switch: {', '.join(label for label, _ in side[:3])}{', ..' * (len(side) > 3)}" for side in sides)
        return [self.option(i, closed, *(self.fork(i, closed, side) for side in sides), told)]

    def attempt(self, i):
        """A `try`: catch clauses are passed over, and the `finally` of a lock is none."""
        resources, block = [], i + 1
        if self.tokens[block] == b"(":
            resources, block = self.resources(block), self.partners[block] + 1
        behind = self.partners[block] + 1
        while self.tokens[behind] == b"catch":
            behind = self.partners[self.partners[behind + 1] + 1] + 1
        if self.tokens[behind] != b"finally":
            return self.first_part(resources, block), behind
        end = self.partners[behind + 1] + 1
        if self.tokens[end - 5 : end - 1] == [b"unlock", b"(", b")", b";"]:
            return [Part("sync", left=self.first_part(resources, block))], end
        return self.guarded(resources, block, behind), end

    def resources(self, opened):
        """The resources of a `try`."""
        found, k, end = [], opened + 1, self.partners[opened]
        while k < end:
            behind = self.find(k, end, b";")
            found.append(Part("declare", first=k, end=behind))
            k = behind + 1
        return found

    def first_part(self, resources, block):
        """The resources and the block."""
        parts, _ = self.block(block)
        return self.ended([*resources, *parts], bool(resources))

    def guarded(self, resources, block, behind):
        """The first part of a `try`, and its `finally` behind it."""
        number = self.opened()
        self.guards.append([number, False])
        first = self.first_part(resources, block)
        has_return = self.guards.pop()[1]
        self.exits = number
        finally_, _ = self.block(behind + 1)
        last = self.returned(behind) if has_return else []
        if ends_of(first) <= {NORMAL}:
            return [*first, *finally_]
        made = [Part("behind", exit=number, left=first, right=finally_, last=last)]
        return [Part("ending", left=made)] if has_return else made


def code_of(outline, block):
    """The code of the method whose block begins here."""
    return only(Statements(outline).block(block)[0], ALL)
