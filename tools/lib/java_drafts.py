"""The code of statements, divided by how its paths end as racer divides it: parts of statements with exits, and of these
just the paths that end in given ways (crates/core_lowering_drafts/specs/Only.antt). Operations are left out: a part is
what a thread that is followed may do or decide."""
import dataclasses
import functools

NORMAL, RETURN, THROW = "normal", "return", "throw"
FINAL = frozenset((RETURN, THROW))
ALL = frozenset((NORMAL, RETURN, THROW))


@dataclasses.dataclass(eq=False)
class Part:
    """A part: its form, the tokens that it is at, its sides or its body and its exit; what a choice is made at, and what
    its sides are told as.

    Of statements: run, declare, element, test, ret, throw, leave, choice, loop, sync, ending, within, behind, never. Of
    the paths that are left further: jump (one that was taken), known (a condition whose side is settled) and split (a
    choice between paths that a jump ends and others).
    """

    form: str
    at: int = 0
    first: int = 0
    end: int = 0
    left: tuple = ()
    right: tuple = ()
    exit: int = -1
    last: tuple = ()
    word: str = ""
    told: tuple = ()
    side: bool = False

    @functools.cached_property
    def ends(self):
        """How its paths end."""
        if self.form == "choice":
            return ends_of(self.left) | ends_of(self.right)
        if self.form == "loop":
            return ends_of(self.left) | {NORMAL}
        if self.form in ("sync", "ending"):
            return ends_of(self.left)
        if self.form == "within":
            found = ends_of(self.left)
            return found - {self.exit} | {NORMAL} if self.exit in found else found
        if self.form == "behind":
            return self.ends_behind()
        alone = {"ret": RETURN, "throw": THROW, "leave": self.exit, "never": None}.get(self.form, NORMAL)
        return frozenset(() if alone is None else (alone,))

    def ends_behind(self):
        """How the paths of a first part with a `finally` end."""
        first, behind = ends_of(self.left), ends_of(self.right)
        found = first & {THROW}
        if first - {THROW}:
            found |= behind - {NORMAL}
            if NORMAL in behind:
                found |= first - {THROW, self.exit}
                found |= ends_of(self.last) if self.exit in first else frozenset()
        return frozenset(found)


def ends_of(parts):
    """How the paths of parts one after another end."""
    found = frozenset()
    for part in parts:
        found |= part.ends - {NORMAL}
        if NORMAL not in part.ends:
            return found
    return found | {NORMAL}


def ends_behind_each(parts):
    """How the paths of what stands behind each part end."""
    found, behind = [], frozenset((NORMAL,))
    for part in reversed(parts):
        found.append(behind)
        behind = part.ends - {NORMAL} | (behind if NORMAL in part.ends else frozenset())
    return found[::-1]


def within(number, parts):
    """Parts of which an exit ends normally."""
    return [Part("within", exit=number, left=parts)] if number in ends_of(parts) else parts


def only(parts, wanted):
    """The paths of parts one after another that end in a wanted way."""
    made, ends = [], ends_behind_each(parts)
    exits, on = wanted - {NORMAL} - FINAL, wanted & FINAL | {NORMAL}
    for i, part in enumerate(parts):
        if i + 1 == len(parts):
            return made + only_part(part, wanted)
        if not ends[i] & wanted:
            return made + only_part(part, wanted - {NORMAL})
        if not part.ends & exits:
            made += only_part(part, on)
        elif not part.ends & on:
            return made + only_part(part, exits)
        else:
            rest = only_part(part, on) + only(parts[i + 1 :], wanted)
            return made + [Part("split", left=only_part(part, exits), right=rest)]
    return made


def only_part(part, wanted):
    """The paths of a part that end in a wanted way."""
    if not part.ends & wanted:
        return []
    if part.form == "choice":
        return only_choice(part, wanted)
    if part.form == "loop":
        return only_loop(part, wanted)
    if part.form in ("sync", "ending"):
        return only(part.left, wanted)
    if part.form == "within":
        return only(part.left, wanted | {part.exit} if NORMAL in wanted else wanted - {part.exit})
    if part.form == "behind":
        return only_behind(part, wanted)
    return [Part("jump", at=part.at)] if part.form == "leave" else [part]


def only_choice(part, wanted):
    """The sides of a choice that have such a path."""
    sides = [bool(ends_of(side) & wanted) for side in (part.left, part.right)]
    if all(sides):
        return [dataclasses.replace(part, left=only(part.left, wanted), right=only(part.right, wanted))]
    known = [Part("known", at=part.at, word=part.word, side=sides[0])]
    return known + only(part.left if sides[0] else part.right, wanted)


def only_loop(part, wanted):
    """Rounds of a loop, and then one that a jump ends, where it is to be left so."""
    def rounds(ends, word):
        body = ends_of(part.left) & ends
        return [dataclasses.replace(part, left=only(part.left, ends), word=word)] if body else []

    exits, on = wanted - {NORMAL} - FINAL, wanted & FINAL | {NORMAL}
    leaves = bool(ends_of(part.left) & exits)
    if NORMAL in wanted and not leaves:
        return rounds(on, "")
    if NORMAL in wanted:
        last = dataclasses.replace(part, form="split", left=only(part.left, exits), right=[])
        return rounds(on, "may end by a jump") + [last]
    if leaves:
        return rounds(on, "ends by a jump") + only(part.left, exits)
    return rounds(frozenset((NORMAL,)), "ends by a jump") + only(part.left, wanted & FINAL)


def only_behind(part, wanted):
    """What the paths of a first part come to behind its `finally`."""
    first, finally_ = ends_of(part.left), part.right
    branches = [({part.exit} & first, [*finally_, *part.last], wanted)]
    others = first - {THROW, part.exit}
    branches.append((others & wanted, finally_, wanted | {NORMAL}))
    branches.append((others - wanted, finally_, wanted - {NORMAL}))
    standing = [branch for branch in branches if branch[0] and ends_of(branch[1]) & branch[2]]
    if not standing:
        return only(part.left, frozenset((THROW,)))
    sets = [frozenset(branch[0]) for branch in standing]
    sets[-1] |= wanted & {THROW}
    codes = [only(part.left, ends) + only(behind, asked) for ends, (_, behind, asked) in zip(sets, standing)]
    made = codes[-1]
    for code in reversed(codes[:-1]):
        made = [Part("split", left=code, right=made)]
    return made
