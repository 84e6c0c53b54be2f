"""Which functions of Rattle sources a run can reach, by names: more than can be called, and seldom less.

A path is followed through `use`, modules and re-exports. A call `.name(..)` reaches the method of the receiver's type,
where rattle_types tells it, and else each method of that name of a type that what is reached names. What an impl of a
trait of a library has is reached with its type.
"""
from rattle_text import Function, Module, Type, all_modules, is_behind, past_angles, path_at, read_crate
from rattle_types import HOLDERS, LENDERS, Receivers, Written, arguments, bare


def bound_in(function):
    """The names that a function gives to values of its own."""
    names, tokens = set(), function.body
    for token, after in zip(function.signature, function.signature[1:]):
        if token.kind == "name" and after.text == ":":
            names.add(token.text)
    for place, token in enumerate(tokens):
        if token.text in ("let", "for"):
            ends = ("=", ";") if token.text == "let" else ("in",)
            names |= names_until(tokens, place + 1, 1, ends)
        elif token.text == "|":
            names |= names_until(tokens, place + 1, 1, ("|",))
        elif token.text == "=>":
            names |= names_until(tokens, place - 1, -1, ("{", ";"))
    return names


def names_until(tokens, place, step, ends):
    """The names from a place on, in one line or a few, up to one of these."""
    names = set()
    for _ in range(24):
        if not 0 <= place < len(tokens) or tokens[place].text in ends:
            break
        if tokens[place].kind == "name":
            names.add(tokens[place].text)
        place += step
    return names


class Calls:
    """The sources of a folder of crates, and what is reached in them from one function."""

    def __init__(self, folder):
        roots = [(one.name, read_crate(one)) for one in sorted(folder.iterdir()) if one.is_dir()]
        self.crates = {name: root for name, root in roots if root is not None}
        self.modules = [module for root in self.crates.values() for module in all_modules(root)]
        self.functions = [one for module in self.modules for one in [*module.functions.values(), *module.methods]]
        self.owners = {one: self.owner_of(one) for one in self.functions if one.owner}
        self.traits = {one: self.is_own_trait(one) for one in self.functions if one.of}
        self.reached, self.types, self.called, self.members = set(), set(), set(), set()
        # `called` has what is called by a name alone, and `named` what is called of whatever type.
        self.named, self.waiting = set(), []

    def owner_of(self, method):
        """The type of a method's impl; nothing where it is a library's."""
        found = self.resolve(method.module, method.owner.split("::"), set())
        return next((one for one in found if isinstance(one, Type)), None)

    def is_own_trait(self, method):
        """Whether the trait of a method's impl is one of these crates."""
        found = self.resolve(method.module, method.of.split("::"), set())
        return any(isinstance(one, Type) and one.is_trait for one in found)

    def look_up(self, module, name, seen):
        """What a name means in a module."""
        if (module, name) in seen:
            return []
        seen = seen | {(module, name)}
        found = [part[name] for part in (module.functions, module.types, module.modules) if name in part]
        for path in module.uses.get(name, []):
            found += self.resolve(module, path, seen)
        for path in module.globs if not found else []:
            for inner in self.resolve(module, path, seen):
                found += self.look_up(inner, name, seen) if isinstance(inner, Module) else []
        return found

    def resolve(self, module, path, seen):
        """What a path means in a module: functions, types and modules; of a type's member the type and the member."""
        first, rest = path[0], path[1:]
        if first == "crate":
            found = [self.crates[module.path[0]]]
        elif first in ("self", "super"):
            found = [module if first == "self" else module.parent or module]
        else:
            found = self.look_up(module, first, seen)
            if not any(isinstance(one, Module) for one in found) and first in self.crates:
                found = [*found, self.crates[first]]
        for name in rest:
            found = [inner for one in found for inner in self.within(one, name, seen)]
        return found

    def within(self, one, name, seen):
        """What a name means within a module or a type."""
        if isinstance(one, Module):
            return self.look_up(one, name, seen)
        return [one, (one, name)] if isinstance(one, Type) else []

    def reach_from(self, function):
        """Reaches a function and all that it can reach."""
        self.reached.add(function)
        self.waiting = [function]
        while self.waiting:
            while self.waiting:
                self.note(self.waiting.pop())
            more = [one for one in self.owners if one not in self.reached and self.is_called(one)]
            self.reached.update(more)
            self.waiting += more

    def is_called(self, method):
        """Whether a method is reached, by what is reached so far."""
        owner = self.owners[method]
        if owner is not None and owner not in self.types:
            return False
        if method.of and not self.traits[method]:
            return True
        names = self.named if owner is None else self.called
        return method.name in names or (owner, method.name) in self.members

    def note(self, function):
        """Notes what a function names."""
        own = bound_in(function)
        self.note_tokens(function.module, function.signature, function, own)
        self.note_tokens(function.module, function.body, function, own, Receivers(self, function).types)
        if self.owners.get(function) is not None:
            self.note_type(self.owners[function])

    def named_in(self, function):
        """The functions and methods that a body names: of those of one name the reached ones, where some are."""
        named, own, place = [], bound_in(function), 0
        while place < len(function.body):
            if function.body[place].kind != "name":
                place += 1
                continue
            is_member = is_behind(function.body, place)
            path, place = path_at(function.body, place)
            is_call = place < len(function.body) and function.body[place].text == "("
            if is_member:
                found = self.methods_called(path[0]) if is_call else []
            elif path[0] in own and not is_call:
                found = []
            else:
                found = self.functions_at(function, path)
            named += [one for one in found if one in self.reached] or found
        return named

    def methods_called(self, name):
        """The methods of a name."""
        return [one for one in self.owners if one.name == name]

    def functions_at(self, function, path):
        """The functions and methods that a path in a function names."""
        if path[0] == "Self" and function.owner:
            path = [*function.owner.split("::"), *path[1:]]
        found = self.resolve(function.module, path, set())
        members = {one for one in found if isinstance(one, tuple)}
        methods = [one for one in self.owners if (self.owners[one], one.name) in members]
        return [one for one in found if isinstance(one, Function)] + methods

    def note_type(self, named):
        """Notes a type and all that it names."""
        if named not in self.types:
            self.types.add(named)
            self.note_tokens(named.module, named.tokens, None, set())

    def note_tokens(self, module, tokens, function, own, receivers=None):
        """Notes what these tokens name; the receivers of methods are of these types, by the places of their names."""
        place = 0
        while place < len(tokens):
            if tokens[place].kind != "name":
                place += 1
                continue
            before = tokens[place - 1].text if is_behind(tokens, place) else ""
            told = (receivers or {}).get(place)
            path, place = path_at(tokens, place)
            after = tokens[place].text if place < len(tokens) else ""
            if before == ".":
                self.note_method(told, path[0], after)
            elif before == "::":
                self.called.add(path[-1])
            elif after != ":" or len(path) > 1 or function is None:
                is_value = len(path) == 1 and path[0] in own and after != "("
                self.note_path(module, path, function, is_value)

    def note_method(self, told, name, after):
        """Notes the call of a method, or a field."""
        if after not in ("(", "::", "<"):
            return
        self.named.add(name)
        owners = self.types_of(told)
        members = {(owner, name) for owner in owners or [] if self.methods_of_type(owner, name)}
        self.members |= members
        if owners is None or len(members) < len(owners):
            self.called.add(name)

    def methods_of_type(self, owner, name):
        """The methods of a name that a type has."""
        return [one for one in self.owners if one.name == name and self.owners[one] is owner]

    def methods_of(self, told, name):
        """The methods of a name that a value of a written type has, where it is told."""
        return [one for owner in self.types_of(told) or [] for one in self.methods_of_type(owner, name)]

    def types_of(self, told):
        """The types of these crates whose methods a value of a written type has; nothing where that is not told."""
        if told is None:
            return None
        if told.tokens is None:
            found = self.resolve(told.module, told.owner.split("::"), set())
        else:
            tokens = bare(told.tokens)
            if not tokens or tokens[0].text in ("[", "("):
                return [] if tokens else None
            path = path_at(tokens, 0)[0]
            if path == ["Self"] and told.owner:
                return self.types_of(told.at(None))
            if path[0] in told.generics or tokens[0].kind != "name":
                return None
            found = self.resolve(told.module, path, set())
        found = [one for one in found if isinstance(one, Type)]
        if found:
            return self.aliased(found[0]) if len(found) == 1 and not found[0].is_trait else None
        return self.types_outside(told, path[-1], tokens) if told.tokens is not None else None

    def aliased(self, named):
        """A type, or what its name stands for."""
        behind = past_angles(named.tokens, 1)
        if behind < len(named.tokens) and named.tokens[behind].text == "=":
            return self.types_of(Written(named.tokens[behind + 1:-1], named.module))
        return [named]

    def types_outside(self, told, name, tokens):
        """The types of these crates whose methods a value of a library's type has."""
        given = arguments(tokens)
        if name in LENDERS:
            return self.types_of(told.at(given[0])) if given else None
        return [] if name in HOLDERS or name in ("Option", "Result") else None

    def note_path(self, module, path, function, is_value):
        """Notes what a path names; where it may be a value of the function's own, then no function."""
        if function is not None and path[0] == "Self" and function.owner:
            path = [*function.owner.split("::"), *path[1:]]
        if function is not None and path[0] in function.generics:
            self.called.update(path[1:])
        for found in self.resolve(module, path, set()):
            if isinstance(found, Type):
                self.note_type(found)
            elif isinstance(found, tuple):
                self.members.add(found)
                if found[0].is_trait:
                    self.called.add(found[1])
            elif isinstance(found, Function) and not is_value and found not in self.reached:
                self.reached.add(found)
                self.waiting.append(found)

