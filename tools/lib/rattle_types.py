"""The types of the receivers of method calls in Rattle sources, where their text says them; nothing where it does not.

A type is the tokens that spell it, with the module in which they stand and the names of generics there.
"""
import dataclasses

from rattle_text import Module, closing, is_behind, names_in, past_angles, path_at

# What has no methods of what it holds, and what lends them all.
HOLDERS = {"Vec", "String", "BTreeMap", "BTreeSet", "IndexMap", "IndexSet", "Book", "str", "u8", "u32", "u64", "usize"}
LENDERS = {"Arc", "Box"}
ELEMENTS = {"Vec", "Items"}
# What stands before the parameters of a closure.
BEFORE_CLOSURE = {"(", ",", "=", "move", "{", ";", "=>", "return", "&"}


@dataclasses.dataclass(eq=False)
class Written:
    """A type as it is written."""

    tokens: list
    module: Module
    generics: frozenset = frozenset()
    owner: str = ""

    def at(self, tokens):
        """Another type that is written there."""
        return Written(tokens, self.module, self.generics, self.owner)


def bare(tokens):
    """A type's tokens without references."""
    place = 0
    while place < len(tokens) and (tokens[place].text in ("&", "mut") or tokens[place].kind == "life"):
        place += 1
    return tokens[place:]


def split(tokens):
    """The parts between commas that stand in no bracket and in no generics."""
    parts, part, depth = [], [], 0
    for token in tokens:
        depth += (token.text in ("(", "[", "{", "<")) - (token.text in (")", "]", "}", ">"))
        if token.text == "," and depth == 0:
            parts.append(part)
            part = []
        else:
            part.append(token)
    return [part for part in [*parts, part] if part]


def arguments(tokens):
    """What a type is given between `<` and `>`, lifetimes aside."""
    opening = next((place for place, token in enumerate(tokens) if token.text == "<"), None)
    if opening is None:
        return []
    return [part for part in split(tokens[opening + 1:past_angles(tokens, opening) - 1]) if part[0].kind != "life"]


def fields_of(named):
    """The fields of a struct, each with the tokens of its type."""
    tokens = named.tokens[past_angles(named.tokens, 1):]
    if not tokens or tokens[0].text not in ("{", "("):
        return {}
    fields = {}
    for number, part in enumerate(split(without_attributes(tokens[1:closing(tokens, 0)]))):
        if part[0].text == "pub":
            part = part[closing(part, 1) + 1:] if len(part) > 1 and part[1].text == "(" else part[1:]
        if tokens[0].text == "(":
            fields[str(number)] = part
        elif len(part) > 2 and part[1].text == ":":
            fields[part[0].text] = part[2:]
    return fields


def without_attributes(tokens):
    """These tokens without `#[..]`."""
    left, place = [], 0
    while place < len(tokens):
        if tokens[place].text == "#":
            place = closing(tokens, place + 1) + 1
        else:
            left.append(tokens[place])
            place += 1
    return left


def result_of(function):
    """The type that a function answers; nothing where it answers none."""
    tokens = function.signature
    behind = closing(tokens, next(place for place, token in enumerate(tokens) if token.text == "("))
    if len(tokens) < behind + 3 or tokens[behind + 1].text != "->":
        return None
    end = next((place for place in range(behind, len(tokens)) if tokens[place].text == "where"), len(tokens))
    return Written(tokens[behind + 2:end], function.module, function.generics, function.owner)


class Receivers:
    """The types of the receivers in one function: `types` has them by the place of the method's name."""

    def __init__(self, calls, function):
        self.calls, self.function, self.tokens = calls, function, function.body
        self.values, self.types = {}, {}
        self.hidden = self.hidden_names()
        self.note_parameters()
        self.note_lets()
        for place, token in enumerate(self.tokens):
            if token.kind == "name" and not is_behind(self.tokens, place):
                self.chain(place)

    def written(self, tokens):
        """A type that is written in this function."""
        return Written(tokens, self.function.module, self.function.generics, self.function.owner)

    def hidden_names(self):
        """The names that closures and arms bind, whose types are not told."""
        names = set()
        for place, token in enumerate(self.tokens):
            if token.text == "|" and self.text(place - 1) in BEFORE_CLOSURE:
                names |= names_in(self.tokens[place + 1:self.place_of(("|",), place + 1)])
            elif token.text == "=>":
                names |= self.names_of_arm(place)
        return names

    def place_of(self, texts, place):
        """The first place from one on of one of these, outside of brackets that begin behind it."""
        while place < len(self.tokens) and self.text(place) not in texts:
            place = closing(self.tokens, place) + 1 if self.text(place) in ("(", "[", "{") else place + 1
        return place

    def names_of_arm(self, place):
        """The names in the pattern before a `=>`."""
        names, depth, at = set(), 0, place - 1
        while at >= 0:
            text = self.text(at)
            is_end = text in (",", "{", "(", ";") or (text == "}" and self.text(at + 1) not in ("=>", "|", "if"))
            if depth == 0 and is_end:
                break
            depth += (text in (")", "]", "}")) - (text in ("(", "[", "{"))
            if self.tokens[at].kind == "name":
                names.add(text)
            at -= 1
        return names

    def text(self, place):
        """The text of the token there."""
        return self.tokens[place].text if 0 <= place < len(self.tokens) else ""

    def note_parameters(self):
        """Notes the types of the parameters."""
        tokens = self.function.signature
        opening = next(place for place, token in enumerate(tokens) if token.text == "(")
        for part in split(tokens[opening + 1:closing(tokens, opening)]):
            part = part[1:] if part[0].text == "mut" else part
            if len(part) > 2 and part[1].text == ":":
                self.values.setdefault(part[0].text, []).append(self.written(part[2:]))

    def note_lets(self):
        """Notes the types of what `let` and `for` bind."""
        for place, token in enumerate(self.tokens):
            if token.text == "let":
                end = self.place_of(("=", ":", ";"), place + 1)
                value = self.place_of(("=", ";"), end)
                told = self.value_from(value + 1)
                if self.text(end) == ":" and not any(one.text == "_" for one in self.tokens[end:value]):
                    told = self.written(self.tokens[end + 1:value])
                self.bind(self.tokens[place + 1:end], told)
            elif token.text == "for" and self.text(place + 1) != "<":
                end = self.place_of(("in",), place + 1)
                told = self.value_from(end + 1)
                self.bind(self.tokens[place + 1:end], self.item(told))

    def bind(self, pattern, told):
        """Notes the types of the names that a pattern binds, given that of the value."""
        pattern = [token for token in pattern if token.text not in ("mut", "&", "ref")]
        if len(pattern) == 1:
            self.values.setdefault(pattern[0].text, []).append(told)
        elif pattern and pattern[0].text in ("Ok", "Some"):
            self.bind(pattern[2:-1], self.unwrapped(told))
        elif pattern and pattern[0].text == "(":
            tokens = bare(told.tokens) if told is not None and told.tokens else []
            types = split(tokens[1:-1]) if tokens and tokens[0].text == "(" else []
            for number, part in enumerate(split(pattern[1:-1])):
                self.bind(part, told.at(types[number]) if number < len(types) else None)
        else:
            self.bind_fields(pattern, told)

    def bind_fields(self, pattern, told):
        """The same of a pattern of a struct; of others, no type is told."""
        opening = next((place for place, token in enumerate(pattern) if token.text == "{"), len(pattern))
        for part in split(pattern[opening + 1:-1]):
            if part[0].kind == "name":
                behind = part[2:] if len(part) > 2 and part[1].text == ":" else part
                self.bind(behind, self.field(told, part[0].text))
        for token in pattern[:opening] if opening == len(pattern) else []:
            self.values.setdefault(token.text, []).append(None)

    def item(self, told):
        """What is gone through of a value, one after the other."""
        if told is None or told.tokens is None:
            return None
        tokens = bare(told.tokens)
        if tokens and tokens[0].text == "[":
            return told.at(tokens[1:closing(tokens, 0)])
        given = arguments(tokens)
        return told.at(given[0]) if given and tokens[0].text in ELEMENTS else None

    def value_from(self, place):
        """The type of the value that begins at a place and ends the statement; nothing where it is not told."""
        while self.text(place) in ("&", "mut"):
            place += 1
        if place >= len(self.tokens) or self.tokens[place].kind != "name":
            return None
        told, end = self.chain(place)
        return told if self.text(end) in (";", "else", "{") else None

    def chain(self, place):
        """The type of a path with all that is behind it, and the place behind it; notes receivers on the way."""
        told, end = self.begun(place)
        while True:
            if self.text(end) == "?":
                told, end = self.unwrapped(told), end + 1
            elif self.text(end) == "[":
                told, end = self.element(told, end), closing(self.tokens, end) + 1
            elif self.text(end) == "." and self.text(end + 1) != ".":
                told, end = self.behind_dot(told, end + 1)
            else:
                return told, end

    def begun(self, place):
        """The type of a path, with the call behind it, and the place behind it."""
        path, end = path_at(self.tokens, place)
        is_call = self.text(end) == "("
        if len(path) == 1 and not is_call:
            return self.value_of(path[0]), end
        if not is_call:
            return None, end
        return self.called_at(path), closing(self.tokens, end) + 1

    def value_of(self, name):
        """The type of a value of a name; nothing where it may have several, or one that is not told."""
        if name == "self":
            return self.written(None) if self.function.owner else None
        told = self.values.get(name, [])
        if not told or name in self.hidden or any(one is None or one.tokens is None for one in told):
            return None
        spelled = {" ".join(token.text for token in bare(one.tokens)) for one in told}
        return told[0] if len(spelled) == 1 else None

    def called_at(self, path):
        """The type that the call of a path answers."""
        found = self.calls.functions_at(self.function, path)
        if len(found) == 1:
            return result_of(found[0])
        if not found and len(path) == 2 and path[0] in HOLDERS:
            return self.written([token for token in self.tokens if token.text == path[0]][:1])
        return None

    def behind_dot(self, told, place):
        """The type of a field or of a method's answer, and the place behind it."""
        name, end = self.text(place), place + 1
        if self.text(end) == "::":
            end = past_angles(self.tokens, end + 1)
        if self.text(end) != "(":
            return self.field(told, name), end
        self.types[place] = told
        methods = self.calls.methods_of(told, name)
        return result_of(methods[0]) if len(methods) == 1 else None, closing(self.tokens, end) + 1

    def field(self, told, name):
        """The type of a field."""
        owners = self.calls.types_of(told)
        if not owners or len(owners) != 1:
            return None
        tokens = fields_of(owners[0]).get(name)
        return None if tokens is None else Written(tokens, owners[0].module, owners[0].generics())

    def unwrapped(self, told):
        """What is within `Result` or `Option`."""
        if told is None or told.tokens is None:
            return None
        tokens = bare(told.tokens)
        given = arguments(tokens)
        return told.at(given[0]) if given and tokens[0].text in ("Result", "Option") else None

    def element(self, told, place):
        """What an index gives."""
        if told is None or told.tokens is None or ".." in "".join(map(lambda one: one.text, self.inside(place))):
            return None
        return self.item(told)

    def inside(self, place):
        """The tokens within the bracket that begins there."""
        return self.tokens[place + 1:closing(self.tokens, place)]
