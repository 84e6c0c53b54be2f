"""The definitions of Rattle crates, the files crates/NAME/specs/FILE.antt: their names, and what each of them names."""
import dataclasses
import re
from pathlib import Path

USE = re.compile(r"^[ \t]*(?:pub |ghost )*use +([\w.]+?)(?:\.\{([^}]*)\})?(?: +as +(\w+))?;?[ \t]*$", re.M)
HEAD = re.compile(r"(?:(?:abbrev|unfoldable|pub|record|data) +)*([^\s:(){}]+)")
NOT_NAMED = {"mutual", "use", "pub use", "infixr", "infixl", "infix", "where"}
WORD = re.compile(r"[^\s(){}\[\];,λ\\.]+(?:\.[^\s(){}\[\];,λ\\.]+)*|\[\]")


@dataclasses.dataclass
class Definitions:
    """A file of definitions: what its names mean elsewhere, and its own names with their texts."""

    crate: str
    name: str
    file: Path
    uses: dict
    texts: dict
    parts: dict


def names_of_use(match):
    """What a `use` names: each name here, and the path that it stands for."""
    path, listed, alias = match.groups()
    if listed is None:
        last = path.split(".")[-1]
        return {alias or last: path}
    names = {}
    for word in filter(None, (word.strip() for word in listed.split(","))):
        there, _, here = word.partition(" as ")
        names[(here or there).strip()] = f"{path}.{there.strip()}"
    return names


def uses_of(text):
    """What the names of a text mean elsewhere."""
    uses = {}
    for match in USE.finditer(text):
        uses.update(names_of_use(match))
    return uses


def without_comments(text):
    """A text without its comments."""
    return re.sub(r"--.*", "", text)


def read_definitions(file):
    """Reads a file of definitions."""
    text = file.read_text(encoding="utf-8")
    plain = USE.sub("", without_comments(text))
    texts, parts, current, depth = {}, {}, None, 0
    for line in plain.split("\n"):
        if not line.strip():
            continue
        indent = len(line) - len(line.lstrip())
        if line.startswith("mutual"):
            depth = 2
            continue
        if indent == 0:
            depth = 0
        if indent <= depth:
            current = own_name(line.strip(), texts, current)
        elif re.match(r"\s+(?:pub +)?[^\s:(){}]+ *:(?: |$)", line):
            parts.setdefault(re.match(r"\s+(?:pub +)?([^\s:(){}]+)", line).group(1), current)
        if current is not None:
            texts[current] = texts.get(current, "") + line + "\n"
    crate = file.parent.parent.name
    return Definitions(crate, file.stem, file, uses_of(without_comments(text)), texts, parts)


def own_name(line, texts, current):
    """Which name a line at the margin is of: one that it declares, or one that it is a clause of."""
    if line.split(" ")[0] in NOT_NAMED:
        return current
    name = HEAD.match(line)
    if name and re.match(r"(?:abbrev|unfoldable|pub|record|data) |[^\s:(){}]+ *:(?: |$)", line):
        return name.group(1)
    if name and name.group(1) in texts:
        return name.group(1)
    return current


def words_of(text):
    """The words of a text, those of operators too."""
    return set(WORD.findall(text))


class Book:
    """All files of definitions of a folder of crates."""

    def __init__(self, crates):
        self.files, self.known = {}, {}
        for file in sorted(crates.glob("*/specs/*.antt")):
            made = read_definitions(file)
            self.files[made.crate, made.name] = made

    def meaning(self, uses, own, word):
        """The crates, files and names that a word may mean: of its own file (`own`), or by a `use`."""
        found = []
        first, _, rest = word.partition(".")
        if own is not None and (first in own.texts or first in own.parts):
            found.append((own.crate, own.name, own.parts.get(first, first) if first not in own.texts else first))
        for name, path in uses.items():
            if name == first or (name.count("◌") and first in name.split("◌")):
                found += self.target(path, rest)
        return found

    def target(self, path, rest):
        """The definition that a path names, where it is one of these files."""
        parts = path.split(".")
        if len(parts) < 4 or parts[0] != "Rattle" or parts[2] != "specs" or (parts[1], parts[3]) not in self.files:
            return []
        there = self.files[parts[1], parts[3]]
        name = parts[4] if len(parts) > 4 else rest.split(".")[0]
        if name in there.texts:
            return [(parts[1], parts[3], name)]
        if name in there.parts:
            return [(parts[1], parts[3], there.parts[name])]
        return self.target(there.uses[name], "") if name in there.uses else []

    def named_by(self, uses, text):
        """The definitions that a text names."""
        return {found for word in words_of(text) for found in self.meaning(uses, None, word)}

    def named_in(self, found):
        """The definitions that a definition names."""
        if found not in self.known:
            own = self.files[found[:2]]
            words = words_of(own.texts[found[2]])
            self.known[found] = {inner for word in words for inner in self.meaning(own.uses, own, word)}
        return self.known[found]

    def reached(self, seeds):
        """These definitions, and all that they name: each with the one by which it was found."""
        reached = dict.fromkeys(seeds)
        waiting = list(reached)
        while waiting:
            found = waiting.pop()
            for inner in sorted(self.named_in(found)):
                if inner not in reached:
                    reached[inner] = found
                    waiting.append(inner)
        return reached
