"""Reports of racer as JSON, and the folders of them that racer-packages makes, as the other scripts read them."""
import dataclasses
import itertools
import json
import os
import re
import shlex
import sys

# What racer-packages keeps: in its folder, and there in a folder for each package.
MANIFEST = "racer.packages"
REPORT, OBJECT, STATUS, FACTS = "racer.report", "racer.json", "racer.status", "racer.package"

# A line of --typed and a line of a history, which may stand behind a report in this order.
TYPING = re.compile(r"typed (?P<typed>\S+)|untyped (?P<untyped>\S+) (?P<place>.+:\d+:\d+)")
EVENT = re.compile(r"(?:take|publish) \S+ \S+|park \S+ \S+ \S+|leave \S+")

# A refusal that names a file: the file, its place if it has one, and why.
REFUSED = re.compile(
    r"refused (?P<file>.+?\.java)(?P<place>:\d+:\d+)? "
    r"(?P<why>too long|byte \d+ not utf-8|bad character|unclosed|bad literal|unbalanced|too deep|not a unit"
    r"|duplicate (?:class|field), first .+)"
)


class Fault(Exception):
    """Words or input of which nothing can be made."""


@dataclasses.dataclass
class Report:
    """A report, or in its place the one line that racer said.

    `package` tells it from others, `under` is what stands before its files' names, `sources` is the folder that its
    files are in, where it is known, and `left_out` has the files that racer was not given, each with its place and the
    reason. `typings` has the place of each class that --typed tells of, empty where it is typed. Of a package the
    checked classes are known, with what else racer-packages tells, and files in subfolders are not meant. `known` has
    its types, once they are read (report_types), and `words` name it for racer-witness.
    """

    package: str
    under: str
    sources: str
    object: dict
    refusal: str
    left_out: list
    checked: list = None
    is_package: bool = False
    facts: dict = None
    known: object = None
    words: str = ""
    typings: dict = dataclasses.field(default_factory=dict)


def has_containers(report):
    """Whether a report shows that it was made with --containers: by what racer-packages tells, or by a path."""
    sides = (side for warning in report.object["warnings"] for side in (warning, warning["with"]))
    return bool((report.facts or {}).get("containers")) or any(side["path"].endswith("[]") for side in sides)


def folder_prefix(folder):
    """What is put before the name of a file of this folder."""
    return "" if folder in ("", ".") else folder.rstrip("/") + "/"


def joined(folder, name):
    """The name of a file or folder in a folder."""
    return folder_prefix(folder) + name if name != "." else folder or "."


def has_form(report):
    """Whether an object has the members of a report, of the right kinds."""
    counts = all(isinstance(report.get(name), int) for name in ("files", "classes", "methods", "profile"))
    lists = all(isinstance(report.get(name), list) for name in ("skipped", "not_analysed", "warnings"))
    return counts and lists and all(warning_has_form(warning) for warning in report["warnings"])


# The members of a side of a warning.
SIDE = {"at": list, "kind": str, "locked": bool, "main": bool, "method": str, "path": str}


def warning_has_form(warning):
    """Whether a warning and its partner have their members."""
    return all(
        isinstance(side[name], kind)
        for side in (warning, warning["with"])
        for name, kind in SIDE.items()
    ) and isinstance(warning["mark"]["word"], str)


def read_object(text, name):
    """The report that a text is, or the line that stands in its place, one of the two; and what --typed tells."""
    line = text[:-1]
    if text.startswith("refused ") and text.endswith("\n") and "\n" not in line:
        return None, line, {}
    try:
        report, end = json.JSONDecoder().raw_decode(text)
        good = isinstance(report, dict) and has_form(report)
    except (ValueError, KeyError, TypeError, RecursionError) as fault:
        raise Fault(f"{name}: no report of racer --json: {first_line(text) or repr(fault)}") from fault
    lines = [line for line in text[end:].split("\n") if line] if good else []
    found = [TYPING.fullmatch(line) for line in itertools.takewhile(TYPING.fullmatch, lines)]
    if not good or not all(map(EVENT.fullmatch, lines[len(found):])):
        raise Fault(f"{name}: no report of racer --json, which has other members, and typings and a history behind it")
    return report, "", {one["typed"] or one["untyped"]: one["place"] or "" for one in found}


def first_line(text):
    """The first line of a text, for a message; nothing where it looks like JSON."""
    line = text.split("\n", 1)[0][:200]
    return "" if line.startswith("{") else line


def read_text(name):
    """What a file, or standard input where the name is -, says."""
    try:
        if name == "-":
            return sys.stdin.buffer.read().decode("utf-8")
        with open(name, "rb") as source:
            return source.read().decode("utf-8")
    except (OSError, ValueError) as fault:
        raise Fault(f"{'standard input' if name == '-' else name} can't be read: {fault}") from fault


def read_json(name):
    """The object that a file of racer-packages is."""
    try:
        found = json.loads(read_text(name))
    except ValueError as fault:
        raise Fault(f"{name}: no file of racer-packages: {fault}") from fault
    if not isinstance(found, dict):
        raise Fault(f"{name}: no file of racer-packages")
    return found


def read_manifest(out):
    """What racer-packages was asked: its tree and its packages."""
    manifest = read_json(os.path.join(out, MANIFEST))
    if not isinstance(manifest.get("tree"), str) or not isinstance(manifest.get("packages"), list):
        raise Fault(f"{os.path.join(out, MANIFEST)}: no file of racer-packages")
    return manifest


def read_package(out, tree, package):
    """What racer said of one package of a folder that racer-packages made."""
    folder = os.path.join(out, package)
    facts = read_json(os.path.join(folder, FACTS))
    text = read_text(os.path.join(folder, OBJECT))
    under, sources = folder_prefix(package), joined(tree, package)
    report, refusal, typings = None, first_line(text) or "nothing was said", {}
    if facts["status"] in (0, 1):
        report, refusal, typings = read_object(text, os.path.join(folder, OBJECT))
    elif facts["status"] != 5:
        refusal = f"status {facts['status']}: {refusal}"
    left_out, checked = facts["left_out"], facts["checked"]
    return Report(package, under, sources, report, refusal, left_out, checked, True, facts, typings=typings)


def read_packages(out, under, sources):
    """All that racer-packages left in a folder, in the order of the packages; the two may stand for its tree."""
    manifest = read_manifest(out)
    try:
        found = [read_package(out, manifest["tree"], package) for package in manifest["packages"]]
    except (KeyError, TypeError) as fault:
        raise Fault(f"{out}: other files than those of racer-packages: {fault!r}") from fault
    for report in found:
        report.under = folder_prefix(joined(under, report.package)) if under is not None else report.under
        report.sources = joined(sources, report.package) if sources is not None else report.sources
        report.words = shlex.join([out, report.package])
    return found


def read_reports(name, under=None, sources=None):
    """The reports that a word names: a report, - for standard input, or a folder that racer-packages made."""
    if name != "-" and os.path.isdir(name):
        if not os.path.exists(os.path.join(name, MANIFEST)):
            raise Fault(f"{name}: a folder that racer-packages did not make: it has no {MANIFEST}")
        return read_packages(name, under, sources)
    report, refusal, typings = read_object(read_text(name), "standard input" if name == "-" else name)
    prefix = folder_prefix(under if under is not None else sources or "")
    words = shlex.quote(name) if name != "-" else ""
    return [Report(prefix.rstrip("/"), prefix, sources, report, refusal, [], words=words, typings=typings)]


def read_named(words):
    """The reports that words name, each under the last --under and --sources before it."""
    reports, told = [], {"--under": None, "--sources": None}
    rest = list(words)
    while rest:
        word = rest.pop(0)
        option, equal, value = word.partition("=")
        if option in told:
            if not equal and not rest:
                raise Fault(f"nothing stands behind {word}")
            told[option] = value if equal else rest.pop(0)
        elif word.startswith("-") and word != "-":
            raise Fault(f"{word}: no such word (--help says which there are)")
        else:
            reports += read_reports(word, told["--under"], told["--sources"])
    if not reports:
        raise Fault("the name of a report has to stand there, or - for standard input (--help says more)")
    return reports


def split_place(place):
    """The file, line and column of a place."""
    name, line, column = place.rsplit(":", 2)
    return name, int(line), int(column)


def refusal_text(report):
    """A refusal as a line that compilers would print."""
    found = REFUSED.fullmatch(report.refusal)
    if found:
        return f"{report.under}{found['file']}{found['place'] or ''}: refused: {found['why']}"
    said = re.sub("^refused ", "refused: ", report.refusal)
    return f"{report.under.rstrip('/') or '.'}: {said}"
