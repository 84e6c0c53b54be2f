"""The turns of a confirmed warning in words: at which condition each is taken, and whether they agree."""
from java_folder import read_classes
from java_walk import Plan, walked
from package_trees import read_sources
from report_files import joined, split_place
from report_types import offset, source_files


def sources_of(report):
    """The sources that a report is of, each with its bytes; none where they are not at hand."""
    if not report.sources:
        return []
    left = {name for name, _, _ in report.left_out}
    try:
        if report.is_package:
            found = read_sources(report.sources)[0]
        else:
            found = []
            for name in source_files(report):
                with open(joined(report.sources, name), "rb") as file:
                    found.append((name, file.read()))
    except OSError:
        return []
    return [(name, data) for name, data in found if name not in left]


class Turns:
    """The turns of warnings; the sources of each report are read once."""

    def __init__(self):
        self.known = {}

    def read(self, report):
        """The classes of a report's sources, and the bytes of its files."""
        if id(report) not in self.known:
            sources = sources_of(report)
            self.known[id(report)] = (read_classes(sources), dict(sources))
        return self.known[id(report)]

    def of_leg(self, report, warning, leg):
        """The turns of a leg of a warning's run; nothing where the sources do not tell them."""
        walk = self.walk(report, warning, leg)
        return walk and walk.turns

    def walk(self, report, warning, leg, plan=None):
        """The walk of a leg of a warning's run, by its letters or by a plan; nothing where it does not come there."""
        classes, files = self.read(report)
        witness, thread = warning["mark"]["witness"], leg["thread"]
        name, line, column = split_place((warning, warning["with"])[thread]["at"][-1])
        if witness["class"] not in classes or name not in files:
            return None
        access = (name, offset(files[name], line, column))
        return walked(classes, witness["class"], witness["entries"][thread], leg["turns"], access, plan)

    def place(self, report, turn):
        """Where the condition of a turn stands, as a report tells it."""
        data = self.read(report)[1][turn.file]
        line, column = data.count(b"\n", 0, turn.place) + 1, turn.place - data.rfind(b"\n", 0, turn.place)
        return f"{turn.file}:{line}:{column}"

    def agreeing(self, report, warning, leg):
        """The turns of a leg as they are where none contradicts another: the turns that follow from one that is at a
        condition as a whole are those of the leg; nothing where the sources do not tell them."""
        walk = self.walk(report, warning, leg)
        if not walk or not walk.turns:
            return walk and walk.turns
        plan = Plan({turn.key: turn.letter for turn in walk.turns}, walk.holds, walk.turns[-1].key)
        walk = self.walk(report, warning, leg, plan)
        return walk and walk.turns


def contradicting(turns):
    """The turns that contradict those before them."""
    return [turn for turn in turns or () if not turn.agrees]


def turn_text(turn):
    """What a turn says of its condition."""
    if not turn.told and turn.kind == "for" and ":" in turn.text and ";" not in turn.text and "?" not in turn.text:
        return f"for ({turn.text}): {'one more' if turn.holds else 'no more'}"
    told = f"{turn.kind} ({turn.text})" if turn.kind in ("if", "while", "for") else f"({turn.text}) {turn.kind}"
    against = "" if turn.agrees else ", against the turns in it"
    if turn.told:
        return turn.told + against
    return f"{told}: {'holds' if turn.holds else 'does not hold'}{against}"
