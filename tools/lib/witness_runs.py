"""Replays of witnesses on a copy of the sources that a report is of, and runs whose turns agree."""
import json
import os
import re
import subprocess
import tempfile

from report_files import Fault
from report_turns import Turns, contradicting, sources_of

STOPS = re.compile(r"stops at leg ([01]) step ([0-9]+)\n")
NAME = "witness"


class Copy:
    """A copy of the sources of a report, on which witnesses are replayed."""

    def __init__(self, report, words):
        self.words, self.sources = words, sources_of(report)
        if not self.sources:
            raise Fault("the sources of the report are not at hand (--sources FOLDER)")
        self.folder = tempfile.TemporaryDirectory(prefix="racer-witness-")

    def __enter__(self):
        """Makes the copy."""
        for name, data in self.sources:
            path = os.path.join(self.folder.name, name)
            os.makedirs(os.path.dirname(path), exist_ok=True)
            with open(path, "wb") as file:
                file.write(data)
        return self

    def __exit__(self, *_):
        """Removes it."""
        self.folder.cleanup()

    def replay(self, text):
        """What racer says of a witness, and its status."""
        with open(os.path.join(self.folder.name, NAME), "w", encoding="utf-8", errors="surrogateescape") as file:
            file.write(text)
        words = [self.words[0], self.folder.name, "--replay", NAME, *self.words[1:]]
        ended = subprocess.run(words, stdin=subprocess.DEVNULL, stdout=subprocess.PIPE, check=False)
        return ended.stdout.decode("utf-8", "surrogateescape"), ended.returncode

    def steps_to_end(self, witness, leg, turns):
        """How many steps a leg makes by its turns until it needs one more, or can't go on."""
        legs = [dict(one) for one in witness["legs"]]
        legs[leg].update(turns=turns, steps=65536)
        found = STOPS.fullmatch(self.replay(json.dumps({**witness, "legs": legs}))[0])
        return int(found[2]) if found and int(found[1]) == leg else None


def replayed(report, text, words):
    """What racer, by the program and further words, says of a witness on the sources of a report, and its status."""
    with Copy(report, words) as copy:
        return copy.replay(text)


def agreed_leg(copy, witness, number, turns):
    """A leg with other turns, which ends as many steps behind its last turn as it did; nothing where it can't."""
    leg, text = witness["legs"][number], "".join(turn.letter for turn in turns)
    was = copy.steps_to_end(witness, number, leg["turns"][:-1])
    now = copy.steps_to_end(witness, number, text[:-1])
    if was is None or now is None:
        return None
    return {**leg, "turns": text, "steps": leg["steps"] - was + now}


def agreed(report, warning, words):
    """A witness of a warning whose turns agree, and which still races; or nothing, and why there is none."""
    turns, witness = Turns(), warning["mark"]["witness"]
    told = [turns.of_leg(report, warning, leg) for leg in witness["legs"]]
    if None in told:
        return None, "the sources at hand do not tell its turns"
    if not any(contradicting(found) for found in told):
        return witness, ""
    made = {**witness, "legs": list(witness["legs"])}
    with Copy(report, words) as copy:
        for number, (leg, found) in enumerate(zip(witness["legs"], told)):
            if not contradicting(found):
                continue
            other = turns.agreeing(report, warning, leg)
            if other is None or contradicting(other):
                return None, f"no turns of leg {number} agree that come by the access"
            new = agreed_leg(copy, made, number, other)
            if new is None:
                letters = "".join(turn.letter for turn in other)
                return None, f"by the turns that agree, {letters}, leg {number} can't go on"
            made["legs"][number] = new
        answer, status = copy.replay(json.dumps(made))
    if status != 0:
        return None, f"the run whose turns agree does not race: {answer.strip()}"
    return made, ""
