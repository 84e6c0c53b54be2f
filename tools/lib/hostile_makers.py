"""Folders and witnesses that are hard on a reader. Each maker gets dice, and gives the words behind the folder and the files."""
import json
import re
from pathlib import Path

TOP = Path(__file__).resolve().parent.parent.parent
MEBIBYTE = 1 << 20
TOKEN = re.compile(rb"\s+|\w+|[^\w\s]")
STATEMENT = re.compile(rb"[^;{}]*[;{}]?")
BRACKETS = ("()", "[]", "{}")
# What stands before and behind many tokens, so that they are members, a body, an initialiser or an annotation's.
PLACES = (
    ("", ""),
    ("class A { ", " }"),
    ("@ThreadSafe class A { int x; void m() { x = 1; ", " } }"),
    ("@ThreadSafe class A { int x; void m() { x = ", "; } }"),
    ("class A { int x = ", "; }"),
    ("@N( ", " ) class A { }"),
    ("class A { void m( ", " ) { } }"),
)
# Each kind of token, and some that are read in more than one way.
PIECES = (
    *("if ", "true ", "a ", "1 ", "'a' ", '"a" ', "; ", "{}", "()", "[]", ">", ">>>=", "!", "( a ) ", "a < ", "x . "),
    *("/**/", "//\n", " ", "\n", "int v ; ", "x = 1 ; ", "m ( ) ; "),
    *("if ( x ) ", "@ N ", "a , ", "a ? a : ", "new A ( ) ; "),
)
WITNESS = (
    '{"class":"Gate","entries":["b/0","a/0"],"legs":[{"steps":9,"thread":1,"turns":""},'
    '{"steps":3,"thread":0,"turns":""}],"objects":[],"path":"this.c","version":2}'
)


def sources():
    """The sources of the examples and of the worked rows."""
    folders = [TOP / "examples", TOP / "docs/example", TOP / "crates/racer_rows/data"]
    names = sorted(name for folder in folders for name in folder.rglob("*.java"))
    return [name.read_bytes() for name in names]


def some_source(dice):
    """One of them."""
    return dice.choice(sources())


def changed_bytes(dice):
    """A source in which some bytes are others, gone or new, most of them bytes that it has elsewhere."""
    text = bytearray(some_source(dice))
    for _ in range(dice.choice((1, 1, 2, 3, 12))):
        at = dice.randrange(len(text) + 1)
        own = dice.choice(text or b" ")
        new = dice.choice((own, own, dice.choice(b"(){}[]<>;,.@\"'/*\\="), dice.randrange(256)))
        text[at : at + dice.randrange(2)] = dice.choice((b"", bytes([new]), bytes([new])))
    return [], {"A.java": bytes(text)}


def changed_tokens(dice):
    """A source in which some tokens or statements are repeated, gone or exchanged."""
    pieces = dice.choice((TOKEN, STATEMENT, STATEMENT)).findall(some_source(dice))
    for _ in range(dice.choice((1, 1, 2, 6))):
        at, other = dice.randrange(len(pieces)), dice.randrange(len(pieces))
        some = pieces[at : at + dice.choice((1, 1, 1, 8))]
        piece = b"".join(some)
        new = dice.choice((b"", piece * 2, piece * (1 + 10_000 // (1 + len(piece))), pieces[other]))
        pieces[at : at + len(some)] = [new]
    return [], {"A.java": b"".join(pieces)}


def nested(dice):
    """Brackets and trees that nest about as deep as they may, or much deeper."""
    depth = dice.choice((dice.randrange(190, 205), 100_000))
    before, behind = dice.choice(PLACES)
    kinds = (*BRACKETS, *BRACKETS, "! ", "(a)", "if(a) ", "a.<", "a?a:", "while(a) ", "- ", "x=")
    pairs = [dice.choice(kinds) for _ in range(3)]
    opened = [pairs[i % dice.randrange(1, 4)] for i in range(depth)]
    text = "".join(pair[0] if pair in BRACKETS else pair for pair in opened)
    text += "".join(pair[1] for pair in reversed(opened) if pair in BRACKETS)
    return [], {"A.java": (before + text + behind).encode()}


def long_names(dice):
    """Names of 60,000 letters, of classes, fields, methods and variables."""
    name = "".join(dice.choice("abcXYZ_$0") for _ in range(60_000))
    names = {part: part + (name if dice.randrange(2) else "") for part in "CFMV"}
    text = "@ThreadSafe class {C} {{ int {F}; {C} n; void {M}({C} {V}) {{ this.{F} = 1; n.{F} = 2; n = {V}; }} "
    text += "void w() {{ n.{M}(n.n); }} }}"
    return [dice.choice(("--json", "--summaries", "--history"))], {"A.java": text.format(**names).encode()}


def at_the_limit(dice):
    """A file of 1 MiB, one byte less or one more, of one piece repeated."""
    before, behind = dice.choice(PLACES)
    piece = dice.choice(PIECES)
    room = MEBIBYTE + dice.choice((-1, 0, 0, 0, 1)) - len(before) - len(behind)
    text = before + piece * (room // len(piece)) + " " * (room % len(piece)) + behind
    return [], {"A.java": text.encode()}


def many_files(dice):
    """About as many files as there may be, and about as many classes."""
    files, classes = dice.choice((4_095, 4_096, 4_097)), dice.choice((0, 2_047, 2_048, 2_049))
    texts = ["@ThreadSafe class C%d { int a; void m() { a = 1; } }" % i for i in range(classes)]
    texts += [""] * (files - classes)
    return [], {"p%d/C%d.java" % (i % 64, i): text.encode() for i, text in enumerate(texts)}


def deep_calls(dice):
    """A chain of methods, or a cycle, each calling the next once or twice, in the order of calls or against it."""
    count, times = dice.choice((50, 500, 2_000)), dice.randrange(1, 3)
    last = "m0();" if dice.randrange(4) == 0 else "a = 1;"
    bodies = [("m%d();" % (i + 1)) * times for i in range(count - 1)] + [last]
    methods = ["void m%d() { %s }\n" % (i, body) for i, body in enumerate(bodies)]
    if dice.randrange(2):
        methods.reverse()
    return [], {"A.java": ("@ThreadSafe class A { int a;\n%s}" % "".join(methods)).encode()}


def wide_calls(dice):
    """Methods that each call many others, which stand before or behind them, and about as many call edges as there may be."""
    callers, callees = dice.choice(((16, 1_000), (256, 256), (257, 256), (1, 4_000), (64, 500)))
    calls = "".join("b%d();" % i for i in range(callees))
    called = ["private void b%d() { f%d = 1; }\n" % (i, i % 20) for i in range(callees)]
    calling = ["void a%d() { %s }\n" % (i, calls) for i in range(callers)]
    methods = calling + called if dice.randrange(2) else called + calling
    fields = ", ".join("f%d" % i for i in range(20))
    return [], {"A.java": ("@ThreadSafe class A { int %s;\n%s}" % (fields, "".join(methods))).encode()}


def changed_member(dice):
    """The text of a witness that has its form, and other turns, steps, threads, entries or objects."""
    witness = json.loads(WITNESS)
    leg = dice.choice(witness["legs"])
    object_text = dice.choice(("this.c", "Gate.c", "0#0.c", "this" + ".c" * 1_000))
    changes = [
        lambda: leg.update(steps=dice.choice((dice.randrange(20), 65_536))),
        lambda: leg.update(turns="".join(dice.choice("LR") for _ in range(dice.choice((1, 20, 65_536))))),
        lambda: witness["legs"].reverse(),
        lambda: witness["entries"].reverse(),
        lambda: witness["entries"].__setitem__(dice.randrange(2), dice.choice(("a/0", "b/0", "c/0", "a/1", "\n"))),
        lambda: witness["objects"].extend([object_text] * dice.choice((1, 500_000 // len(object_text)))),
    ]
    for _ in range(dice.randrange(1, 3)):
        dice.choice(changes)()
    return json.dumps(witness)


def changed_text(dice):
    """The text of a witness in which some bytes are others, gone or many more."""
    text = WITNESS
    for _ in range(dice.choice((1, 1, 3))):
        at = dice.randrange(len(text))
        new = ("", '"', "{", "[", "]", "0", "9", "65537", "-", "1e9", "\\u0041", "null", "R" * 70_000, '"a",' * 140_000)
        text = text[:at] + dice.choice(new) + text[at + dice.randrange(3) :]
    return text


def forged_witness(dice):
    """A replay of a witness that was changed."""
    gate = (TOP / "crates/racer_rows/data/replay/gate/Gate.java").read_bytes()
    text = dice.choice((changed_member, changed_text))(dice)
    return ["--replay", "w.json"], {"Gate.java": gate, "w.json": text.encode()}


MAKERS = (
    *(changed_bytes, changed_tokens, nested, long_names, at_the_limit),
    *(many_files, deep_calls, wide_calls, forged_witness),
)
