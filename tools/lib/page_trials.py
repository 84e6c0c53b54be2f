"""Reports and sources that try to be markup, for the checks of racer-html."""
import json
import os

# What must not become an element, an attribute or a line of the script.
EVIL = "</script><script>window.hacked=1</script><img src=x onerror='window.hacked=1'>\"&amp;&lt;\u2028\u202e\u200b\x07"

# A name with it that a report can have: no line end, and no / in a method but the last.
NAME = "Evil<b onclick=\"window.hacked=1\">&quot;'\u2028\u202e"


def source(kind):
    """The bytes of a source in which line 3 has the field, at column 5."""
    longest = b"x" * 100_000 + b"<script>window.hacked=1</script>"
    before = {"long": longest, "bytes": b"caf\xe9 \xff\xfe \x00 <i>"}.get(kind, EVIL.encode())
    after = {"long": longest, "bytes": b"\xc3\x28 </mark><script>window.hacked=1</script>"}.get(kind, EVIL.encode())
    end = b"\r" if kind == "bytes" else b"\n"
    return end.join([b"// " + before, b"  class A {", b"    evil = 1; // " + after, b"  }", b"// " + after, b""])


def side(file, column, kind="write"):
    """A side of a warning."""
    places = [f"{file}:1:{column}", f"{file}:3:5"]
    method = f"{NAME}.run<script>alert(1)</script>/1"
    return {"at": places, "kind": kind, "locked": True, "main": True, "method": method, "path": f"this.<b>{NAME}.evil"}


def marks():
    """Marks of all kinds with markup in them."""
    legs = [{"steps": 3, "thread": 1, "turns": "<b>LR"}, {"steps": 4, "thread": 0, "turns": "L" * 3000 + "R"}]
    objects = [f"this.<b>{NAME}", f"this.other<script>{NAME}", "1#0.</svg><script>window.hacked=1</script>"]
    objects += [f"this.many{i}" for i in range(200)]
    run = {"class": NAME, "entries": ["a/0", "b/0"], "legs": legs, "objects": objects}
    witness = {**run, "path": f"this.<b>{NAME}.evil", "version": 2}
    yield {"word": "confirmed", "witness": witness}
    yield {"word": "confirmed"}
    yield {"word": "unnamed"}
    yield {"word": "unstable", "path": f"this.{NAME}<script>"}
    yield {"word": "unstable", "path": "this"}
    yield {"word": "unread", "place": "<b>.java:3:5"}
    yield {"word": "long", "steps": 655357}
    yield {"word": "blocked", "thread": 0, "place": "<b>.java:999:5"}
    yield {"word": '"><script>window.hacked=1</script>'}


def report(files):
    """A report with markup in whatever may have it."""
    found = []
    for i, mark in enumerate(marks()):
        file = files[i % len(files)]
        kinds = {"kind": "<b>read" if i == 1 else "read"}
        found.append({**side(file, i + 1), "mark": mark, "with": {**side(file, i + 1), **kinds}})
    for file in ("../secret.java", "/etc/passwd"):
        outside = {**side(file, 1), "at": [f"{file}:1:1"]}
        found.append({**outside, "mark": {"word": "unnamed"}, "with": outside})
    left = [{"method": f"{NAME}.lost<script>/2", "place": f"{files[0]}:1:1", "reason": EVIL}]
    counts = {"classes": 1, "files": len(files), "methods": 3, "profile": 5}
    return {**counts, "not_analysed": left, "skipped": [f"{files[0]}:2:3"], "warnings": found}


def write_json(folder, name, value):
    """Writes a value as a file of a folder."""
    with open(os.path.join(folder, name), "w", encoding="ascii") as out:
        json.dump(value, out)


def write_packages(made, tree):
    """Makes a folder as racer-packages does, of a tree with one package."""
    package = "<i>pack' onclick=\"window.hacked=1\""
    folder = os.path.join(made, "out", package)
    os.makedirs(folder)
    left_out = [["<script>window.hacked=1", ":1:1", EVIL], ["b.java", "", EVIL]]
    write_json(os.path.join(made, "out"), "racer.packages", {"tree": tree, "packages": [package]})
    write_json(folder, "racer.package", {"checked": [NAME], "left_out": left_out, "status": 1})
    write_json(folder, "racer.json", report(["none<b>.java"]))
    return os.path.join(made, "out")


def write(made):
    """Makes a folder of sources, and three reports: one of them, a refusal, and one of racer-packages; the words for
    racer-html."""
    tree = os.fsdecode(os.path.join(os.fsencode(made), b"src <script>\xe9&\"'"))
    files = ["<script>window.hacked=1<b>.java", "a\"b'c&amp;d\u2028\u202e.java", "<b>.java"]
    os.makedirs(tree)
    for file, kind in zip(files, ("evil", "long", "bytes")):
        with open(os.path.join(tree, file), "wb") as out:
            out.write(source(kind))
    with open(os.path.join(made, "secret.java"), "w", encoding="ascii") as out:
        out.write("evil = SECRET;\n")
    write_json(made, "evil.json", report(files))
    with open(os.path.join(made, "refused.json"), "w", encoding="utf-8") as out:
        out.write("refused <script>window.hacked=1</script>.java:1:1 not a unit\n")
    names = [os.path.join(made, name) for name in ("evil.json", "refused.json")]
    return [*names, write_packages(made, tree), "--sources", tree, os.path.join(tree, "none <b>"), tree]


# A class whose warnings have turns and marks that its source explains, and what a page tells of them.
DESK = """@ThreadSafe
class Desk {
  int open;
  Desk next;
  void help(int a, int b) {
    if (a > 0 && b > 0) { open = 1; }
  }
  void lost() { held = super.toString(); }
  void both() { lost(); open = 3; }
  void none() { next.open = 4; }
  void left(int a) { while (a > 0) { if (a > 1) break; a--; } try { if (a < 0) return; } finally { open = 5; } }
}
"""
TOLD = (
    "R Desk.java:6:9 (a &gt; 0) &amp;&amp;: does not hold",
    "L Desk.java:6:9 if (a &gt; 0 &amp;&amp; b &gt; 0): holds, against the turns in it",
    "These turns contradict one another",
    "Desk.lost/0 (outside, for super) is not read",
    "next is null there, or from outside",
    "R Desk.java:11:29 while (a &gt; 0): no more whole round; the next one may end by a jump",
    "L Desk.java:11:29 while (a &gt; 0): holds",
    "L Desk.java:11:80 return: is taken",
)


def desk():
    """A report on that class."""
    def side_of(method, place):
        return {"at": [f"Desk.java:{place}"], "kind": "write", "locked": False, "main": False,
                "method": f"Desk.{method}", "path": "this.open"}

    def confirmed(method, turns):
        legs = [{"steps": 9, "thread": thread, "turns": turns} for thread in (0, 1)]
        run = {"class": "Desk", "entries": [method, method], "legs": legs, "objects": []}
        return {"word": "confirmed", "witness": {**run, "path": "this.open", "version": 2}}

    marks = [("help/2", "6:27", confirmed("help/2", "RL"))]
    marks.append(("left/1", "11:100", confirmed("left/1", "RLL")))
    marks.append(("both/0", "9:25", {"word": "unread", "place": "Desk.java:9:17"}))
    marks.append(("none/0", "10:22", {"word": "blocked", "place": "Desk.java:10:22", "thread": 0}))
    found = [{**side_of(name, at), "mark": mark, "with": side_of(name, at)} for name, at, mark in marks]
    left = [{"method": "Desk.lost/0", "place": "Desk.java:8:8", "reason": "outside"}]
    counts = {"classes": 1, "files": 1, "methods": 6, "profile": 5, "skipped": []}
    return {**counts, "not_analysed": left, "warnings": found}
