"""The objects that a confirmed run begins with, as a drawing: boxes, an arrow for each field, the raced cell marked."""
from page_html import plain, safe

# How many boxes are drawn, how many characters of a text, and the sizes of things in the drawing's units.
MOST = 12
LONGEST = 30
LETTER, LINE, ROOM, INDENT = 7.3, 20, 8, 22


class Box:
    """An object: its path, the field and the box that lead to it, and the raced cell in it, where there is one."""

    def __init__(self, path, field, parent):
        self.path, self.field, self.parent = path, field, parent
        self.depth = parent.depth + 1 if parent else 0
        self.inner, self.cell = [], None


def object_of(path):
    """The path of the object that has the last field of a path, and this field."""
    before, _, field = path.rpartition(".")
    return before, field


def boxes_of(raced, objects):
    """The boxes to draw, the raced cell's first and each before those that it leads to, and how many are left out."""
    owner, cell = object_of(raced)
    found, left_out = {}, 0
    for path in [owner, *objects]:
        fields = path.split(".")
        paths = [".".join(fields[: i + 1]) for i in range(len(fields))]
        if len(found) + sum(one not in found for one in paths) > MOST and found:
            left_out += path not in found
            continue
        for one, field, before in zip(paths, fields, [None, *paths]):
            if one not in found:
                found[one] = Box(one, field, found.get(before))
                if before is not None:
                    found[before].inner.append(found[one])
    found[owner].cell = cell
    return list(found.values()), left_out


def in_order(boxes):
    """The boxes from top to bottom: each with those that it leads to right below it."""
    waiting, found = [box for box in reversed(boxes) if box.parent is None], []
    while waiting:
        found.append(waiting.pop())
        waiting += reversed(found[-1].inner)
    return found


def title_of(box, owner):
    """What stands in a box."""
    if box.parent is not None:
        return box.path
    if box.path == "this":
        return f"this: {owner}"
    if "#" in box.path:
        thread, _, parameter = box.path.partition("#")
        return f"parameter {parameter} of thread {thread}"
    return f"static fields of {box.path}"


def short(text):
    """A text for a drawing, cut at its beginning where it is long."""
    shown = plain(text)
    return shown if len(shown) <= LONGEST else "\u2026" + shown[1 - LONGEST :]


def width_of(text):
    """How wide a text is, at most."""
    return round(len(text) * LETTER + 2 * ROOM)


def box_svg(box, title, top, kinds):
    """A box at this height, with its cell and what each thread does there; its right edge and its lower one."""
    x, y = box.depth * INDENT + 1, top + LINE
    texts = [short(box.cell), *(f"thread {thread} {kind}" for thread, kind in enumerate(kinds))] if box.cell else []
    width = max([width_of(title), *(width_of(text) + 2 * ROOM for text in texts)])
    height = LINE + ((len(texts) * LINE + ROOM) if texts else 0)
    parts = [f'<rect class="box" x="{x}" y="{top}" width="{width}" height="{height}" rx="3"/>']
    parts.append(f'<text x="{x + ROOM}" y="{top + 14}">{safe(title)}</text>')
    if texts:
        parts.append(f'<rect class="cell" x="{x + ROOM}" y="{y}" width="{width - 2 * ROOM}" height="{LINE}"/>')
    for i, (text, kind) in enumerate(zip(texts, ("raced", "first", "second"))):
        parts.append(f'<text class="{kind}" x="{x + 2 * ROOM}" y="{y + i * LINE + 14}">{safe(text)}</text>')
    return "".join(parts), x + width, top + height


def arrow_svg(box, bottom, top):
    """The arrow from the box that leads to this one, whose lower edge is at `bottom`, with the field's name."""
    x, y, end = (box.depth - 1) * INDENT + 10, top + LINE // 2, box.depth * INDENT + 1
    name = f'<text class="field" x="{x + 6}" y="{top - 5}">{safe(short(box.field))}</text>'
    line = f'<path class="arrow" d="M{x} {bottom}V{y}H{end - 5}"/>'
    return name + line + f'<path class="head" d="M{end} {y}l-7 -4v8z"/>'


def drawing(owner, raced, objects, kinds):
    """The objects as SVG, and a line on those that are left out: of a run on a checked class, its raced path, the paths
    of its objects, and what the two threads do there in words."""
    boxes, left_out = boxes_of(raced, objects)
    parts, bottoms, y, right = [], {}, 1, 0
    for box in in_order(boxes):
        title = short(title_of(box, owner))
        y += LINE - 2 if box.parent else 0
        if box.parent:
            parts.append(arrow_svg(box, bottoms[id(box.parent)], y))
            right = max(right, box.depth * INDENT + width_of(short(box.field)))
        made, edge, bottom = box_svg(box, title, y, kinds)
        parts.append(made)
        bottoms[id(box)], right, y = bottom, max(right, edge), bottom + ROOM
    told = f"Objects at the start: {', '.join(box.path for box in boxes)}. The raced cell is {raced}."
    size = f'viewBox="0 0 {right + 2} {y}" width="{right + 2}" height="{y}"'
    svg = f'<svg class="objects" role="img" aria-label="{safe(told)}" {size}>{"".join(parts)}</svg>'
    more = f'<p class="dim">and {left_out:,} more objects that the run reads</p>' if left_out else ""
    return svg + more
