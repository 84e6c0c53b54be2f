"""Pieces of a page: texts of sources and names that can hold no markup, counts and lists."""
import html
import re

# What shows nothing, ends a line or turns the order of what stands beside it.
HIDDEN = re.compile(
    "[\x00-\x08\x0a-\x1f\x7f-\x9f\xad\u061c\u180e\u200b-\u200f\u2028-\u202e\u2060-\u206f\ufeff\ufff9-\ufffb\ufffe\uffff"
    "\U000e0000-\U000e007f]"
)
# Halves of pairs, and bytes of names that are no UTF-8.
NO_CHARACTER = re.compile("[\ud800-\udfff]")


def plain(text):
    """A text of which each character is shown: one that shows nothing by its number."""
    known = HIDDEN.sub(lambda found: f"[U+{ord(found[0]):04X}]", text)
    return NO_CHARACTER.sub("\ufffd", known)


def safe(text):
    """A text as the content of an element, or in an attribute between double quotes."""
    return html.escape(plain(text), quote=False).replace('"', "&quot;")


def code(text):
    """A text of the sources, such as a name."""
    return f"<code>{safe(text)}</code>"


def folder(name):
    """The name of a folder, which may be broken behind each part; nothing where it has none."""
    return f'<span class="folder">{safe(name).replace("/", "/<wbr>")}</span>' if name else ""


def number(count):
    """A number, in groups of three digits."""
    return f"{count:,}"


def many(count, word):
    """A number of things."""
    return f"{number(count)} {word}" if count == 1 else f"{number(count)} {word}{'es' if word.endswith('s') else 's'}"


def counted_words(counts):
    """How often each word is there, as a text; the counts are pairs of a word and its number."""
    return ", ".join(f"{number(count)} {safe(word)}" for word, count in counts)


def chip(kind, text):
    """A word or two in a frame, of a kind that the style knows."""
    return f'<span class="chip {kind}">{safe(text)}</span>'


def folded(summary, content, kind="", is_open=False):
    """A part that can be folded: a line that stands there always, and what it stands for."""
    attributes = (f' class="{kind}"' if kind else "") + (" open" if is_open else "")
    return f"<details{attributes}><summary>{summary}</summary>\n{content}</details>\n"


def listed(items, kind=""):
    """A list; each item is HTML already."""
    attribute = f' class="{kind}"' if kind else ""
    return f"<ul{attribute}>\n" + "".join(f"<li>{item}\n" for item in items) + "</ul>\n"
