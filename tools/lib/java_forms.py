"""The forms of Java in a method that racer does not read, by tokens alone: why a method is `outside`."""

CLOSING = {b"(": b")", b"[": b"]", b"{": b"}"}

# The order in which they are told.
UNLOCK = "unlock in a finally"
ORDER = (UNLOCK, "super", "this(..)", "new behind a point", "native", "other")


def closed(tokens, i):
    """Behind the bracket that closes the one here, or the end."""
    depth = 0
    for k in range(i, len(tokens)):
        depth += (tokens[k] in CLOSING) - (tokens[k] in (b")", b"]", b"}"))
        if depth == 0:
            return k + 1
    return len(tokens)


def opens_body(tokens, i):
    """Whether the brace here opens the body of a lambda, of a class without a name or of a local class."""
    if i > 0 and tokens[i - 1] == b"->":
        return True
    k, depth = i - 1, 0
    while k >= 0 and (depth > 0 or tokens[k] not in (b";", b"{", b"}", b"(", b"=")):
        if depth == 0 and tokens[k] in (b"class", b"new"):
            return tokens[k - 1 : k] != [b"."] and (tokens[k] == b"class" or tokens[i - 1] == b")")
        depth += (tokens[k] in (b")", b"]")) - (tokens[k] in (b"(", b"["))
        k -= 1
    return False


def read_tokens(tokens):
    """The tokens of a method without the bodies that are passed over."""
    left, i = [], 0
    while i < len(tokens):
        i = closed(tokens, i) if tokens[i] == b"{" and opens_body(tokens, i) else i
        left += tokens[i : i + 1]
        i += 1
    return left


def has_unlock(tokens):
    """Whether a `finally` block unlocks something: where that is no lock field's, it is why a method is `outside`."""
    for i, token in enumerate(tokens[:-1]):
        if token == b"finally" and tokens[i + 1] == b"{":
            inside = tokens[i + 2 : closed(tokens, i + 1)]
            if any(inside[k : k + 3] == [b"unlock", b"(", b")"] for k in range(len(inside))):
                return True
    return False


def stands(tokens, first, second):
    """Whether the first of two tokens stands right before the second."""
    return any(token == first and tokens[i + 1] == second for i, token in enumerate(tokens[:-1]))


def forms_of(tokens, body, modifiers):
    """The forms in a method that racer does not read, from the token behind its modifiers on: its parameters end at
    this place. Nothing that is found here is proved to be why a method is `outside`."""
    found, inside = set(), read_tokens(tokens[body + 1 :])
    if any(token == b"super" and inside[i + 1 : i + 2] != [b"::"] for i, token in enumerate(inside)):
        found.add("super")
    if has_unlock(inside):
        found.add(UNLOCK)
    if stands(inside, b"this", b"("):
        found.add("this(..)")
    if stands(inside, b".", b"new"):
        found.add("new behind a point")
    if not {"native", "default"}.isdisjoint(modifiers):
        found.add("native")
    return sorted(found, key=ORDER.index)
