"""How a text is cut into tokens."""
import re

from .operations import HAS_VERSION_TWO

BLANKS = re.compile(rb"(?:[ \t\n\r]|#[^\n]*)*")
TOKENS = re.compile(
    rb'(?P<word>[a-z][a-z0-9]*)|(?P<number>-?[0-9]+)|(?P<text>"[^"\t\n]*")|(?P<mark>[(),]|[<>]=?|!?=)|(?P<semicolon>;)'
)


def value_of(digits):
    """The value of a number; one that is outside every range stands for those that are longer."""
    sign, digits = (-1, digits[1:]) if digits.startswith(b"-") else (1, digits)
    digits = digits.lstrip(b"0") or b"0"
    return sign * (int(digits) if len(digits) < 30 else 10**30)


def tokens_of(text):
    """The version of a text, and its tokens up to the first bad byte: each the kind, what it holds, and its place."""
    tokens, at = [], BLANKS.match(text).end()
    version = 1
    while at < len(text):
        found = TOKENS.match(text, at)
        kind = found.lastgroup if found else "bad"
        if HAS_VERSION_TWO and not tokens and found and found.group() == b"ffrun2":
            version = 2
        if kind == "semicolon":
            kind = "mark" if version == 2 else "bad"
        if kind == "bad":
            return version, [*tokens, (kind, None, at)]
        held = found.group()
        tokens.append((kind, value_of(held) if kind == "number" else held.decode("latin-1"), at))
        at = BLANKS.match(text, found.end()).end()
    return version, [*tokens, ("end", None, len(text))]
