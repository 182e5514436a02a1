"""Texts that are broken, or may be: prefixes and changes of accepted ones, random bytes, tokens and networks."""
import random

from .operations import ARGUMENTS, CMP, COMPARISONS, FORMS, OPERATIONS, STORED, STORED_CLASS, TEXT
from .rules import MOST_BYTES

# Accepted texts with every operation and form, and all that may stand between tokens.
TEXTS = [
    "id",
    "pipe(add 1 5, sub 2 -7, mul 64 9223372036854775807)",
    "comb(div 1 -9223372036854775808, rem 3 10)",
    " # double it\npipe(\n\tmul 1 2,\r\n  add 01 -0)# and one more",
    'pipe(set 1 "a # b", ifeq 2 "", has 3 "c;d(,)")',
    'set 5 "\r\xe9"',
    "pipe(keep 1, drop 2, swap 1 64, copy 3, len 4)",
    "pipe(upper 1,lower 2,words 3,dup 64,halve 5,plus 6 7,neg 8)",
    "pipe(if 1 < 5, if 2<=-3, if 3 = 0, if 4!=1, if 5 >= 2, if 6 >9)",
    "pipe(number, runsum 1, delta 2, take 1000000000, skip 0, uniq 3)",
    "pipe(farm 3 rr (id), total 1)",
    "farm 2 od (pipe(words 1, comb(lower 1, id)))",
    "ofarm 64 rr (comb(add 1 1, neg 1))",
    "pipe(ofarm 2 od (pipe(words 1, if 1 > 1)), number)",
    "a2a 2 (words 1) by 1 2 (tallyby 1)",
    "pipe(id, a2a 1 (comb(id, id)) by 64 3 (totalby 64 2), tally)",
    "a2a 2 (id) rr 3 (id)",
    "pipe(a2a 01 (upper 1) od 1 (lower 1), farm 2 rr (farm 2 od (id)))",
    "wrap 2 (halve 1) if 1 > 1",
    "pipe(min 1, wrap 3 (comb(sub 1 3, id)) if 64 != -9223372036854775808, max 1)",
    "pipe(" * 15 + "id" + ")" * 15,
]
# All its prefixes are tried; as a whole it breaks a rule.
MANY_PARTS = "pipe(" + ", ".join(["id"] * 65) + ")"
# Texts with a form too deep, and with networks that break the rules N2 to N14, but N5.
REFUSED = [
    "pipe(" * 15 + "farm 1 rr (id" + ")" * 16,
    "pipe(id, " * 14 + "comb(comb(id" + ")" * 16,
    MANY_PARTS,
    "pipe(id, a2a 64 (id) rr 0 (id))",
    "pipe(farm 63 rr (id), ofarm 62 od (id))",
    "comb(id, pipe(id))",
    "farm 2 rr (ofarm 2 rr (pipe(id, number)))",
    "pipe(id, ofarm 2 od (pipe(id, farm 1 rr (id))))",
    "a2a 2 (comb(id, tally)) rr 2 (pipe(id))",
    "pipe(farm 2 rr (id), comb(id, uniq 1), number)",
    "pipe(a2a 2 (id) by 2 2 (tallyby 1))",
    "pipe(wrap 2 (pipe(id)) if 0 > 1, id)",
    "pipe(id, pipe(id, wrap 2 (id) if 1 > 1))",
    "a2a 2 (id) by 65 2 (id)",
]

ALPHABET = b"abcdefghijklmnopqrstuvwxyz0123456789(),<=>!-\"# \n\t"
WORDS = [*ARGUMENTS, *FORMS, "rr", "od", "by", "if", "let", "ffrun2", "call", "idd", "x1"]
NUMBERS = [0, 1, 2, 3, 63, 64, 65, -1, 10**9, 10**9 + 1, 2**32 - 1, 2**32, 2**63 - 1, 2**63, -(2**63), -(2**63) - 1, 2**64 + 1]
MARKS = ["(", ")", ",", "<", "<=", "=", "!=", ">=", ">", ";", "!", "-", '"', '""', '"a b"', "#", "\n", "?", "A"]


def prefixes(text):
    return (text[:length] for length in range(len(text)))


def changes(text):
    """A text with each byte changed into each other one."""
    for at, byte in enumerate(text):
        for other in range(256):
            if other != byte:
                yield text[:at] + bytes([other]) + text[at + 1 :]


def broken(draw, text):
    """A prefix of a text, or a change of one byte, mostly into one that a text may hold."""
    at = draw.randrange(len(text))
    other = draw.choice([draw.choice(ALPHABET), draw.choice(ALPHABET), draw.randrange(256)])
    return draw.choice([text[:at], *[text[:at] + bytes([other]) + text[at + 1 :]] * 5])


def random_bytes(draw):
    return draw.randbytes(draw.randrange(40))


def random_tokens(draw):
    """Tokens in a random order behind the beginning of an accepted text."""
    kinds = [WORDS, NUMBERS, MARKS]
    tokens = [str(draw.choice(draw.choice(kinds))) for _ in range(draw.randrange(1, 8))]
    text = draw.choice(TEXTS)
    return (text[: draw.randrange(len(text) + 1)] + " ".join(tokens)).encode("latin-1")


def argument(draw, wanted):
    if wanted == CMP:
        return draw.choice(COMPARISONS)
    if wanted == TEXT:
        return draw.choice(['""', '"a b"', '"#"'])
    if wanted == STORED:
        return '"%s"' % draw.choice(list(STORED_CLASS))
    return str(draw.choice(NUMBERS[1:6]))


def leaf(draw, names):
    name = draw.choice(names)
    return " ".join([name, *(argument(draw, wanted) for wanted in ARGUMENTS[name])])


def node(draw):
    """An operation, mostly one that takes one record after another, or a comb."""
    classes = ["plain"] * 9 + ["ordered", "ordered", "fold", "keyed"]
    leaves = [leaf(draw, list(OPERATIONS[draw.choice(classes)])) for _ in range(draw.choice([1, 1, 1, 2]))]
    return leaves[0] if len(leaves) == 1 else "comb(%s)" % ", ".join(leaves)


def random_network(draw, room):
    """A network with at most so many forms round one another, which may break rules."""
    form = draw.choice(["node", *FORMS, "pipe", "pipe"]) if room else "node"
    if form == "node":
        return node(draw)
    parts = [random_network(draw, draw.choice([0, 0, room - 1])) for _ in range(draw.choice([1, 2, 3, 3]))]
    count, other = (draw.choice([1, 1, 2, 2, 3, 3, 4, 5, 64, draw.choice([0, 40, 65, 2**32 - 1])]) for _ in range(2))
    if form in ("pipe", "comb"):
        return "%s(%s)" % (form, ", ".join(parts * draw.choice([1] * 20 + [33])))
    if form in ("farm", "ofarm"):
        return "%s %d %s (%s)" % (form, count, draw.choice(["rr", "od"]), parts[0])
    if form == "wrap":
        return "wrap %d (%s) if %d > 5" % (count, parts[0], draw.choice([0, 1, 64, 65]))
    route = draw.choice(["rr", "od", "by 1", "by 2", "by 0", "by 65"])
    right = draw.choice([parts[-1], leaf(draw, list(OPERATIONS["keyed"]))])
    return "a2a %d (%s) %s %d (%s)" % (count, parts[0], route, other, right)


def cases(whole, calls, seed):
    """The texts to try."""
    draw = random.Random(seed)
    texts = [text.encode("latin-1") for text in TEXTS]
    yield from texts
    yield from prefixes(MANY_PARTS.encode())
    yield from (text.encode() for text in REFUSED)
    yield b"id".ljust(MOST_BYTES)
    yield b"id".ljust(MOST_BYTES + 1)
    if whole:
        yield from (case for text in texts for case in (*prefixes(text), *changes(text)))
    else:
        yield from (broken(draw, draw.choice(texts)) for _ in range(calls // 2))
    makers = [random_bytes, random_tokens, random_tokens, lambda draw: random_network(draw, draw.randint(1, 4)).encode()]
    for number in range(calls // 2):
        yield makers[number % len(makers)](draw)
