"""A reader of programs, made apart from `ffrun` by what docs/language.md says: what they put out, or what is wrong with them; and random
ones that keep the rules."""
import re

LEAST, MOST = -(2**63), 2**63 - 1
LONGEST, MOST_TASKS, MOST_NAMES, MOST_OUTS = 65536, 4096, 1024, 64
ONE, TWO = ("copy", "neg"), ("add", "sub", "mul", "div", "rem", "min", "max", "divmod")
OPERANDS = {**dict.fromkeys(ONE, 1), **dict.fromkeys(TWO, 2), "pick": 3}
NUMBERS = [0, 0, 1, -1, 2, 7, -7, 10, 2**31, 2**62, LEAST, MOST]


def statements_of(text):
    """The words of each statement."""
    pieces = (piece for line in text.split(b"\n") for piece in line.partition(b"#")[0].split(b";"))
    return [re.findall(rb"=|[^ \t=]+", piece) for piece in pieces if piece.strip(b" \t\r")]


def is_name(word):
    return word != b"out" and re.fullmatch(rb"[a-z][a-z0-9_]{0,31}", word) is not None


def number(word):
    """The number that a word is, None where it is none."""
    found = re.fullmatch(rb"(-?)0*([0-9]{1,19})", word)
    value = int(found[1] + found[2]) if found else None
    return value if found and LEAST <= value <= MOST else None


def parts_of(words):
    """The names, the operation and the operands of a statement, None where it is none. `out` writes no name."""
    if words[0] == b"out":
        return ([], "out", words[1:]) if words[1:] and all(map(is_name, words[1:])) else None
    if b"=" not in words[1:3]:
        return None
    equal = 1 if words[1] == b"=" else 2
    names, operation, operands = words[:equal], b"".join(words[equal + 1:equal + 2]).decode("latin-1"), words[equal + 2:]
    fits = len(names) == (2 if operation == "divmod" else 1) and len(operands) == OPERANDS.get(operation)
    fits = fits and all(map(is_name, names)) and all(is_name(word) or number(word) is not None for word in operands)
    return (names, operation, operands) if fits else None


def broken(program):
    """The lowest rule that is broken, and the statement told; None where all are kept."""
    tasks = [k for k, (names, _, _) in program if names]
    outs = [(k, operands) for k, (names, _, operands) in program if not names]
    if len(tasks) > MOST_TASKS:
        return 1, tasks[MOST_TASKS]
    seen, filled, unfilled = set(), set(), []
    for k, (names, _, operands) in program:
        seen.update(names + [word for word in operands if is_name(word)])
        if len(seen) > MOST_NAMES:
            return 2, k
        if names and any(is_name(word) and word not in filled for word in operands):
            unfilled.append((3, k))
        filled.update(names)
    twins = [(4, k) for k, (names, _, _) in program if len(set(names)) < len(names)]
    spoilt = [(5, k) for k, names in outs if k != len(program) or len(names) > MOST_OUTS or len(set(names)) < len(names)]
    missing = [(6, k) for k, names in outs if not filled.issuperset(names)]
    return next(iter(unfilled + twins + spoilt + [(5, 0)] * (not outs) + missing), None)


def quotient(a, b):
    """A divided by B, cut towards zero."""
    return abs(a) // abs(b) * (1 if (a < 0) == (b < 0) else -1)


def values_of(operation, values):
    """What an operation gives its names, None where that is bad."""
    a, b, c = (values + [None, None])[:3]
    if None in values or operation in ("div", "rem", "divmod") and b == 0:
        return [None, None]
    exact = {
        "copy": lambda: [a], "neg": lambda: [-a], "add": lambda: [a + b], "sub": lambda: [a - b], "mul": lambda: [a * b],
        "div": lambda: [quotient(a, b)], "rem": lambda: [a - b * quotient(a, b)], "min": lambda: [min(a, b)],
        "max": lambda: [max(a, b)], "pick": lambda: [b if a != 0 else c], "divmod": lambda: [quotient(a, b), a - b * quotient(a, b)],
    }[operation]()
    return [value if LEAST <= value <= MOST else None for value in exact]


def written(values):
    """The lines of names and their values."""
    return b"".join(b"%s\t%s\n" % (name, b"bad" if value is None else b"%d" % value) for name, value in values)


def answer(text):
    """What a call with this text ends with: its status, what it writes and what it tells."""
    if len(text) > LONGEST:
        return 2, b"", b"ffrun: text too long\n"
    program = [(k, parts_of(words)) for k, words in enumerate(statements_of(text), 1)]
    spoilt = next((k for k, parts in program if parts is None), None)
    if spoilt:
        return 2, b"", b"ffrun: statement %d: syntax\n" % spoilt
    rule = broken(program)
    if rule:
        return 2, b"", b"ffrun: statement %d: rule M%d\n" % (rule[1], rule[0])
    known = {}
    for _, (names, operation, operands) in program[:-1]:
        known.update(zip(names, values_of(operation, [known[word] if is_name(word) else number(word) for word in operands])))
    return 0, written((name, known[name]) for name in program[-1][1][2]), b""


def drawn(draw):
    """A random program that keeps the rules: eight names, most written more than once."""
    names_so_far, statements = [], []
    for _ in range(draw.randint(1, 40)):
        operation = draw.choice(ONE + TWO + ("pick",))
        among = names_so_far + NUMBERS if draw.random() < 0.5 or not names_so_far else names_so_far
        operands = [draw.choice(among) for _ in range(OPERANDS[operation])]
        names = draw.sample("abcdefgh", 2 if operation == "divmod" else 1)
        statements.append("%s = %s %s" % (" ".join(names), operation, " ".join(map(str, operands))))
        names_so_far.extend(name for name in names if name not in names_so_far)
    draw.shuffle(names_so_far)
    return draw.choice(["; ", "\n", " ;\n # again\n\n"]).join(statements + ["out " + " ".join(names_so_far)])
