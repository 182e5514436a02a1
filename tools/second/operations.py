"""The operations and forms of network texts, by the tables of docs/language.md.

Version Two and the operation `call` are written and wait until the program has them: then these two constants become True.
"""
HAS_VERSION_TWO = False
HAS_CALL = False

# What an argument may be: a range of numbers, or one of the kinds below.
FIELD = (1, 64)
NUMBER = (-(2**63), 2**63 - 1)
COUNT = (0, 2**32 - 1)
NONZERO, CMP, TEXT, STORED = "a number but 0", "a comparison", "a text", "a stored function"

OPERATIONS = {
    "plain": {
        **dict.fromkeys(["neg", "keep", "drop", "copy", "len", "upper", "lower", "words", "halve"], [FIELD]),
        **dict.fromkeys(["add", "sub", "mul"], [FIELD, NUMBER]),
        **dict.fromkeys(["div", "rem"], [FIELD, NONZERO]),
        **dict.fromkeys(["swap", "plus"], [FIELD, FIELD]),
        **dict.fromkeys(["set", "ifeq", "has"], [FIELD, TEXT]),
        "id": [],
        "if": [FIELD, CMP, NUMBER],
        "dup": [(1, 64)],
    },
    "ordered": {
        **dict.fromkeys(["runsum", "delta", "uniq"], [FIELD]),
        "number": [],
        "take": [(1, 10**9)],
        "skip": [(0, 10**9)],
    },
    "fold": {**dict.fromkeys(["total", "min", "max"], [FIELD]), "tally": []},
    "keyed": {"tallyby": [FIELD], "totalby": [FIELD, FIELD]},
}
CLASS_OF = {name: kind for kind, names in OPERATIONS.items() for name in names}
ARGUMENTS = {name: wanted for names in OPERATIONS.values() for name, wanted in names.items()}
STORED_CLASS = {**dict.fromkeys(["digits", "collatz", "isqrt", "square"], "plain"), **dict.fromkeys(["gcd", "xor"], "fold")}
if HAS_CALL:
    ARGUMENTS["call"] = [FIELD, STORED]

FORMS = ("pipe", "comb", "farm", "ofarm", "a2a", "wrap")
NO_NAMES = (*FORMS, "let", "ffrun2", "call")
COMPARISONS = ("<", "<=", "=", "!=", ">=", ">")
