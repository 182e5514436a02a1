"""What `ffrun check` has to end with, made apart from the program, by what docs/language.md says of the rules of networks."""
from .operations import FORMS
from .reader import Fault, Reader
from .tokens import tokens_of

MOST_BYTES = 65536
MOST_EDGES = 2048
MOST_UNITS = {1: 128, 2: 256}


def walk(net, place=()):
    """A network and all within it, each with its place, from outside to inside and in order."""
    yield net, place
    for k, part in enumerate(net.parts, 1):
        yield from walk(part, (*place, k))


def all_plain(net):
    return all(part.node_class() == "plain" for part, _ in walk(net) if part.is_leaf())


def is_node(net):
    return net.is_leaf() or net.form == "comb"


def units(net):
    if is_node(net):
        return 1
    if net.form == "pipe":
        return sum(map(units, net.parts))
    if net.form == "a2a":
        return 2 + 2 * sum(net.numbers)
    if net.form == "wrap":
        return 1 + net.numbers[0]
    return 2 + net.numbers[0] * units(net.parts[0])


def inner_edges(net):
    if is_node(net):
        return 0
    if net.form == "pipe":
        return len(net.parts) - 1 + sum(map(inner_edges, net.parts))
    count = net.numbers[0]
    if net.form == "a2a":
        return 2 * count + count * net.numbers[1] + 2 * net.numbers[1]
    if net.form == "wrap":
        return 2 * count
    pick = net.form == "ofarm" and net.words == ["od"]
    return 2 * count + count * inner_edges(net.parts[0]) + pick


def unordered(net):
    return any(part.form in ("farm", "a2a", "wrap") for part, _ in walk(net))


def leaves_in(net, place):
    return [(leaf, where) for leaf, where in walk(net, place) if leaf.is_leaf()]


def rule_faults(version, whole):
    """The rules that are broken, each with the places where it is."""
    spots = list(walk(whole))
    of = {form: [(net, place) for net, place in spots if net.form == form] for form in FORMS}
    yield 2, [place for net, place in of["pipe"] + of["comb"] if len(net.parts) > 64]
    yield 3, [place for net, place in spots if any(not 1 <= count <= 64 for count in net.numbers)]
    yield 4, [()] if units(whole) > MOST_UNITS[version] else []
    yield 5, [()] if 2 + inner_edges(whole) > MOST_EDGES else []
    yield 6, [(*place, k) for net, place in of["comb"] for k, part in enumerate(net.parts, 1) if not part.is_leaf()]
    yield 7, [at for net, place in of["farm"] for leaf, at in leaves_in(net, place) if leaf.node_class() != "plain"]
    yield 8, [(*place, 1) for net, place in of["ofarm"] if not fits_ofarm(net.parts[0])]
    yield 9, [place for net, at in of["a2a"] for place in wrong_sets(net, at)]
    yield 10, list(behind_unordered(of["pipe"]))
    yield 11, [(*place, 2) for net, place in of["a2a"] if keyed(net.parts[1]) and net.words != ["by", net.parts[1].words[0]]]
    yield 12, [(*place, 1) for net, place in of["wrap"] if not is_node(net.parts[0]) or not all_plain(net.parts[0])]
    yield 13, [at for _, at in of["wrap"] if at and not (len(at) == 1 and whole.form == "pipe")]
    yield 14, [at for net, at in of["a2a"] + of["wrap"] if not 1 <= test_field(net) <= 64]


def fits_ofarm(worker):
    parts = worker.parts if worker.form == "pipe" else [worker]
    return all(map(is_node, parts)) and all_plain(worker)


def keyed(net):
    return net.is_leaf() and net.node_class() == "keyed"


def wrong_sets(net, at):
    left, right = net.parts
    if not is_node(left) or not all_plain(left):
        yield (*at, 1)
    if not keyed(right) and (not is_node(right) or not all_plain(right)):
        yield (*at, 2)


def behind_unordered(pipes):
    for net, place in pipes:
        for k, part in enumerate(net.parts, 1):
            if any(map(unordered, net.parts[: k - 1])):
                yield from (at for leaf, at in leaves_in(part, (*place, k)) if leaf.node_class() == "ordered")


def test_field(net):
    """The field of a route or of a wrap's test; a route without one has none that is wrong."""
    if net.form == "wrap":
        return int(net.words[0])
    return int(net.words[1]) if net.words[0] == "by" else 1


def answer(text):
    """The status of `ffrun check` for a text of bytes, its output, and what it tells on standard error."""
    if len(text) > MOST_BYTES:
        return 2, b"", b"ffrun: text too long\n"
    version, tokens = tokens_of(text)
    try:
        net = Reader(version, tokens).text()
    except Fault as fault:
        return 2, b"", b"ffrun: byte %d: %s\n" % (fault.at, fault.kind.encode())
    for rule, places in rule_faults(version, net):
        if places:
            place = ".".join(map(str, min(places))) or "top"
            return 2, b"", b"ffrun: rule N%d at %s\n" % (rule, place.encode())
    return 0, ("ffrun2 " * (version == 2) + net.printed()).encode("latin-1") + b"\n", b""
