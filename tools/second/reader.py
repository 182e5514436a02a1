"""A reader of network texts, made apart from the program by what docs/language.md says: the network, or the first fault."""
from .operations import ARGUMENTS, CLASS_OF, CMP, COMPARISONS, COUNT, FORMS, NO_NAMES, NONZERO, NUMBER, STORED, STORED_CLASS, TEXT

MOST_DEPTH = 16
MOST_NETWORKS = 32768
# What is told of a text of version One.
KINDS = ("bad byte", "unexpected token", "unknown name", "out of range", "too deep", "unexpected end")


class Fault(Exception):
    """The first fault of a text: its place, and what is told of it."""

    def __init__(self, at, kind):
        super().__init__(at, kind)
        self.at, self.kind = at, kind


class Net:
    """A network: its form or the name of its operation, its parts, and all that is printed between them."""

    def __init__(self, form, parts=(), numbers=(), words=()):
        self.form, self.parts, self.numbers, self.words = form, list(parts), list(numbers), list(words)

    def is_leaf(self):
        return self.form not in FORMS

    def node_class(self):
        return STORED_CLASS[self.words[1].strip('"')] if self.form == "call" else CLASS_OF[self.form]

    def depth(self):
        return 1 + max((part.depth() for part in self.parts), default=0)

    def count(self):
        return 1 + sum(part.count() for part in self.parts)

    def printed(self):
        parts = [part.printed() for part in self.parts]
        if self.form in ("pipe", "comb"):
            return "%s(%s)" % (self.form, ", ".join(parts))
        if self.form in ("farm", "ofarm"):
            return "%s %d %s (%s)" % (self.form, self.numbers[0], self.words[0], parts[0])
        if self.form == "a2a":
            return "a2a %d (%s) %s %d (%s)" % (self.numbers[0], parts[0], " ".join(self.words), self.numbers[1], parts[1])
        if self.form == "wrap":
            return "wrap %d (%s) if %s" % (self.numbers[0], parts[0], " ".join(self.words))
        return " ".join([self.form, *self.words])


class Reader:
    """Reads tokens from the front; the first with which no text goes on raises a Fault."""

    def __init__(self, version, tokens):
        self.version = version
        self.tokens = iter(tokens)
        self.step()
        self.names = {}
        self.networks = 0

    def step(self):
        """Makes the next token the one ahead."""
        self.kind, self.held, self.place = next(self.tokens, (None, None, None))

    def refuse(self, kind="unexpected token"):
        raise Fault(self.place, {"bad": "bad byte", "end": "unexpected end"}.get(self.kind, kind))

    def take(self, kind, *held):
        if self.kind != kind or held and self.held not in held:
            self.refuse()
        taken = self.held
        self.step()
        return taken

    def is_next(self, kind, held):
        return (self.kind, self.held) == (kind, held)

    def number(self, within):
        low, high = NUMBER if within == NONZERO else within
        if self.kind != "number":
            self.refuse()
        if not low <= self.held <= high or within == NONZERO and self.held == 0:
            self.refuse("out of range")
        return self.take("number")

    def argument(self, wanted):
        if wanted == CMP:
            return self.take("mark", *COMPARISONS)
        if wanted == TEXT:
            return self.take("text")
        if wanted == STORED:
            if self.kind == "text" and self.held.strip('"') not in STORED_CLASS:
                self.refuse("unknown name")
            return self.take("text")
        return str(self.number(wanted))

    def bracketed(self, depth):
        self.take("mark", "(")
        net = self.net(depth)
        self.take("mark", ")")
        return net

    def net(self, depth):
        """A network at this depth."""
        word = self.held
        if self.kind != "word":
            self.refuse()
        named = self.names.get(word)
        if word in FORMS and depth == MOST_DEPTH or named and depth + named.depth() - 1 > MOST_DEPTH:
            self.refuse("too deep")
        if word not in FORMS and word not in ARGUMENTS and not named:
            self.refuse("unknown name")
        self.networks += named.count() if named else 1
        if self.version == 2 and self.networks > MOST_NETWORKS:
            self.refuse("too large")
        self.take("word")
        if named:
            return named
        return self.form(word, depth + 1) if word in FORMS else Net(word, words=map(self.argument, ARGUMENTS[word]))

    def form(self, word, depth):
        """A form whose word was taken, with parts at this depth."""
        if word in ("pipe", "comb"):
            return Net(word, self.parts(depth))
        count = self.number(COUNT)
        if word in ("farm", "ofarm"):
            schedule = self.take("word", "rr", "od")
            return Net(word, [self.bracketed(depth)], [count], [schedule])
        first = self.bracketed(depth)
        if word == "a2a":
            route = [self.take("word", "rr", "od", "by")]
            if route == ["by"]:
                route.append(str(self.number(COUNT)))
            right = self.number(COUNT)
            return Net(word, [first, self.bracketed(depth)], [count, right], route)
        self.take("word", "if")
        return Net(word, [first], [count], [str(self.number(COUNT)), self.argument(CMP), str(self.number(NUMBER))])

    def parts(self, depth):
        self.take("mark", "(")
        parts = [self.net(depth)]
        while not self.is_next("mark", ")"):
            self.take("mark", ",")
            parts.append(self.net(depth))
        self.take("mark", ")")
        return parts

    def let(self):
        self.take("word", "let")
        word = self.held
        if self.kind == "word" and (word in NO_NAMES or word in ARGUMENTS or word in self.names):
            self.refuse("name taken")
        self.take("word")
        self.take("mark", "=")
        self.names[word] = self.net(1)
        self.take("mark", ";")

    def text(self):
        """The network of a whole text."""
        if self.version == 2:
            self.take("word", "ffrun2")
            while self.is_next("word", "let"):
                self.let()
        net = self.net(1)
        self.take("end")
        return net
