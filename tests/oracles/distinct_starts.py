"""Random grammar files most of which are accepted: alternatives begin with characters of their own, and rounds consume.

Values and texts are those of every_form.py.
"""

import random

from oracles.every_form import EveryForm

CHARACTERS = "abcgxyz019é∀+-*"
FORMS = """seq seq seq choice choice choice many many1 option sepBy sepBy1 endBy between chainl1 chainl1 chainr1 try text skip build build label local rule
word notFollowedBy""".split()


class DistinctStarts(EveryForm):
    """A grammar by a seed, each third with operators."""

    def __init__(self, seed):
        self.random = random.Random(f"distinct starts {seed}")
        self.has_operators = seed % 3 == 1
        self.is_odd = False
        self.make()

    def make(self):
        self.classes = {}
        self.words = {"w": (("named", "letter"), ("named", "alphaNum"), ["ab", "a", "xyz"]), "v": (("range", "x", "z"), ("named", "digit"), ["x"])}
        if self.has_operators:
            self.make_operators()
            self.operators, self.gap = ("literal", "+-*!"), self.one([("literal", " "), ("literal", "")])
        names = ["first", "second", "third", "fourth"][: self.random.randint(1, 4)]
        self.rules = dict.fromkeys(names)
        for name in names:
            self.rules[name] = self.starting(self.random.randint(2, 5), self.some(4))
        self.start = names[0]

    def some(self, most):
        return self.random.sample(CHARACTERS, self.random.randint(1, most))

    def tail(self):
        return "".join(self.some(2)) if self.random.random() < 0.5 else ""

    def beginning(self, characters):
        """A value that begins with one of these and consumes it."""
        first, draw = self.one(characters), self.random.random()
        one_of = ("satisfy", ("union", [("literal", it) for it in characters]) if len(characters) > 1 else ("literal", first))
        if draw < 0.35:
            return one_of
        if draw < 0.6:
            return ("string", first + self.tail())
        if draw < 0.75:
            return ("try", [("string", first + self.tail())])
        if draw < 0.85:
            return ("text", ("many1", one_of))
        return self.one([("skip", one_of), ("try", [one_of, ("many", ("satisfy", ("literal", self.one(CHARACTERS))))])])

    def parts(self, characters):
        """The characters in some groups."""
        count = self.random.randint(1, min(4, len(characters)))
        return [characters[number::count] for number in range(count)]

    def starting(self, depth, characters):
        """A value that begins with one of these characters, as far as that goes without looking at rules."""
        if depth <= 0 or self.random.random() < 0.1:
            return self.beginning(characters)
        word = self.one(FORMS + ["expr"] * (4 * self.has_operators) + ["declare"] * self.has_operators)
        whole = self.starting(depth - 1, characters)
        rest = self.starting(depth - 1, self.some(3))
        if word == "seq":
            return ("seq", [whole, *(self.starting(depth - 1, self.some(3)) for _ in range(self.random.randint(0, 3)))])
        if word == "choice":
            return ("choice", [self.starting(depth - 1, part) for part in self.parts(characters)])
        if word in ("many", "option", "declare"):
            return ("seq", [self.beginning(characters), ("declare", ("named", "letter")) if word == "declare" else (word, rest)])
        if word in ("sepBy", "sepBy1", "endBy"):
            return (word, whole, self.beginning(self.some(2)))
        if word in ("chainl1", "chainr1"):
            return (word, self.one(["node", "list", "call", "join", "flat"]), self.one([None, "it", "list"]), whole, self.beginning(self.some(2)))
        if word == "between":
            return (word, self.beginning(characters), self.beginning(self.some(1)), rest)
        if word in ("try", "local"):
            return (word, [whole])
        if word == "build":
            return (word, self.one(["node", "num", "name", "list", "call", "flat", "join"]), self.one([None, "it"]), whole)
        if word == "label":
            return (word, whole, "it")
        if word == "rule":
            return self.one([("rule", self.one(list(self.rules))), ("seq", [self.beginning(characters), ("rule", self.one(list(self.rules)))])])
        if word == "word":
            return (word, self.one(["w", "v"]))
        if word == "notFollowedBy":
            return ("seq", [(word, ("literal", self.one(CHARACTERS))), whole])
        if word == "expr":
            return (word, *(self.one(["node", "node", "list", "join", "flat"]) for _ in range(3)), whole)
        return (word, whole)
