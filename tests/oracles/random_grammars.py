"""Small random grammar files, one for each seed."""

import random

CHARACTERS = ["a", "b", "c"]
STRINGS = ["a", "b", "ab", "ac", "abc", "ba", "c"]
CLASSES = ['"a"', '"b"', '"ab"', '"b".."c"', 'not "a"', '""', '"a".."z"', "digit"]
OPERATOR_CLASSES = ['"a"', '"b"', '"ab"', '"+"', '"+-"', '"c" | "+"', 'not "a"', '""']
LEAVES = ["satisfy", "string", "key", "ended", "word", "not", "eof", "rule", "rule", "none"]
INNER = ["seq", "seq", "seq", "choice", "choice", "choice", "option", "many", "many1", "sepBy", "chainl1", "chainr1", "try", "text", "label", "local"]


class Maker:
    """Makes a small grammar file by a seed, an odd one with operators. Words are few, so that starts meet often."""

    def __init__(self, seed):
        self.random = random.Random(seed)
        self.rules = self.random.randint(1, 4)
        self.operators = seed % 2 == 1
        self.tower = self.random.randint(14, 30) if seed % 7 == 0 else 0
        self.leaves = LEAVES + ["declare"] * self.operators + ["tower"] * (4 * (self.tower > 0))
        self.inners = INNER + ["expr"] * (4 * self.operators)

    def file(self):
        items = [f"r{i} = {self.value(self.random.randint(1, 4))};" for i in range(self.rules)]
        if self.operators:
            items += self.operator_items()
        if self.tower:
            items += ["t0 = seq();"] + [f"t{i} = seq(t{i - 1}, t{i - 1});" for i in range(1, self.tower)]
        items += [f'word w{i} head {self.one(CLASSES[:4])} rest {self.one(CLASSES)} reserved {self.string()} {self.string()};' for i in range(2)]
        return "start r0;\n" + "\n".join(items) + "\n"

    def operator_items(self):
        """How operators are read, and now and then a word item that reads the same."""
        operator, one, other = self.one(OPERATOR_CLASSES), self.string(), self.string()
        item = f"operators {operator} gap {self.one(OPERATOR_CLASSES)} reserved {one} {other};"
        return [item, f"word same head {operator} rest {operator} reserved {other} {one};"][: self.random.randint(1, 2)]

    def one(self, words):
        return self.random.choice(words)

    def string(self):
        return f'"{self.one(STRINGS)}"'

    def value(self, depth):
        return self.inner(self.one(self.inners), depth - 1) if depth and self.random.random() < 0.8 else self.leaf(self.one(self.leaves))

    def leaf(self, word):
        forms = {
            "satisfy": lambda: f"satisfy({self.one(CLASSES)})",
            "string": lambda: f"string({self.string()})",
            "key": lambda: f"try(string({self.string()}))",
            "ended": lambda: f"try(string({self.string()}), notFollowedBy({self.one(CLASSES)}))",
            "word": lambda: f"word(w{self.random.randint(0, 1)})",
            "not": lambda: f"notFollowedBy({self.one(CLASSES)})",
            "eof": lambda: "eof",
            "rule": lambda: f"r{self.random.randrange(self.rules)}",
            "none": lambda: "seq()",
            "tower": lambda: f"t{self.random.randint(max(self.tower - 4, 0), self.tower - 1)}",
            "declare": lambda: f"declare({self.one(CLASSES)})",
        }
        return forms[word]()

    def inner(self, word, depth):
        if word in ("seq", "choice"):
            return f"{word}({', '.join(self.value(depth) for _ in range(self.random.randint(1, 4)))})"
        if word in ("chainl1", "chainr1"):
            builder = self.one(["list", "list", 'node, "it"'])
            return f"{word}({builder}, {self.value(depth)}, {self.value(depth)})"
        if word == "expr":
            return f"expr(node, node, node, {self.value(depth)})"
        if word == "sepBy":
            return f"sepBy({self.value(depth)}, {self.value(depth)})"
        return f"label({self.value(depth)}, \"it\")" if word == "label" else f"{word}({self.value(depth)})"
