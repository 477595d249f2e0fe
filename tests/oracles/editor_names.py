"""The names of a grammar file, by a parser of its own: what each is, and where it stands."""

import random
import re

RESERVED = (
    "class word operators gap reserved max table start not infixl infixr infix prefix postfix satisfy string seq choice many chainl1 chainr1 try notFollowedBy "
    "eof expr declare text skip build label local many1 option between sepBy sepBy1 endBy"
).split()
TOKEN = re.compile(r'[ \t\r\n]+|#[^\n]*|(?P<name>[A-Za-z][A-Za-z0-9_]*)|(?P<number>[0-9]+)|(?P<literal>"(?:\\.|[^"\\\n])*")|(?P<mark>\.\.|[(),;=|])')
CLASS_FORMS = ("satisfy", "notFollowedBy", "declare")
BUILDER_FORMS = {"chainl1": 1, "chainr1": 1, "build": 1, "expr": 3}


class Reader:
    """Reads a file without faults. `names` has (first, after, sense), in order, a sense being "keyword", "builder" or a word and a kind."""

    def __init__(self, text):
        self.tokens = []
        place = 0
        while place < len(text):
            found = TOKEN.match(text, place)
            if found.lastgroup:
                self.tokens.append((found.lastgroup, found[0], place))
            place = found.end()
        self.at = 0
        self.names = []
        self.items = []
        while self.at < len(self.tokens):
            self.item()

    def peek(self):
        return self.tokens[self.at][1] if self.at < len(self.tokens) else ""

    def take(self, sense=None, wanted=None):
        kind, text, place = self.tokens[self.at]
        assert wanted is None or text == wanted, (text, wanted)
        self.at += 1
        if kind == "name":
            assert sense, text
            self.names.append((place, place + len(text), sense))
        return place, place + len(text), text

    def item(self):
        word = self.peek()
        first = self.tokens[self.at][2]
        own = (first, first + len(word))
        if word == "class":
            self.take("keyword")
            own = self.take("defines Class")[:2]
            self.take(wanted="=")
            self.characters()
        elif word == "word":
            self.take("keyword")
            own = self.take("defines Word")[:2]
            self.take("keyword", "head")
            self.characters()
            self.take("keyword", "rest")
            self.characters()
            self.reserved()
        elif word == "operators":
            self.take("keyword")
            self.characters()
            self.take("keyword", "gap")
            self.characters()
            self.reserved()
            if self.peek() == "max":
                self.take("keyword")
                self.take()
        elif word == "table":
            self.take("keyword")
            self.take("keyword")
            self.take()
            own = self.take()[:2]
        elif word == "start":
            self.take("keyword")
            self.take("uses Rule")
        else:
            self.take("defines Rule")
            self.take(wanted="=")
            self.value()
        after = self.take(wanted=";")[1]
        self.items.append(({"class": "Class", "word": "Word", "operators": "Operators", "table": "Table", "start": "Start"}.get(word, "Rule"), (first, after), own))

    def reserved(self):
        if self.peek() == "reserved":
            self.take("keyword")
            while self.peek().startswith('"'):
                self.take()

    def characters(self):
        self.atom()
        while self.peek() == "|":
            self.take()
            self.atom()

    def atom(self):
        word = self.peek()
        if word == "not":
            self.take("keyword")
            self.atom()
        elif word == "(":
            self.take()
            self.characters()
            self.take(wanted=")")
        elif word.startswith('"'):
            self.take()
            if self.peek() == "..":
                self.take()
                self.take()
        else:
            self.take("uses Class")

    def value(self):
        word = self.peek()
        if word not in RESERVED:
            self.take("uses Rule")
            return
        self.take("keyword")
        if word == "eof":
            return
        self.take(wanted="(")
        if word in CLASS_FORMS:
            self.characters()
        elif word == "word":
            self.take("uses Word")
        else:
            self.arguments(BUILDER_FORMS.get(word, 0))
        self.take(wanted=")")

    def arguments(self, builders):
        for number in range(99):
            if self.peek() == ")":
                return
            if number:
                self.take(wanted=",")
            if number < builders:
                self.take("builder")
            elif self.peek().startswith('"'):
                self.take()
            else:
                self.value()


NAMES = ["a", "b", "node", "digit", "head", "rest", "list", "x1", "letter_", "num", "seqs", "space", "name"]


class Maker:
    """Makes a file whose syntax is right, of names that are few and taken over and over, with comments and literals that look like marks."""

    def __init__(self, seed):
        self.random = random.Random(seed)

    def one(self, *of):
        return self.random.choice(of)

    def blank(self):
        return self.one(" ", " ", " ", "\n", "  ", ' # a = "; (\n', "\t", "\r\n")

    def joined(self, *words):
        return "".join(self.blank() + word for word in words)

    def literal(self):
        return self.one('"x"', '"("', '";"', '"a = b"', '"\\""', '"\\\\"', '"#"', '"\\u{3b}"')

    def name(self):
        return self.one(*NAMES)

    def atom(self, depth):
        kind = self.random.randint(0, 6)
        if kind < 3 or not depth:
            return self.name() if kind % 2 else self.literal()
        if kind == 3:
            return self.joined("not", self.atom(depth - 1))
        if kind == 4:
            return self.joined('"a"', "..", '"z"')
        return self.joined("(", self.characters(depth - 1), ")")

    def characters(self, depth=3):
        return self.joined("|".join(self.atom(depth) for _ in range(self.random.randint(1, 3))))

    def value(self, depth):
        word = self.one(*RESERVED[RESERVED.index("satisfy") :])
        if self.random.random() < 0.3 or not depth:
            return self.one(self.name(), self.name(), "eof")
        if word == "eof":
            return word
        return self.joined(word, "(", ",".join(self.parts(word, depth - 1)), ")")

    def parts(self, word, depth):
        if word in CLASS_FORMS:
            return [self.characters()]
        if word == "word":
            return [self.name()]
        if word == "string":
            return [self.literal()]
        builders = [self.joined(self.name()) for _ in range(BUILDER_FORMS.get(word, 0))]
        symbol = [self.literal()] if word in ("chainl1", "chainr1", "build") and self.random.random() < 0.5 else []
        values = [self.value(depth) for _ in range({"between": 3, "chainl1": 2, "chainr1": 2, "sepBy": 2, "sepBy1": 2, "endBy": 2}.get(word, 1))]
        if word in ("seq", "choice", "try", "local"):
            values += [self.value(depth) for _ in range(self.random.randint(0, 2))]
        return builders + symbol + values + ([self.literal()] if word == "label" else [])

    def item(self):
        kind = self.random.randint(0, 9)
        reserved = self.joined("reserved", self.literal(), self.literal()) if self.random.random() < 0.5 else ""
        if kind == 0:
            return self.joined("class", self.name(), "=", self.characters(), ";")
        if kind == 1:
            return self.joined("word", self.name(), "head", self.characters(), "rest", self.characters(), reserved, ";")
        if kind == 2:
            return self.joined("operators", self.characters(), "gap", self.characters(), reserved, self.one("", "max 7"), ";")
        if kind == 3:
            return self.joined("table", self.one("infixl", "prefix"), "6", self.literal(), ";")
        if kind == 4:
            return self.joined("start", self.name(), ";")
        return self.joined(self.name(), "=", self.value(4), ";")

    def file(self):
        return "".join(self.item() for _ in range(self.random.randint(1, 12))) + self.one("", "\n", " # end")
