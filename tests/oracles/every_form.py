"""Random grammar files of every form, and random calculators, one for each seed, and texts drawn along them.

A value is a tuple: its form's word, and what stands in its parentheses. Texts are drawn along the values, so that most are parsed, and some are then changed.
"""

import random
import unicodedata

LETTERS = "abc"
STRINGS = ["a", "b", "ab", "ac", "ba", "(", ")", ",", "1", "a b", "let"]
ODD_STRINGS = ['"', "\\", "\n", "\t", "é", "'", "\x07", "\x7f", "\u00a0", "\u200b", "\U0001f600", "\x0e", "\x0eH", "é1", "a\tb"]
SYMBOLS = ["+", "-", "*", "+-", "!", "-!", "**"]
LABELS = ["it", "a digit", "", "'c'", "x, y"]
BUILDERS = ["node", "num", "name", "list", "call", "flat", "join"]
ROLES = ["infixl", "infixr", "infix", "prefix", "postfix"]
PREDICATES = {
    "digit": lambda c: c in "0123456789",
    "octDigit": lambda c: c in "01234567",
    "hexDigit": lambda c: c in "0123456789abcdefABCDEF",
    "letter": lambda c: unicodedata.category(c)[0] == "L",
    "alphaNum": lambda c: unicodedata.category(c)[0] in "LN",
    "space": lambda c: unicodedata.category(c) == "Zs" or c in "\t\n\v\f\r",
}
POOL = "abcdz019A_ +-*!(),;\n\té\u00a0\u0661\u2003"
LEAVES = ["satisfy", "satisfy", "string", "string", "string", "word", "notFollowedBy", "eof", "rule", "rule", "none"]
INNER = """seq seq seq choice choice choice try try many many1 option sepBy sepBy1 endBy between chainl1 chainr1 text skip build build label label
local""".split()
RULES = ["r", "s", "sum", "Sum", "one", "text_", "node", "tokens", "type", "p", "a", "row", "foldl", "c", "where", "isVowel"]


def literal(text):
    """A text as grammar files write it."""
    escapes = {'"': '\\"', "\\": "\\\\", "\n": "\\n", "\t": "\\t", "\r": "\\r"}
    return '"' + "".join(escapes.get(c, c if c >= " " and c != "\x7f" else f"\\u{{{ord(c):x}}}") for c in text) + '"'


class EveryForm:
    """A random grammar by a seed, an odd one with operators."""

    def __init__(self, seed):
        self.random = random.Random(f"every form {seed}")
        self.has_operators = seed % 2 == 1
        self.is_odd = seed % 5 == 0
        self.classes = {}
        self.words = {}
        self.leaves = LEAVES + ["declare"] * (2 * self.has_operators)
        self.inners = INNER + ["expr"] * (4 * self.has_operators)
        self.make()

    def make(self):
        for name in ["vowel", "k1"][: self.random.randint(0, 2)]:
            self.classes[name] = self.character_class(2)
        for name in ["w", "name"][: self.random.randint(0, 2)]:
            reserved = [self.string() for _ in range(self.random.randint(0, 2))]
            self.words[name] = (self.character_class(1), self.character_class(1), reserved)
        if self.has_operators:
            self.make_operators()
        count = self.random.randint(1, 4)
        self.rules = dict.fromkeys(self.random.sample(RULES, count))
        for rule in self.rules:
            self.rules[rule] = self.value(self.random.randint(1, 4))
        self.start = next(iter(self.rules))

    def make_operators(self):
        self.operators = self.one([("literal", "+-*!"), ("literal", "+-*!="), ("literal", "+-a"), ("named", "digit"), ("literal", "*+")])
        self.gap = self.one([("literal", " "), ("literal", ""), ("literal", " \n"), ("named", "space")])
        self.reserved = [self.one([*SYMBOLS, "="]) for _ in range(self.random.randint(0, 1))]
        self.most = self.random.choice([None, None, 4, 64])
        self.table = []
        for _ in range(self.random.randint(0, 5)):
            role, symbol = self.one(ROLES), self.one(SYMBOLS)
            there = any(text == symbol and (other == "prefix") == (role == "prefix") for other, _, text in self.table)
            if symbol not in self.reserved and not there and len(self.table) < (self.most or 64):
                self.table.append((role, self.random.choice([0, 3, 6, 6, 6, 7, 9]), symbol))

    def one(self, words):
        return self.random.choice(words)

    def string(self):
        return self.one(ODD_STRINGS if self.is_odd and self.random.random() < 0.5 else STRINGS)

    # ---- values

    def character_class(self, depth):
        draw = self.random.random()
        if depth and draw < 0.2:
            return ("not", self.character_class(depth - 1))
        if depth and draw < 0.45:
            return ("union", [self.character_class(depth - 1) for _ in range(self.random.randint(2, 3))])
        if draw < 0.55:
            return ("range", *self.one(["ab", "bc", "az", "09", "AZ", "\x00 ", "ąž"]))
        if draw < 0.7:
            return ("named", self.one([*PREDICATES, *self.classes, *self.classes]))
        return ("literal", self.one(["a", "b", "ab", "abc", "", "(", " ", self.string()]))

    def value(self, depth):
        if depth and self.random.random() < 0.8:
            return self.inner(self.one(self.inners), depth - 1)
        return self.leaf(self.one(self.leaves))

    def leaf(self, word):
        if word in ("satisfy", "notFollowedBy", "declare"):
            return (word, self.character_class(2))
        if word == "word" and self.words:
            return (word, self.one(list(self.words)))
        if word == "rule":
            return (word, self.one(list(self.rules)))
        return (word,) if word == "eof" else ("seq", []) if word == "none" else ("string", self.string())

    def inner(self, word, depth):
        if word in ("seq", "choice"):
            return (word, self.values(depth, 4))
        if word in ("try", "local"):
            return (word, self.values(depth, self.one([1, 1, 3])))
        if word in ("sepBy", "sepBy1", "endBy"):
            return (word, self.value(depth), self.value(depth))
        if word == "between":
            return (word, self.value(0), self.value(0), self.value(depth))
        if word in ("chainl1", "chainr1"):
            return (word, self.one(BUILDERS), self.one([None, None, "", self.string()]), self.value(depth), self.value(depth))
        if word == "build":
            return (word, self.one(BUILDERS), self.one([None, "", self.string()]), self.value(depth))
        if word == "label":
            return (word, self.value(depth), self.one(LABELS))
        if word == "expr":
            return (word, *(self.one(["node", "node", self.one(BUILDERS)]) for _ in range(3)), self.value(depth))
        return (word, self.value(depth))

    def values(self, depth, most):
        return [self.value(depth) for _ in range(self.random.randint(1, most))]

    # ---- the file

    def file(self):
        items = [f"class {name} = {written_class(it)};" for name, it in self.classes.items()]
        for name, (head, rest, reserved) in self.words.items():
            said = f" reserved {' '.join(map(literal, reserved))}" if reserved else ""
            items.append(f"word {name} head {written_class(head)} rest {written_class(rest)}{said};")
        if self.has_operators:
            said = f" reserved {' '.join(map(literal, self.reserved))}" if self.reserved else ""
            said += f" max {self.most}" if self.most else ""
            items.append(f"operators {written_class(self.operators)} gap {written_class(self.gap)}{said};")
            items += [f"table {role} {precedence} {literal(symbol)};" for role, precedence, symbol in self.table]
        items.append(f"start {self.start};")
        items += [f"{name} = {written(it)};" for name, it in self.rules.items()]
        return "\n".join(items) + "\n"

    # ---- texts

    def holds(self, it, c):
        """Whether a class has a character."""
        word, *rest = it
        if word == "not":
            return not self.holds(rest[0], c)
        if word == "union":
            return any(self.holds(part, c) for part in rest[0])
        if word == "range":
            return rest[0] <= c <= rest[1]
        if word == "named":
            return self.holds(self.classes[rest[0]], c) if rest[0] in self.classes else PREDICATES[rest[0]](c)
        return c in rest[0]

    def character(self, it):
        found = [c for c in POOL if self.holds(it, c)]
        return self.one(found) if found else "a"

    def run_of(self, it):
        """Some characters of a class."""
        found = [c for c in POOL if self.holds(it, c)]
        return "".join(self.one(found) for _ in range(self.random.choice([0, 0, 1, 1, 2]))) if found else ""

    def text(self):
        """A text along the start rule, half of the times with a change."""
        text = self.along(self.rules[self.start], 6)[:80]
        for _ in range(self.random.choice([0, 0, 1, 2])):
            place = self.random.randint(0, len(text))
            text = text[:place] + self.one(["", self.one(POOL), self.one(STRINGS)]) + text[place + self.random.randint(0, 1) :]
        return text

    def rounds(self):
        return self.random.choice([0, 1, 1, 2, 3])

    def along(self, it, depth):
        word, *rest = it
        if depth <= 0:
            return ""
        if word == "satisfy":
            return self.character(rest[0])
        if word == "string":
            return rest[0]
        if word == "word":
            head, tail, reserved = self.words[rest[0]]
            return self.one([self.character(head) + self.run_of(tail)] * 3 + reserved)
        if word == "rule":
            return self.along(self.rules[rest[0]], depth - 1)
        if word == "declare":
            gap = self.run_of(self.gap)
            return self.one(ROLES) + gap + self.one("0556799") + gap + self.one([*SYMBOLS, "=", "+" * 17]) + gap
        if word in ("eof", "notFollowedBy"):
            return ""
        return self.along_inner(word, rest, depth)

    def along_inner(self, word, rest, depth):
        if word in ("seq", "try", "local"):
            return "".join(self.along(part, depth) for part in rest[0])
        if word == "choice":
            return self.along(self.one(rest[0]), depth - 1)
        if word in ("many", "many1", "option"):
            rounds = max(1, self.rounds()) if word == "many1" else self.random.randint(0, 1) if word == "option" else self.rounds()
            return "".join(self.along(rest[0], depth - 1) for _ in range(rounds))
        if word in ("sepBy", "sepBy1", "endBy", "chainl1", "chainr1"):
            return self.along_list(word, rest[-2], rest[-1], depth)
        if word == "between":
            return "".join(self.along(rest[part], depth) for part in (0, 2, 1))
        if word == "expr":
            return self.expression(rest[3], depth)
        return self.along(rest[0] if word == "label" else rest[-1], depth)

    def along_list(self, word, part, separator, depth):
        text = ""
        for number in range(self.rounds() + (word in ("sepBy1", "chainl1", "chainr1"))):
            text += self.along(separator, depth - 1) if number and word != "endBy" else ""
            text += self.along(part, depth - 1)
            text += self.along(separator, depth - 1) if word == "endBy" else ""
        return text

    def expression(self, part, depth):
        text = ""
        for number in range(self.random.choice([1, 1, 2, 3])):
            text += self.operator() if number else ""
            text += self.operator() if self.random.random() < 0.2 else ""
            text += self.along(part, depth - 1)
            text += self.operator() if self.random.random() < 0.2 else ""
        return text

    def operator(self):
        return self.one([symbol for _, _, symbol in self.table] or SYMBOLS) + self.run_of(self.gap)


class Calculator:
    """A calculator with a random table, whose texts declare operators. Precedences are few, so that uses of operators are ambiguous often."""

    def __init__(self, seed):
        self.random = random.Random(f"calculator {seed}")
        self.symbols = ["+", "-", "*", "/", "<", "!", "+-", "**", "<=", "-!", "=", "+" * 17]
        self.precedences = self.random.sample(range(10), self.random.randint(1, 4))
        self.reserved = self.random.sample(self.symbols, self.random.randint(0, 2))
        self.most = self.random.choice([None, 3, 5, 9])
        self.gap = self.random.choice(["", " ", " \n"])
        self.has_scopes = self.random.random() < 0.6
        self.builders = [self.random.choice(["node", "node", *BUILDERS]) for _ in range(3)]
        self.table = []
        for _ in range(self.random.randint(0, 7)):
            role, symbol = self.random.choice(ROLES), self.random.choice(self.symbols[:-1])
            there = any(text == symbol and (other == "prefix") == (role == "prefix") for other, _, text in self.table)
            if symbol not in self.reserved and not there and len(self.table) < (self.most or 64):
                self.table.append((role, self.random.choice(self.precedences), symbol))

    def file(self):
        reserved = f" reserved {' '.join(map(literal, self.reserved))}" if self.reserved else ""
        most = f" max {self.most}" if self.most else ""
        items = [f'operators "+-*/<!=" gap {literal(self.gap)}{reserved}{most};']
        items += [f"table {role} {precedence} {literal(symbol)};" for role, precedence, symbol in self.table]
        scope = "local(file)" if self.has_scopes else "sum"
        return "\n".join([*items, f"""start file;
file = seq(many(seq(declare(letter), skip(string(";")), blanks)), sum);
sum = expr({', '.join(self.builders)}, term);
term = seq(choice(build(num, text(many1(satisfy(digit)))), between(string("("), string(")"), {scope})), blanks);
blanks = skip(many(satisfy(" ")));
"""])

    def blanks(self):
        return self.random.choice(["", "", " ", "  "])

    def gaps(self):
        return self.random.choice(["", self.gap])

    def declaration(self):
        role = self.random.choice([*ROLES, *ROLES, "infixed", "in"])
        return f"{role}{self.gaps()}{self.random.choice(self.precedences)}{self.gaps()}{self.random.choice(self.symbols)}{self.gaps()};{self.blanks()}"

    def operator(self, roles):
        found = [symbol for role, _, symbol in self.table if role in roles]
        symbol = self.random.choice(found) if found and self.random.random() < 0.8 else self.random.choice(self.symbols)
        return symbol + self.gaps()

    def sum(self, depth):
        text = self.term(depth)
        for _ in range(self.random.choice([0, 1, 1, 2, 2, 3])):
            text += self.operator(ROLES[:3]) + self.term(depth)
        return text

    def term(self, depth):
        text = self.operator(["prefix"]) if self.random.random() < 0.2 else ""
        if depth and self.random.random() < 0.3:
            text += f"({self.scope(depth - 1) if self.has_scopes else self.sum(depth - 1)})"
        else:
            text += str(self.random.choice([1, 2, 30]))
        return text + self.blanks() + (self.operator(["postfix"]) if self.random.random() < 0.2 else "")

    def scope(self, depth):
        count = self.random.choice([0, 0, 1, 1, 2, 3])
        return "".join(self.declaration() for _ in range(count)) + self.sum(depth)

    def text(self):
        """A text of the calculator, a third of the times with a change."""
        text = self.scope(2)
        if self.random.random() < 0.3:
            place = self.random.randint(0, len(text))
            text = text[:place] + self.random.choice(["", "(", ";", "a", *self.symbols[:4]]) + text[place + self.random.randint(0, 1) :]
        return text


def written_class(it):
    word, *rest = it
    if word == "not":
        return f"not {written_class(rest[0])}" if rest[0][0] != "union" else f"not ({written_class(rest[0])})"
    if word == "union":
        return " | ".join(f"({written_class(part)})" if part[0] == "union" else written_class(part) for part in rest[0])
    if word == "range":
        return f"{literal(rest[0])}..{literal(rest[1])}"
    return rest[0] if word == "named" else literal(rest[0])


def written(it):
    word, *rest = it
    if word in ("satisfy", "notFollowedBy", "declare"):
        return f"{word}({written_class(rest[0])})"
    if word == "string":
        return f"string({literal(rest[0])})"
    if word == "word":
        return f"word({rest[0]})"
    if word == "rule":
        return rest[0]
    if word == "eof":
        return word
    if word in ("seq", "choice", "try", "local"):
        return f"{word}({', '.join(map(written, rest[0]))})"
    if word == "label":
        return f"label({written(rest[0])}, {literal(rest[1])})"
    if word in ("build", "chainl1", "chainr1"):
        builder, symbol, *parts = rest
        said = [builder, *([] if symbol is None else [literal(symbol)]), *map(written, parts)]
        return f"{word}({', '.join(said)})"
    return f"{word}({', '.join(part if isinstance(part, str) else written(part) for part in rest)})"
