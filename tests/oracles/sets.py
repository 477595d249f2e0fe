"""Computes the sets of grammars straight from their definitions, as plainly and slowly as can be, and shows them.

`page_of` shows the sets of a grammar file without a fault, as `pgw sets` prints them: for each rule a line with its heads and
its rank, and a line for each node of its body, in preorder and numbered from 1: its form, whether it can succeed on nothing,
the starts that can begin what it reads, and those that can follow it. `tests/sets` compares the two, and `tests/checks`
judges grammars by these sets.

Nothing here knows how pg_sets works. Each clause of the definitions is repeated over all nodes until a round of them all
changes nothing. A start is a tuple, which begins with a number by which the kinds of starts are ordered:

    (0, ranges)                     a character of a class
    (1, text, ranges)               the text, with no character of a class behind it
    (2, head, rest, reserved)       a word; an operator is one too
    (3,)                            the end of the text

Of the program's predicates there are only those of digits, since the others have characters by Unicode's tables.
"""

import json
import re

# ---- classes, as ascending tuples of ranges with a character left out between each two neighbours

LAST = 0x10FFFF
BEFORE_SURROGATES, BEHIND_SURROGATES = 0xD7FF, 0xE000


def next_character(c):
    return BEHIND_SURROGATES if c == BEFORE_SURROGATES else c + 1


def previous_character(c):
    return BEFORE_SURROGATES if c == BEHIND_SURROGATES else c - 1


def class_of(ranges):
    """The class of the characters in these ranges."""
    joined = []
    for low, high in sorted(ranges):
        if joined and low <= next_character(joined[-1][1]):
            joined[-1] = (joined[-1][0], max(joined[-1][1], high))
        else:
            joined.append((low, high))
    return tuple(joined)


def complement(ranges):
    """The class of all other characters."""
    gaps, low = [], 0
    for first, last in ranges:
        if low < first:
            gaps.append((low, previous_character(first)))
        low = next_character(last)
    if low <= LAST:
        gaps.append((low, LAST))
    return tuple(gaps)


def class_between(*pairs):
    return class_of((ord(low), ord(high)) for low, high in pairs)


PREDICATES = {
    "digit": class_between("09"),
    "octDigit": class_between("07"),
    "hexDigit": class_between("09", "AF", "af"),
}
SMALL_LETTERS = class_between("az")

# ---- reading grammar files

TOKEN = re.compile(
    r"[ \t\r\n]+|#[^\n]*|(?P<name>[A-Za-z][A-Za-z0-9_]*)|(?P<number>[0-9]+)"
    r'|(?P<literal>"(?:\\.|[^"\\\n])*")|(?P<mark>\.\.|[(),;=|])'
)
ESCAPE = re.compile(r"\\(?:u\{([0-9A-Fa-f]+)\}|(.))")
ESCAPED = {"n": "\n", "t": "\t", "r": "\r", '"': '"', "\\": "\\"}
BASE_FORMS = "satisfy string seq choice many chainl1 chainr1 try notFollowedBy eof word expr declare text skip build label local"
SHORT_FORMS = "many1 option between sepBy sepBy1 endBy"
FORMS = (BASE_FORMS + " " + SHORT_FORMS).split()
MOST_OPERATORS = 64
BUILDERS = {"chainl1": 1, "chainr1": 1, "build": 1, "expr": 3}
WITH_SYMBOL = ("build", "chainl1", "chainr1")


def tokens_of(text):
    """The tokens of a grammar file, each with its kind."""
    tokens, place = [], 0
    while place < len(text):
        found = TOKEN.match(text, place)
        assert found, text[place : place + 20]
        place = found.end()
        if found.lastgroup:
            tokens.append((found.lastgroup, found.group()))
    return tokens


def characters_of(literal):
    """The characters that a literal stands for."""
    return ESCAPE.sub(lambda found: chr(int(found[1], 16)) if found[1] else ESCAPED[found[2]], literal[1:-1])


class Grammar:
    """Word items, operators, gap, how many operators there may be and start as they are read; rules as pairs of a name and the
    number of a node.

    A node is a triple of a form's word, the numbers of its parts, and what else the form has.
    """

    def __init__(self):
        self.words = {}
        self.operators = None
        self.gap = None
        self.most_operators = 0
        self.start = None
        self.rules = {}
        self.nodes = []


class Reader:
    """Reads a grammar file without a fault. Bodies are trees first, since a rule may stand above one that it names."""

    def __init__(self, text):
        self.tokens = tokens_of(text)
        self.place = 0
        self.classes = dict(PREDICATES)
        self.grammar = Grammar()

    def read(self):
        while self.place < len(self.tokens):
            self.item()
        return self.grammar

    def peek(self):
        return self.tokens[self.place] if self.place < len(self.tokens) else (None, None)

    def take(self, kind, text=None):
        found = self.peek()
        assert found[0] == kind and text in (None, found[1]), (found, kind, text)
        self.place += 1
        return found[1]

    def taken(self, kind, text=None):
        """Whether the token is there, which is taken then."""
        found = self.peek()
        if found[0] != kind or text not in (None, found[1]):
            return False
        self.place += 1
        return True

    def literal(self):
        return characters_of(self.take("literal"))

    def item(self):
        word = self.take("name")
        if word == "class":
            name = self.take("name")
            self.take("mark", "=")
            self.classes[name] = self.class_expression()
        elif word == "word":
            self.word_item()
        elif word == "operators":
            self.operators_item()
        elif word == "table":
            for kind in ("name", "number", "literal"):
                self.take(kind)
        elif word == "start":
            self.grammar.start = self.take("name")
        else:
            self.take("mark", "=")
            self.grammar.rules[word] = self.numbered(self.value())
        self.take("mark", ";")

    def word_item(self):
        name = self.take("name")
        self.take("name", "head")
        head = self.class_expression()
        self.take("name", "rest")
        rest = self.class_expression()
        self.grammar.words[name] = (2, head, rest, self.reserved())

    def operators_item(self):
        operator = self.class_expression()
        self.take("name", "gap")
        self.grammar.gap = (0, self.class_expression())
        self.grammar.operators = (2, operator, operator, self.reserved())
        self.grammar.most_operators = int(self.take("number")) if self.taken("name", "max") else MOST_OPERATORS

    def reserved(self):
        """The reserved texts, in their order; their set is what matters."""
        texts = set()
        if self.taken("name", "reserved"):
            while self.peek()[0] == "literal":
                texts.add(self.literal())
        return tuple(sorted(texts))

    def class_expression(self):
        ranges = self.class_atom()
        while self.taken("mark", "|"):
            ranges = class_of(ranges + self.class_atom())
        return ranges

    def class_atom(self):
        if self.taken("name", "not"):
            return complement(self.class_atom())
        if self.taken("mark", "("):
            ranges = self.class_expression()
            self.take("mark", ")")
            return ranges
        if self.peek()[0] == "name":
            return self.classes[self.take("name")]
        text = self.literal()
        if self.taken("mark", ".."):
            return class_of([(ord(text), ord(self.literal()))])
        return class_of((ord(c), ord(c)) for c in text)

    def value(self):
        """A value as a tree of base forms: a form's word, its parts, and what else it has."""
        word = self.take("name")
        if word == "eof":
            return ("eof", [], None)
        if word not in FORMS:
            return ("rule", [], word)
        self.take("mark", "(")
        made = self.arguments(word)
        self.take("mark", ")")
        return made

    def arguments(self, word):
        if word in ("satisfy", "notFollowedBy", "declare"):
            return (word, [], self.class_expression())
        if word == "string":
            return (word, [], self.literal())
        if word == "word":
            return (word, [], self.take("name"))
        for _ in range(BUILDERS.get(word, 0)):
            self.take("name")
            self.take("mark", ",")
        if word in WITH_SYMBOL and self.taken("literal"):
            self.take("mark", ",")
        return base_form(word, self.values())

    def values(self):
        """Values with commas between; a label's message ends them too."""
        if self.peek() == ("mark", ")"):
            return []
        values = [self.value()]
        while self.taken("mark", ","):
            if not self.taken("literal"):
                values.append(self.value())
        return values

    def numbered(self, value):
        """Adds a value to the nodes in preorder, and answers its number."""
        word, parts, other = value
        number = len(self.grammar.nodes)
        self.grammar.nodes.append(None)
        self.grammar.nodes[number] = (word, [self.numbered(part) for part in parts], other)
        return number


def seq(*parts):
    return ("seq", list(parts), None)


def base_form(word, values):
    """What stands for a form with these parts; short forms are replaced."""
    if word == "many1":
        return seq(values[0], ("many", values, None))
    if word == "option":
        return ("choice", [values[0], seq()], None)
    if word == "between":
        opening, closing, inner = values
        return seq(("skip", [opening], None), inner, ("skip", [closing], None))
    if word == "sepBy1":
        value, separator = values
        return seq(value, ("many", [seq(("skip", [separator], None), value)], None))
    if word == "sepBy":
        return ("choice", [base_form("sepBy1", values), seq()], None)
    if word == "endBy":
        value, separator = values
        return ("many", [seq(value, ("skip", [separator], None))], None)
    if word in ("try", "local") and len(values) > 1:
        return (word, [seq(*values)], None)
    return (word, values, None)


# ---- the sets. A shape is the number of a node, or ("seq", shapes) or ("many", shape): a chain has the shape of a sequence.

KEYWORDS = ("infixl", "infixr", "infix", "prefix", "postfix")
END = (3,)


class Sets:
    """The sets of a grammar, each the least that its clauses allow."""

    def __init__(self, grammar):
        self.grammar = grammar
        count = len(grammar.nodes)
        self.nullable = [False] * count
        self.first = [set() for _ in range(count)]
        self.follow = [set() for _ in range(count)]
        self.until_nothing_changes(self.find_nullable)
        self.until_nothing_changes(self.find_first)
        self.follow[grammar.rules[grammar.start]].add(END)
        self.until_nothing_changes(self.find_follow)

    def until_nothing_changes(self, clause):
        """Goes over all nodes again and again."""
        before = None
        while before != self.sizes():
            before = self.sizes()
            for number in range(len(self.grammar.nodes)):
                clause(number)

    def sizes(self):
        return sum(self.nullable) + sum(map(len, self.first)) + sum(map(len, self.follow))

    # What can succeed on nothing.

    def find_nullable(self, number):
        word, parts, other = self.grammar.nodes[number]
        if word in ("many", "notFollowedBy", "eof"):
            nullable = True
        elif word == "seq":
            nullable = all(self.nullable[part] for part in parts)
        elif word == "choice":
            nullable = any(self.nullable[part] for part in parts)
        elif word in ("satisfy", "string", "word", "declare"):
            nullable = False
        elif word == "rule":
            nullable = self.nullable[self.grammar.rules[other]]
        elif word in ("chainl1", "chainr1"):
            nullable = self.nullable[parts[0]]
        else:
            nullable = self.nullable[only(parts)]
        self.nullable[number] = nullable

    def is_nullable(self, shape):
        if isinstance(shape, int):
            return self.nullable[shape]
        kind, inner = shape
        return kind == "many" or all(map(self.is_nullable, inner))

    # Which starts can begin what is read.

    def find_first(self, number):
        word, parts, other = self.grammar.nodes[number]
        starts = self.first[number]
        if word == "satisfy":
            starts.add((0, other))
        elif word == "string":
            starts.add((0, ((ord(other[0]), ord(other[0])),)))
        elif word == "word":
            starts.add(self.grammar.words[other])
        elif word == "try" and self.key_of(parts):
            starts.add(self.key_of(parts))
        elif word == "declare":
            starts.update((1, keyword, class_of(other + SMALL_LETTERS)) for keyword in KEYWORDS)
        elif word == "expr":
            starts.update(self.first[only(parts)], [self.grammar.operators])
        elif word in ("notFollowedBy", "eof"):
            pass
        elif word in ("seq", "chainl1", "chainr1"):
            starts |= self.first_of(shape_of(word, parts))
        elif word == "choice":
            starts.update(*(self.first[part] for part in parts))
        elif word == "rule":
            starts |= self.first[self.grammar.rules[other]]
        else:
            starts |= self.first[only(parts)]

    def first_of(self, shape):
        if isinstance(shape, int):
            return self.first[shape]
        kind, inner = shape
        if kind == "many":
            return self.first_of(inner)
        starts = set()
        for part in inner:
            starts |= self.first_of(part)
            if not self.is_nullable(part):
                break
        return starts

    def key_of(self, parts):
        """The key that a try around these parts has for its start, if it has one."""
        word, inner, other = self.grammar.nodes[only(parts)]
        if word == "string":
            return (1, other, ())
        forms = [self.grammar.nodes[part] for part in inner] if word == "seq" else []
        if [form[0] for form in forms] == ["string", "notFollowedBy"]:
            return (1, forms[0][2], forms[1][2])
        return None

    # Which starts can follow.

    def find_follow(self, number):
        word, parts, other = self.grammar.nodes[number]
        behind = self.follow[number]
        if word in ("seq", "many", "chainl1", "chainr1"):
            self.follows(shape_of(word, parts), behind)
        elif word == "rule":
            self.follow[self.grammar.rules[other]] |= behind
        elif word == "expr":
            self.follow[only(parts)] |= behind | {self.grammar.operators}
        else:
            for part in parts:
                self.follow[part] |= behind

    def follows(self, shape, behind):
        """These starts can follow what a shape reads."""
        if isinstance(shape, int):
            self.follow[shape] |= behind
            return
        kind, inner = shape
        if kind == "many":
            self.follows(inner, self.first_of(inner) | behind)
            return
        for place, part in enumerate(inner):
            rest = ("seq", inner[place + 1 :])
            self.follows(part, self.first_of(rest) | (behind if self.is_nullable(rest) else set()))

    # Which rules a rule heads, and its rank.

    def reached_parts(self, number):
        word, parts, _ = self.grammar.nodes[number]
        if word in ("chainl1", "chainr1"):
            operand, separator = parts
            return self.up_to_consuming([operand, separator, operand])
        return self.up_to_consuming(parts) if word == "seq" else parts

    def up_to_consuming(self, parts):
        reached = []
        for part in parts:
            reached.append(part)
            if not self.nullable[part]:
                break
        return reached

    def heads(self, rule):
        """The names of the rules that this one heads, in file order."""
        found, waiting = set(), [self.grammar.rules[rule]]
        while waiting:
            number = waiting.pop()
            word, _, other = self.grammar.nodes[number]
            if word == "rule":
                found.add(other)
            waiting += self.reached_parts(number)
        return [name for name in self.grammar.rules if name in found]

    def ranks(self):
        """The rank of each rule that has one. A rule gets it once all its heads have theirs: never, where one of them
        leads to a cycle."""
        heads = {name: self.heads(name) for name in self.grammar.rules}
        ranks, found = {}, True
        while found:
            found = {name for name in heads if name not in ranks and all(head in ranks for head in heads[name])}
            ranks.update({name: 1 + max((ranks[head] for head in heads[name]), default=-1) for name in found})
        return ranks


def only(parts):
    (part,) = parts
    return part


def shape_of(word, parts):
    """A chain is one operand, and then separators and operands by turns."""
    if word == "seq":
        return ("seq", parts)
    if word == "many":
        return ("many", only(parts))
    operand, separator = parts
    return ("seq", [operand, ("many", ("seq", [separator, operand]))])


# ---- what is printed

MOST_RANGES = 4


def printed_range(pair):
    low, high = pair
    return f"U+{low:04X}" if low == high else f"U+{low:04X}-U+{high:04X}"


def printed_start(grammar, start):
    if start == END:
        return "end"
    if start[0] == 0:
        ranges = [printed_range(pair) for pair in start[1]]
        return "class " + ",".join(ranges[:MOST_RANGES] + [".."] * (len(ranges) > MOST_RANGES))
    if start[0] == 1:
        return "key " + json.dumps(start[1], ensure_ascii=False)
    return next((f"word {name}" for name, word in grammar.words.items() if word == start), "operator")


def order_of(grammar, start):
    """Classes by their ranges, keys by text and ranges, words by the first item that is equal, the operators, the end."""
    if start[0] != 2:
        return start
    return (2, next((place for place, word in enumerate(grammar.words.values()) if word == start), len(grammar.words)))


def printed_starts(grammar, starts):
    ordered = sorted(starts, key=lambda start: order_of(grammar, start))
    return "[" + "; ".join(printed_start(grammar, start) for start in ordered) + "]"


def printed_rules(grammar, sets):
    """The lines of the rules and their nodes."""
    ranks = sets.ranks()
    ends = [*list(grammar.rules.values())[1:], len(grammar.nodes)]
    for (name, body), end in zip(grammar.rules.items(), ends):
        yield f"{name}: heads [{'; '.join(sets.heads(name))}], rank {ranks.get(name, 'none')}"
        for number in range(body, end):
            said = "nullable" if sets.nullable[number] else "not nullable"
            first, follow = (printed_starts(grammar, of[number]) for of in (sets.first, sets.follow))
            yield f"  {number - body + 1} {grammar.nodes[number][0]}: {said}, first {first}, follow {follow}"


def page_of(text):
    """What is printed of the sets of a grammar file."""
    grammar = Reader(text).read()
    return "".join(line + "\n" for line in printed_rules(grammar, Sets(grammar)))


def lines_of(path):
    with open(path, encoding="utf-8", newline="\n") as file:
        return file.read().removesuffix("\n").split("\n")
