"""Accepted grammars, and texts of them of any length."""

import json
import random

JSON = r"""
class blank = " " | "\t" | "\n" | "\r";
start file;
file = seq(ws, value);
ws = skip(many(satisfy(blank)));
comma = seq(string(","), ws);
value = choice(object, array, quoted, number, seq(string("true"), ws), seq(string("false"), ws), seq(string("null"), ws));
object = build(list, between(seq(string("{"), ws), seq(string("}"), ws), sepBy(member, comma)));
member = build(call, seq(quoted, skip(string(":")), ws, value));
array = build(list, between(seq(string("["), ws), seq(string("]"), ws), sepBy(value, comma)));
quoted = between(string("\""), seq(string("\""), ws), text(many(satisfy(not ("\"" | "\\")))));
number = seq(build(num, text(many1(satisfy(digit)))), ws);
"""
CHAINS = """
start file;
file = sum;
sum = chainl1(node, product, satisfy("+" | "-"));
product = chainl1(node, power, satisfy("*" | "/"));
power = chainr1(node, factor, satisfy("^"));
factor = choice(build(num, text(many1(satisfy(digit)))), between(string("("), string(")"), sum));
"""


def repeated(piece, size):
    """As many of the piece as fill so many characters, or just fewer."""
    return piece * (size // len(piece))


def document(size):
    """A JSON text of about so many characters, some of them wide."""
    source, rows, length = random.Random(1), [], 2
    while length < size:
        words = {"name": "".join(source.choices("abcdefgh é∀", k=12)), "size": source.randrange(100_000), "ok": True, "parts": [1, 22, 333]}
        rows.append(json.dumps(words, ensure_ascii=False))
        length += len(rows[-1]) + 2
    return "[" + ", ".join(rows[: max(1, len(rows) - 1)]) + "]"


def formula(size):
    """An expression of at most so many characters."""
    piece = "12+3*4-(56+7*8)*9/2+"
    return repeated(piece, max(size, 40) - 2) + "1"


# A name, a grammar, and the text of about so many characters.
GROWING = [
    ("many", 'start a; a = many(satisfy("x"));', lambda size: "x" * size),
    ("many with errors", 'start a; a = many(choice(string("a"), string("b"), string("x")));', lambda size: "x" * size),
    ("one text", "start a; a = text(many(satisfy(digit)));", lambda size: "7" * size),
    ("words", 'word w head letter rest alphaNum; start a; a = many(seq(word(w), skip(string(" "))));', lambda size: repeated("letter7 ", size)),
    ("right-recursive list", 'start a; a = choice(seq(string("x"), a), seq());', lambda size: "x" * size),
    ("nested parentheses", 'start a; a = choice(build(list, between(string("("), string(")"), a)), seq());', lambda size: "(" * (size // 2) + ")" * (size // 2)),
    ("lists made flat", 'start a; a = build(flat, choice(seq(string("("), a, string(")")), string("x")));', lambda size: "(" * (size // 2) + "x" + ")" * (size // 2)),
    ("JSON", JSON, document),
    ("chains", CHAINS, formula),
]

# What the ratios are measured on besides (benchmarks/ratios).
ONE_CHAIN = 'start file; file = chainl1(node, build(num, text(many1(satisfy(digit)))), satisfy("+" | "-"));'
CALCULATOR = """
operators "+-*/^!" gap " ";
table infixl 6 "+";
table infixl 6 "-";
table infixl 7 "*";
table infixl 7 "/";
table infixr 8 "^";
table prefix 9 "-";
start file;
file = sum;
sum = expr(node, node, node, term);
term = choice(build(num, text(many1(satisfy(digit)))), between(string("("), string(")"), sum));
"""
DECLARING = """
operators "+-*/^!" gap " ";
table infixl 6 "+";
start file;
file = many(local(seq(skip(string("{")), many(seq(choice(seq(string("let "), declare(letter)), sum), skip(string(";")))), skip(string("}")))));
sum = expr(node, node, node, build(num, text(many1(satisfy(digit)))));
"""


def sums(size):
    """An expression of at most so many characters, by the calculator's table."""
    return repeated("12+3*4-(56+7*8)*9/2+", max(size, 40) - 2) + "1"


def operators_in_parentheses(size):
    """An operator before each parenthesis."""
    return "1+(" * (size // 4) + "1" + ")" * (size // 4)


def digits(size):
    """One chain of numbers of one digit."""
    return repeated("7+", max(size, 4) - 1) + "7"


def declared(size):
    """Blocks of a declaration and twenty sums."""
    return repeated("{let infixl 7 *;" + "1+2*3;" * 20 + "}", max(size, 150))


MEASURED = [it for it in GROWING if it[0] in ("JSON", "one text", "right-recursive list", "nested parentheses", "chains", "lists made flat", "words")] + [
    ("one chain", ONE_CHAIN, digits),
    ("expressions", CALCULATOR, sums),
    ("operators in parentheses", CALCULATOR, operators_in_parentheses),
    ("declarations", DECLARING, declared),
]
