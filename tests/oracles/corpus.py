"""Reads corpus files a second time, by regular expressions over whole lines and not by the program's walk; and writes outlines, and reads them back.

`read(bytes)` answers `Corpus(head, cases)`, or raises `Fault(code, line, column)` with the code and the position that the program has to tell. `updated(corpus, wanted)`
gives the bytes with other texts in the place of what is wanted. `random_corpus(random)` makes files that are read, and `spoilt(random, bytes)` files that mostly aren't. `outline(forest)` is
what a case wants of a forest, in JSON's form: a leaf is a string, a node has "node" and "kids". `read_outline(text)` is the forest again, so no two have the same outline.
"""

import json
import re
from dataclasses import dataclass

LIMIT = 16_777_216
MARK = re.compile(rb"(={3,})(?: (.*))?", re.S)
BLANK = re.compile(rb"[ \t\r\n]*")
SPACE = b" \t\n\x0c\r"


class Fault(Exception):
    def __init__(self, code, line, column):
        super().__init__(f"{line}:{column}: {code}")
        self.code, self.line, self.column = code, line, column


@dataclass
class Case:
    line: int
    name: bytes
    start: bytes | None
    text: bytes
    wanted: bytes
    before: bytes
    after: bytes


@dataclass
class Corpus:
    head: bytes
    cases: list


def position(front):
    """The line and the column behind these bytes, a tab going to the next multiple of 8 and one."""
    text = front.decode("utf-8", errors="strict")
    line, column = 1, 1
    for c in text:
        if c == "\n":
            line, column = line + 1, 1
        elif c == "\t":
            column += 8 - (column - 1) % 8
        else:
            column += 1
    return line, column


def fault(code, front):
    return Fault(code, *position(front))


def lines_of(bytes_):
    return [line for line in re.split(rb"(?<=\n)", bytes_) if line]


def without_feed(line):
    return line[:-1] if line.endswith(b"\n") else line


def is_around(line):
    return line.startswith(b"#") or BLANK.fullmatch(line) is not None


def begins_case(line):
    return MARK.fullmatch(without_feed(line)) is not None


def heading(line):
    """The size of the mark, the name and the rule of a case's first line, or the code of its fault."""
    marks, rest = MARK.fullmatch(without_feed(line)).groups()
    label = (rest or b"").strip(SPACE)
    at = label.rfind(b"[")
    if at < 0 or (at > 0 and label[at - 1:at] not in (b" ", b"\t", b"\n", b"\x0c", b"\r")):
        return (len(marks), label, None) if label else "T5"
    closing = label.find(b"]", at)
    if 0 <= closing < len(label) - 1:
        return len(marks), label, None
    if closing < 0:
        return "T6"
    rule, name = label[at + 1:-1].strip(SPACE), label[:at].strip(SPACE)
    if not rule:
        return "T6"
    return (len(marks), name, rule) if name else "T5"


def read(bytes_):
    if len(bytes_) > LIMIT:
        raise Fault("T2", *position(bytes_[:LIMIT].decode("utf-8", errors="ignore").encode()))
    try:
        bytes_.decode("utf-8")
    except UnicodeDecodeError as error:
        raise fault("T1", bytes_[:error.start]) from None
    lines = lines_of(bytes_)
    starts = [0]
    for line in lines:
        starts.append(starts[-1] + len(line))
    place = 0
    while place < len(lines) and is_around(lines[place]):
        place += 1
    head, cases = bytes_[:starts[place]], []
    while place < len(lines):
        first = place
        front = bytes_[:starts[first]]
        if not begins_case(lines[first]):
            raise fault("T4" if cases else "T3", front)
        told = heading(lines[first])
        size = len(re.match(rb"=*", lines[first]).group())
        if isinstance(told, str):
            raise fault(told, bytes_[:starts[first] + size])
        size, name, rule = told
        place = first + 1
        while place < len(lines) and without_feed(lines[place]) != b"-" * size:
            place += 1
        if place == len(lines):
            raise fault("T8", front)
        text = without_feed(bytes_[starts[first + 1]:starts[place]])
        place += 1
        while place < len(lines) and is_around(lines[place]):
            place += 1
        begin = place
        while place < len(lines) and not is_around(lines[place]) and not begins_case(lines[place]):
            place += 1
        wanted = without_feed(bytes_[starts[begin]:starts[place]])
        if not wanted:
            raise fault("T9", front)
        while place < len(lines) and is_around(lines[place]):
            place += 1
        after = bytes_[starts[begin] + len(wanted):starts[place]]
        cases.append(Case(first + 1, name, rule, text, wanted, bytes_[starts[first]:starts[begin]], after))
    names = set()
    for case in cases:
        if case.name in names:
            raise Fault("T7", case.line, 1)
        names.add(case.name)
    return Corpus(head, cases)


def updated(corpus, wanted):
    return corpus.head + b"".join(case.before + text + case.after for case, text in zip(corpus.cases, wanted))


def quoted(text):
    """A text as serde_json writes it."""
    return json.dumps(text, ensure_ascii=False)


def is_word(label):
    return (label not in ("", "error", "accepted", "node") and label[0] not in "=-#[" and label[-1] != ">"
            and all(c > " " and c not in '"\\' for c in label))


def name_of(label):
    return label if is_word(label) else f"node {quoted(label)}"


def indentation(depth):
    return "  " * min(depth, 40) + (f"{depth}> " if depth > 40 else "")


def outline(forest):
    """The outline of a forest, without the last line feed."""
    out, tasks = [], [(0, tree) for tree in reversed(forest)]
    while tasks:
        depth, tree = tasks.pop()
        if isinstance(tree, str):
            out.append(indentation(depth) + quoted(tree))
            continue
        line, kids = indentation(depth) + name_of(tree["node"]), tree["kids"]
        if len(kids) == 1 and isinstance(kids[0], str):
            out.append(f"{line} {quoted(kids[0])}")
        else:
            out.append(line)
            tasks += [(depth + 1, kid) for kid in reversed(kids)]
    return "\n".join(out) if forest else "[]"


def read_outline(text):
    """The forest with this outline."""
    if text == "[]":
        return []
    forest, nodes = [], []
    for line in text.split("\n"):
        depth = (len(line) - len(line.lstrip(" "))) // 2
        body = line.lstrip(" ")
        deeper = re.match(r"(\d+)> ", body) if depth == 40 else None
        if deeper:
            depth, body = int(deeper.group(1)), body[deeper.end():]
        kids = forest if depth == 0 else nodes[depth - 1]["kids"]
        del nodes[depth:]
        if body.startswith('"'):
            kids.append(json.loads(body, strict=False))
            continue
        if body.startswith("node "):
            label, end = json.JSONDecoder(strict=False).raw_decode(body, 5)
        else:
            end = len(body) if " " not in body else body.index(" ")
            label = body[:end]
        node = {"node": label, "kids": []}
        if end < len(body):
            node["kids"].append(json.loads(body[end + 1:], strict=False))
        kids.append(node)
        nodes.append(node)
    return forest


LABELS = ("a", "node", "error", "accepted", "", "=", "===", "-", "---", "#x", "[", '"', "\\", "a b", "41>", ">", "x>", "é", "\n", "\x7f", "[]")


def random_forest(random, depth=0):
    """A forest with labels and texts that could be taken for something else."""
    trees = []
    for _ in range(random.randrange(4 if depth < 3 else 2)):
        if random.randrange(2):
            trees.append(random.choice(LABELS))
        else:
            kids = random_forest(random, depth + 1)
            for _ in range(random.choice((0, 0, 0, 38, 45))):
                kids = [{"node": random.choice(LABELS), "kids": kids}]
            trees.append({"node": random.choice(LABELS), "kids": kids})
    return trees


def random_text(random):
    """A text with much of what could be taken for a mark."""
    parts = [b"a", b"\n", b" ", b"=", b"===", b"---", b"-", b"----", b"#", b"\\", b"\t", "é".encode(), b"\n---\n", b"\n=== x\n", b"[", b"]"]
    return b"".join(random.choice(parts) for _ in range(random.randrange(12)))


def random_corpus(random):
    """A file that is read, and the cases that were written."""
    written, out = [], [random.choice([b"", b"# a comment\n", b"\n", b"\n# two\n\n"])]
    for number in range(random.randrange(6)):
        text = random_text(random)
        size = 3
        while (b"\n" + text + b"\n").find(b"\n" + b"-" * size + b"\n") >= 0:
            size += 1
        name = b"case %d%s" % (number, random.choice([b"", b" a[1]", b" [x] y", b" -"]))
        rule = random.choice([None, None, b"rule"])
        wanted = random.choice([b"accepted", b"error", b"error\nline 1, column 1\nunexpected end of input", b"[]", b"a\n  b \"c\"", b'node "==="'])
        shown = b"" if rule is None else b" [%s]" % rule
        feed = b"" if not text and random.randrange(2) else b"\n"
        out.append(b"=" * size + b" " + name + shown + b"\n" + text + feed + b"-" * size + b"\n")
        out.append(random.choice([b"", b"\n", b"# why\n"]) + wanted + random.choice([b"\n", b"\n\n", b"\n# next\n"]))
        written.append((name, rule, text, wanted))
    whole = b"".join(out)
    if written and random.randrange(4) == 0:
        whole = whole.rstrip(b"\n") if not whole.endswith(b"# next\n") else whole
    return whole, written


def spoilt(random, bytes_):
    """The bytes with one line taken away, doubled or swapped, or one byte changed."""
    lines = lines_of(bytes_)
    if not lines:
        return bytes_
    at = random.randrange(len(lines))
    kind = random.randrange(4)
    if kind == 0:
        del lines[at]
    elif kind == 1:
        lines.insert(at, lines[at])
    elif kind == 2:
        other = random.randrange(len(lines))
        lines[at], lines[other] = lines[other], lines[at]
    else:
        whole = bytearray(bytes_)
        whole[random.randrange(len(whole))] = random.choice(b"=-#[] \n\tx\xff")
        return bytes(whole)
    return b"".join(lines)


def self_test(rounds=2000):
    import random as source
    random = source.Random(61)
    for _ in range(rounds):
        bytes_, written = random_corpus(random)
        corpus = read(bytes_)
        assert [(c.name, c.start, c.text, c.wanted) for c in corpus.cases] == written, (bytes_, written, corpus)
        assert updated(corpus, [c.wanted for c in corpus.cases]) == bytes_
        other = updated(corpus, [b"accepted"] * len(corpus.cases))
        assert [(c.name, c.start, c.text) for c in read(other).cases] == [w[:3] for w in written]
        try:
            read(spoilt(random, bytes_))
        except Fault:
            pass
        forest = random_forest(random)
        assert read_outline(outline(forest)) == forest, forest
        assert not any(is_around(line.encode()) or begins_case(line.encode()) for line in outline(forest).split("\n"))


if __name__ == "__main__":
    self_test()
    print("corpus: as expected")
