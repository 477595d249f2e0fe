#!/usr/bin/env python3
"""Tries must-fail edits: wrong bodies that the prover has to refuse.

usage: tools/edits.py [--all | CRATE ..] [--proved FOLDER] [--record]
       tools/edits.py --fit      tries none, and says in a second which of all edits can't be tried in the files as these are

An edit is a file crates/NAME/must-fail/*.edit: a line `file: src/FILE` and pairs of lines `old: TEXT` and `new: TEXT`, as the
toolchain has them. A line `fn: MODULE::TYPE::FUNCTION` says that all of it lies in the body of that function. First the
functions with edits have to be proved as they are. A check goes on behind a function that isn't proved, so edits of
functions that don't call one another are tried in one check. An edit is refused where its function's own line says so, and
not for a call of a function that isn't proved either; where the line doesn't tell, the edit is tried again in the next
round. An edit without a line `fn:` is tried alone, and judged as `rt must-fail` judges it.

With no crate named, those are tried whose files or edits differ from what tools/edits.record says was tried, or what can be seen of
the crates below, and a third of the others, which the commit picks. --proved names a copy of the repository in which `rt ci` has just built
the libraries; without it they are built here as `rt check` builds them. --record writes the record for the crates whose
edits were all refused. The last line is 'N passed, M failed', and the status is 1 if any failed.
"""

import argparse
import concurrent.futures
import glob
import hashlib
import os
import re
import shutil
import subprocess
import sys
import tempfile
import time
from dataclasses import dataclass

sys.dont_write_bytecode = True
sys.path.insert(0, os.path.dirname(os.path.realpath(__file__)))
from toolchain import TOOLS, build, crates_of, lanes, refusal, rt

RECORD = "tools/edits.record"
# Proof files that answer the goals of one function. No other proof can use them.
ANSWERS = ("Answers.antt", "Invariants.antt")
# A module of tests, as the file that it is declared in has it. All lie in files tests.rt, or of a name that ends in _tests.rt, and proofs are tried without them.
TEST_MODULE = re.compile(r"^#\[cfg\(test\)\]\nmod (?:\w+_)?tests;\n", re.M)
# A character or a string in a source file.
STRING = re.compile(r"""b?'\\?.'|"(\\.|[^"\\])*\"""")
# What a source file may name without a path and without importing it.
PRELUDE = {"Some", "None", "Ok", "Err", "Option", "Result", "Vec", "String", "Box", "Default", "Drop", "Clone", "Self"}
# A function that isn't proved for this reason may be right itself.
FOR_ANOTHER = re.compile(r"it calls|of this cycle|which (is|are) not proved|could not tell")


# ---- where an edit lies


@dataclass
class Body:
    """A function's body: its names below the file's module, its first and last place in the text, where the function itself begins,
    whether other crates may call it, and whether it is constant."""

    names: list
    first: int
    last: int
    head: int
    is_public: bool
    is_constant: bool


def type_named(text):
    """The last segment of a type's or trait's path, without its parameters."""
    return re.match(r"(?:\w+::)*(\w+)", text.strip().lstrip("&")).group(1)


def without_parameters(text):
    """What stands behind the parameters, if any, that a text begins with."""
    depth = 0
    for at, character in enumerate(text):
        depth += (character == "<") - (character == ">" and text[at - 1] != "-")
        if depth == 0:
            return text[at + (character == ">") :]
    return text


def owners_of(line):
    """What the functions of an impl are named by: the type, also with what it is of, with the trait behind it, and with what the
    trait is of where the type has several such impls."""
    trait, between, implementor = without_parameters(line[len("impl") :]).rstrip("{ ").partition(" for ")
    if not between:
        name, arguments = type_named(trait), re.findall(r"\w+", trait.partition("<")[2])
        return [name + "::", *(["+".join([name, *arguments]) + "::"] if arguments else [])]
    name = type_named(implementor) + type_named(trait)
    return [name + "::", name + "".join(re.findall(r"\w+", trait.partition("<")[2])) + "::"]


def opening(lines, at, indent):
    """The number of the line that opens the body of the function that begins at a line, or none where it is on that line."""
    for number in range(at, len(lines)):
        line = lines[number]
        is_head = number == at or line.startswith(f"{indent})")
        if line == indent + "{" or is_head and line.endswith(" {"):
            return number
        if line == indent + "{}" or is_head and line.endswith(("{}", ";", " }")):
            return None
    return None


def bodies_of(text):
    """The bodies of a file's functions, as its layout shows them (`rt fmt` keeps it)."""
    lines, found, owners = text.split("\n"), [], [""]
    starts = [0]
    for line in lines:
        starts.append(starts[-1] + len(line) + 1)
    for at, line in enumerate(lines):
        if line.startswith("impl"):
            owners = owners_of(line)
        elif line == "}":
            owners = [""]
        head = re.match(r"( *)(pub(?:\([^)]*\))? )?(const )?(?:unsafe )?fn (\w+)", line)
        opens = opening(lines, at, head[1]) if head else None
        if opens is not None:
            closes = lines.index(head[1] + "}", opens)
            names = [(it if head[1] else "") + head[4] for it in owners]
            # Those of a trait are public without the word.
            is_public = head[2] == "pub " or bool(head[1]) and not head[2]
            found.append(Body(names, starts[opens + 1], starts[closes] - 1, starts[at], is_public, head[3] is not None))
    return found


def module_of(path):
    """The path of a source file's module, with `::` behind it."""
    parts = path.removeprefix("src/").removesuffix(".rt").split("/")
    parts = parts[:-1] if parts[-1] in ("lib", "main", "mod") else parts
    return "".join(part + "::" for part in parts)


def is_named(function, path, body):
    """Whether a check calls the body's function so: by the module of its file or, where it is a type's, by that of the type."""
    return any(function == module_of(path) + it or "::" in it and function.endswith(f"::{it}") for it in body.names)


def calls_of(folder):
    """For each function of a crate, by the last part of its name, the names of those that it may call, directly or not."""
    direct = {}
    for path in glob.glob(f"{folder}/src/**/*.rt", recursive=True):
        with open(path, encoding="utf-8") as file:
            text = file.read()
        for body in bodies_of(text):
            called = re.findall(r"\b(\w+)(?:::<[^()]*>)?\(|::(\w+)", text[body.first : body.last])
            direct.setdefault(last_part(body.names[0]), set()).update(name for pair in called for name in pair)
    return {name: reached(name, direct) for name in direct}


def reached(name, direct):
    """The names of the functions that one calls, directly or not."""
    found, waiting = set(), [name]
    while waiting:
        new = {it for it in direct[waiting.pop()] if it in direct} - found
        found |= new
        waiting += new
    return found


def last_part(function):
    return function.rpartition("::")[2]


# ---- edits


@dataclass
class Edit:
    """An edit's file, the function in whose body it lies, if one is named, and its pairs: a path, a text and another."""

    file: str
    function: str
    pairs: list

    def name(self):
        return "/".join([self.file.split("/")[-3], os.path.basename(self.file)])


KEYS = ("file", "fn", "old", "new")


def edit_in(file):
    path, old, function, pairs = "", "", "", []
    with open(file, encoding="utf-8") as opened:
        for line in opened.read().split("\n"):
            key, _, value = line.partition(":")
            value = value.removeprefix(" ")
            if key == "file":
                path = value.strip()
            elif key == "fn":
                function = value.strip()
            elif key == "old":
                old = value
            elif key == "new":
                pairs.append((path, old, value))
    return Edit(file, function, pairs)


def applied(edit, folder, texts):
    """The texts with the edit in them, of files by their paths, or none where it doesn't fit into them as they are."""
    texts = dict(texts)
    for path, old, new in edit.pairs:
        if path not in texts:
            with open(f"{folder}/{path}", encoding="utf-8") as file:
                texts[path] = file.read()
        if texts[path].count(old) != 1:
            return None
        texts[path] = texts[path].replace(old, new)
    return texts


def unread(edit):
    """Why the edit's file isn't read as one may think, or none: a line of it is no part of the edit, as that of a text of two lines."""
    with open(edit.file, encoding="utf-8") as opened:
        lines = [it for it in opened.read().split("\n") if it]
    if any(it.partition(":")[0] not in KEYS for it in lines):
        return "a line doesn't begin with 'file:', 'fn:', 'old:' or 'new:', each of which has one line"
    return "a 'new:' text is the 'old:' one" if any(old == new for _, old, new in edit.pairs) else None


def unfit(edit, folder):
    """Why the edit can't be tried in the files as they are, or none."""
    if why := unread(edit):
        return why
    if edit.function:
        return misplaced(edit, folder)
    return None if applied(edit, folder, {}) is not None else "an 'old:' text isn't once in its file"


def unlisted(edit, crate, crates):
    """Which crate a 'new:' text names that the edit's own crate doesn't list, so that no check would read it, or none."""
    listed = {crate.name, *(re.split("[/:]", it)[-1] for it in crate.said["deps"])}
    named = [name for _, _, new in edit.pairs for name in re.findall(r"\b(\w+)::", new) if name in crates and name not in listed]
    return f"a 'new:' text names {named[0]}, which its crate doesn't list" if named else None


def unknown(edit, folder):
    """Which type a 'new:' text names without its path that its file doesn't name, so that no check would read it, or none."""
    for path, _, new in edit.pairs:
        if path.endswith(".rt"):
            with open(f"{folder}/{path}", encoding="utf-8") as file:
                known = {*PRELUDE, *re.findall(r"\w+", file.read())}
            named = re.findall(r"(?<![:\w])([A-Z]\w*[a-z]\w*)\b", re.sub(STRING, "", new))
            if strange := [it for it in named if it not in known]:
                return f"a 'new:' text names {strange[0]}, which {path} doesn't"
    return None


def leads_out(text):
    """Whether the braces of a text end what it stands in, or open what it doesn't close."""
    depth = 0
    for brace in re.findall("[{}]", re.sub(STRING, "", text)):
        depth += 1 if brace == "{" else -1
        if depth < 0:
            return True
    return depth > 0


def misplaced(edit, folder):
    """Why the edit isn't one of the body of its function, or none."""
    texts = {}
    for path, old, new in edit.pairs:
        if not path.startswith("src/") or not os.path.isfile(f"{folder}/{path}"):
            return f"{path} is no source file"
        if path not in texts:
            with open(f"{folder}/{path}", encoding="utf-8") as file:
                texts[path] = file.read()
        text = texts[path]
        if text.count(old) != 1:
            return f"an 'old:' text is in {path} {text.count(old)} times, and not once"
        first = text.index(old)
        around = [it for it in bodies_of(text) if it.first <= first and first + len(old) <= it.last]
        if not any(is_named(edit.function, path, it) for it in around):
            return f"an 'old:' text doesn't lie in the body of {edit.function}"
        texts[path] = text.replace(old, new)
    for path, text in texts.items():
        if any(leads_out(text[it.first : it.last]) for it in bodies_of(text) if is_named(edit.function, path, it)):
            return f"a 'new:' text goes on behind the body of {edit.function}"
    return None if edit.pairs else "it has no 'old:' and 'new:' pair"


# ---- rounds


def lines_of(edit, crate, said):
    """What a check said of the edit's function and of the closures in it."""
    module, _, name = edit.function.rpartition("::")
    parts = edit.function.split("::")
    inside = [f"{crate.name}::{'::'.join([*parts[:at], 'fn', *parts[at:]])}::" for at in range(len(parts))]
    own = f"{crate.name}::{edit.function}"
    found = re.findall(r"^fn (\S+): (.*)$", said, re.M)
    return [(it, why) for it, why in found if it == own or it.startswith(tuple(inside))]


def judged(edit, crate, said, is_alone):
    """Whether a check refused the edit, and why it did; none where it doesn't tell."""
    lines = lines_of(edit, crate, said)
    refused = [why for _, why in lines if why != "proved" and (is_alone or not FOR_ANOTHER.search(why))]
    if refused:
        return True, refused[0]
    if lines and all(why == "proved" for _, why in lines):
        return False, f"NOT REFUSED: {edit.function} is still proved with this edit"
    return None, "no line of the check tells"


class Rounds:
    """The trial of a crate's edits. First the functions are proved as they are, over what `rt check` has left in the crate's
    folder, if anything. Each round starts with a fresh copy of what that left."""

    def __init__(self, crate, room):
        self.crate, self.room, self.kept, self.results = crate, room, f"{room}/kept", {}
        self.calls = calls_of(crate.folder)
        by_hand = f"{crate.folder}/out/incremental"
        if os.path.isdir(by_hand):
            shutil.copytree(by_hand, self.kept)
        else:
            os.mkdir(self.kept)

    def tell(self, edit, is_refused, why):
        """Prints and keeps what became of an edit."""
        print(f"{edit.name()}: {'refused: ' if is_refused else ''}{why[:200]}", flush=True)
        self.results[edit.name()] = is_refused

    def check(self, texts, functions, kept):
        """What a check of these functions says, over the crate with these texts in place of its own, and the kept work."""
        flags = ["--jobs", "1", *(word for it in functions for word in ("--only", it))]
        return rt.checked(self.crate, texts, flags, kept)

    def is_proved(self, functions):
        """Whether the functions are proved as they are. What proves them is kept."""
        return self.check({}, functions, self.kept).returncode == 0

    def try_group(self, group, texts):
        """Tries edits of different functions in one check. Returns those that it doesn't judge."""
        used = f"{self.room}/used"
        shutil.copytree(self.kept, used)
        ran = self.check(texts, [it.function for it in group], used)
        shutil.rmtree(used)
        lines = ran.stdout.rstrip("\n").split("\n")
        unread = next((it for it in lines if rt.unread(it, texts)), "")
        if unread or not re.match(r"only=\d+ proved=\d+", lines[-1]):
            return self.try_halves(group, unread or " ".join(lines[:6]))
        left = []
        for it in group:
            refused, why = judged(it, self.crate, ran.stdout, len(group) == 1)
            if refused is None and len(group) > 1:
                left.append(it)
            else:
                self.tell(it, bool(refused), why)
        return left

    def try_halves(self, group, why):
        """Tries edits of which one can't even be read, for the reason given. Returns those that aren't judged."""
        if len(group) == 1:
            self.tell(group[0], False, f"BAD EDIT: the prover cannot read the edited text: {why[:300]}")
            return []
        halves = group[: len(group) // 2], group[len(group) // 2 :]
        return [it for half in halves for it in self.try_group(half, self.texts_of(half))]

    def texts_of(self, group):
        """The crate's texts with these edits in them."""
        texts = {}
        for it in group:
            texts = applied(it, self.crate.folder, texts)
        return texts

    def depends(self, edit, other):
        """Whether a check can't tell of one edit where the other is in it too: their function is the same, or it calls the other's."""
        name, below = last_part(edit.function), last_part(other.function)
        return edit.function == other.function or below in self.calls.get(name, ())

    def next_group(self, waiting):
        """As many edits as can be judged at once: none whose function calls another one's, and none that another one has spoilt."""
        group, rest, texts = [], [], {}
        for it in waiting:
            with_it = applied(it, self.crate.folder, texts)
            if with_it is None or any(self.depends(it, other) or self.depends(other, it) for other in group):
                rest.append(it)
            else:
                group, texts = [*group, it], with_it
        return group, rest, texts

    def try_all(self, edits):
        waiting, alone = [], []
        for it in edits:
            why = unread(it) or (misplaced(it, self.crate.folder) if it.function else None)
            if why:
                self.tell(it, False, f"BAD EDIT: {why}")
            else:
                (waiting if it.function else alone).append(it)
        waiting.sort(key=lambda it: len(self.calls.get(last_part(it.function), ())))
        if waiting and not self.is_proved([it.function for it in waiting]):
            for it in waiting:
                self.tell(it, False, "BAD EDIT: the functions with edits are not proved as they are")
            waiting = []
        while waiting:
            group, rest, texts = self.next_group(waiting)
            left = self.try_group(group, texts)
            if len(left) == len(group):
                self.try_group(left[:1], self.texts_of(left[:1]))
                left = left[1:]
            waiting = [*left, *rest]
        for it in alone:
            is_refused, why = refusal(self.crate, it.file, self.kept)
            self.tell(it, is_refused, why)
        return self.results


def tried(crate, edits):
    """Whether each of a crate's edits was refused, by their names, and the seconds that they took."""
    started = time.monotonic()
    with tempfile.TemporaryDirectory(prefix="edits-") as room:
        results = Rounds(crate, room).try_all(edits)
    return results, time.monotonic() - started


# ---- which crates


def edits_of(root, name):
    return [edit_in(it) for it in sorted(glob.glob(f"{root}/crates/{name}/must-fail/*.edit"))]


def without_comments(path, text):
    """A file's lines but for those that no proof sees: comments alone, and the modules of tests."""
    text = TEST_MODULE.sub("", text)
    mark = {".rt": "//", ".antt": "--"}.get(os.path.splitext(path)[1])
    return text if mark is None else "\n".join(line for line in text.split("\n") if not line.lstrip().startswith(mark))


def seen_above(path, text):
    """What a proof in a crate above can see of a file: of a source neither bodies nor functions of the crate alone, as in the interface
    that the toolchain makes of a library, and nothing of what answers a function's own goals. A constant function's body can be
    computed with, so it stays."""
    if os.path.basename(path) in ANSWERS:
        return ""
    if not path.endswith(".rt"):
        return text
    kept, after = [], 0
    for body in bodies_of(text):
        if body.first >= after and not body.is_constant:
            kept.append(text[after : body.first if body.is_public else body.head])
            after = body.last
    lines = "".join([*kept, text[after:]]).split("\n")
    return "\n".join(line for line in lines if not line.lstrip().startswith(("//", "#[tactic(", "#![tactic(")) and line.strip(" }"))


def sum_of(root, crate, identity):
    """A sum of all that the trial of a crate's edits rests on: its files and edits, what is seen of the crates below, and the toolchain."""
    total = hashlib.sha256(identity)
    for it in [*crate.below(), crate]:
        is_own = it.name == crate.name
        parts = ["src", "specs", "proofs", *(["must-fail"] if is_own else [])]
        for file in sorted(file for part in parts for file in glob.glob(f"{root}/crates/{it.name}/{part}/**", recursive=True)):
            if os.path.isfile(file) and not file.endswith(("/tests.rt", "_tests.rt")):
                with open(file, encoding="utf-8") as opened:
                    content = without_comments(file, opened.read())
                seen = (content if is_own else seen_above(file, content)).encode()
                total.update(f"{os.path.relpath(file, root)}\0{len(seen)}\0".encode() + seen)
    return total.hexdigest()[:32]


def recorded(root):
    """The sums of the record, by crates."""
    try:
        with open(f"{root}/{RECORD}", encoding="utf-8") as file:
            return dict(line.split() for line in file if line.strip() and not line.startswith("#"))
    except FileNotFoundError:
        return {}


def write_record(root, sums):
    with open(f"{root}/{RECORD}", "w", encoding="utf-8") as file:
        file.write("# Sums of the crates whose edits were all refused: tools/edits.py --record writes them.\n")
        file.writelines(f"{name} {sum}\n" for name, sum in sorted(sums.items()))


def third(names, root):
    """A third of the names, another one for each commit."""
    ran = subprocess.run(["git", "rev-parse", "HEAD"], cwd=root, capture_output=True, text=True)
    order = sorted(names, key=lambda it: hashlib.sha256(f"{ran.stdout.strip()} {it}".encode()).digest())
    return order[: (len(order) + 2) // 3]


def picked(root, names, words, sums):
    """The crates whose edits are to be tried, each with why."""
    if words.crates or words.all:
        return {it: "named" if words.crates else "all" for it in names if words.all or it in words.crates}
    old = recorded(root)
    changed = {it: "no record of this content" for it in names if old.get(it) != sums[it]}
    return {**changed, **{it: "picked by the commit" for it in third([it for it in names if it not in changed], root)}}


# ---- all of it


def words_of(arguments):
    parser = argparse.ArgumentParser(prog="tools/edits.py", description=__doc__, formatter_class=argparse.RawDescriptionHelpFormatter)
    parser.add_argument("crates", nargs="*", metavar="CRATE")
    parser.add_argument("--all", action="store_true")
    parser.add_argument("--proved", metavar="FOLDER")
    parser.add_argument("--record", action="store_true")
    parser.add_argument("--fit", action="store_true")
    parser.add_argument("--root", default=os.path.dirname(TOOLS), help=argparse.SUPPRESS)
    return parser.parse_args(arguments)


def build_below(crates):
    """Builds the libraries below the crates, where they aren't built. Returns whether all of them are proved."""
    libraries = [it for crate in crates for it in crate.below()]
    return build(list(dict.fromkeys(libraries)), lambda text: print(text, flush=True))


def try_crates(root, crates):
    """Tries the edits of crates, and tells of each as its round ends. Returns of each crate whether each was refused, by their names."""
    found = {}
    largest_first = sorted(crates, key=lambda it: -it.count(rb"\n"))
    with concurrent.futures.ThreadPoolExecutor(lanes()) as pool:
        runs = {pool.submit(tried, it, edits_of(root, it.name)): it.name for it in largest_first}
        for run in concurrent.futures.as_completed(runs):
            name, (results, seconds) = runs[run], run.result()
            found[name] = results
            print(f"{name}: {sum(results.values())} of {len(results)} edits refused, {seconds:.0f} s", flush=True)
    return found


def tell_fit(root, names, crates):
    """Tells of each edit that can't be tried in the files as they are, and the sum. Returns whether all can."""
    edits = [(name, it) for name in names for it in edits_of(root, name)]
    folders = {name: f"{root}/crates/{name}" for name in names}
    why = {it.name(): unfit(it, folders[name]) or unlisted(it, crates[name], crates) or unknown(it, folders[name]) for name, it in edits}
    for name in (it for it in why if why[it]):
        print(f"{name}: BAD EDIT: {why[name]}")
    failed = sum(map(bool, why.values()))
    print(f"{len(why) - failed} passed, {failed} failed")
    return not failed


def main(arguments):
    words = words_of(arguments)
    root = os.path.realpath(words.root)
    crates = crates_of(os.path.realpath(words.proved or root))
    names = [it for it in crates if edits_of(root, it)]
    if words.fit:
        return 0 if tell_fit(root, names, crates) else 1
    unknown = [it for it in words.crates if it not in names]
    if unknown:
        print(f"tools/edits.py: no crate {unknown[0]} with edits", file=sys.stderr)
        return 2
    identity = subprocess.run(["rt", "version"], capture_output=True).stdout
    sums = {it: sum_of(root, crates[it], identity) for it in names}
    chosen = picked(root, names, words, sums)
    for name in names:
        print(f"{name}: {len(edits_of(root, name))} edits, {chosen.get(name, 'tried before, and not this time')}", flush=True)
    if not words.proved and not build_below([crates[it] for it in chosen]):
        print("0 passed, 1 failed")
        return 1
    found = try_crates(root, [crates[it] for it in chosen])
    if words.record:
        old = {name: sum for name, sum in recorded(root).items() if sums.get(name) == sum}
        write_record(root, {**old, **{name: sums[name] for name, results in found.items() if all(results.values())}})
    # Said again at the end, where they are seen.
    failed = [name for results in found.values() for name, is_refused in results.items() if not is_refused]
    for name in failed:
        print(f"{name}: not refused, as said above")
    total = sum(map(len, found.values()))
    print(f"{total - len(failed)} passed, {len(failed)} failed")
    return 1 if failed else 0


if __name__ == "__main__":
    sys.exit(main(sys.argv[1:]))
