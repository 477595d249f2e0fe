"""The real library: modules that `pgw haskell` printed, compiled by GHC and run on texts, and its answers with our quotes."""

import json
import re
import shutil
import subprocess
import tempfile

SECONDS = 600
MEMORY = "3g"

# Our place of the error of notFollowedBy is where it begins: docs/PARSEC.md.
OURS = """module Ours (notFollowedBy) where

import Text.Parsec (Parsec, lookAhead, optionMaybe, try, unexpected)

notFollowedBy :: Show a => Parsec String u a -> Parsec String u ()
notFollowedBy p = optionMaybe (try (lookAhead p)) >>= maybe (return ()) (unexpected . show)
"""

MAIN = """{{-# OPTIONS_GHC -Wno-unused-top-binds #-}}
module Main (main) where

import Control.Exception (ErrorCall (..), evaluate, try)
import Data.Functor.Identity (Identity, runIdentity)
import Data.List (isInfixOf)
import System.IO (hSetEncoding, stdin, stdout, utf8)
import Text.Parsec (ParseError, ParsecT)
import Text.Parsec.Pos (initialPos)
import Text.Parsec.Prim (Consumed (..), Reply (..), State (..), runParsecT)
{imports}

probe :: Show t => u -> ParsecT String u Identity t -> String -> String
probe user p text = case runIdentity (runParsecT p (State text (initialPos "t") user)) of
  Consumed reply -> "consumed " ++ told (runIdentity reply)
  Empty reply -> "empty " ++ told (runIdentity reply)
  where
    told (Ok trees after _) = "ok\\nplace " ++ show (length text - length (stateInput after)) ++ "\\n" ++ show trees ++ "\\n"
    told (Error e) = "error\\n" ++ show e ++ "\\n"

parsed :: Show t => (String -> String -> Either ParseError t) -> String -> String
parsed run text = either (\\e -> "error\\n" ++ show e ++ "\\n") (\\trees -> "ok\\n" ++ show trees ++ "\\n") (run "t" text)

ask :: (Int, String) -> IO ()
ask (number, text) = do
  let answer = asked number text
  ended <- try (evaluate (foldr seq () answer))
  print (either failed (const answer) ended)
  where
    failed (ErrorCall said) = if "that accepts an empty string" `isInfixOf` said then "P6 empty repetition\\n" else said

main :: IO ()
main = do
  hSetEncoding stdin utf8
  hSetEncoding stdout utf8
  getContents >>= mapM_ (ask . read) . lines

asked :: Int -> String -> String
{calls}
asked _ = id
"""

CONTROLS = "NUL SOH STX ETX EOT ENQ ACK BEL BS HT LF VT FF CR SO SI DLE DC1 DC2 DC3 DC4 NAK SYN ETB CAN EM SUB ESC FS GS RS US SP".split()
ESCAPES = {"n": "\n", "t": "\t", '"': '"', "'": "'", "\\": "\\", "&": "", "a": "\a", "b": "\b", "f": "\f", "r": "\r", "v": "\v", "DEL": "\x7f"}
ESCAPED = re.compile(r"\\(\d+|SOH|" + "|".join(c for c in CONTROLS if c != "SOH") + r"|DEL|.)", re.DOTALL)
STRING = re.compile(r'"(?:[^"\\]|\\.)*"')
QUOTED = re.compile(r"""\"(?:[^"\\]|\\.)*\"|'(?:[^'\\]|\\[^']+|\\')'""")
TREES = re.compile(r'"(?:[^"\\]|\\.)*"|[\[\]]|Leaf|Node')


def is_there():
    return shutil.which("ghc") is not None


class Module:
    """A module of a grammar, with the name M and a number."""

    def __init__(self, number, source):
        self.number = number
        self.source = source
        self.start, self.state = re.search(r"^parseText = runParser \((\S+) <\* eof\) (\S+)$", source, re.MULTILINE).groups()
        self.looks_ahead = re.search(r"\bnotFollowedBy\b", source) is not None

    def variants(self):
        """The module's names, with its sources: as it is printed, and with our place of the error of notFollowedBy."""
        yield f"M{self.number}", self.source
        if self.looks_ahead:
            line = re.search(r"^import Text\.Parsec \(([^;]*?)\)$", self.source, re.MULTILINE)
            names = [name for name in re.split(r",\s+", line[1]) if name != "notFollowedBy"]
            ours = f"import Text.Parsec ({', '.join(names)})\nimport Ours (notFollowedBy)"
            yield f"N{self.number}", self.source.replace(line[0], ours).replace(f"module M{self.number}\n", f"module N{self.number}\n")

    def probe(self, name):
        """The call that runs the start rule of a variant, as a probe does."""
        state = "()" if self.state == "()" else f"{name}.{self.state}"
        return f"probe {state} {name}.{self.start}"


def answers(sources, calls, asks):
    """What the library answers to texts, each asked by the number of a call, of modules with these names and sources; and what GHC says of them."""
    imports = "\n".join(f"import qualified {name}" for name in sources)
    lines = "\n".join(f"asked {number} = {call}" for number, call in enumerate(calls))
    sources = {**sources, "Ours": OURS, "Main": MAIN.format(imports=imports, calls=lines)}
    said, complaint = run_main(sources, "".join(f"({number},{haskell_text(text)})\n" for number, text in asks))
    return [haskell_read(line) for line in said.splitlines()], complaint


def run_main(sources, text):
    """What the module Main among some prints, on both streams, with this text on its standard input."""
    with tempfile.TemporaryDirectory(prefix="pgw-library-") as folder:
        for name, source in sources.items():
            with open(f"{folder}/{name}.hs", "w", encoding="utf-8") as file:
                file.write(source)
        words = ["ghc", "+RTS", f"-M{MEMORY}", "-RTS", "-v0", "-Wall", "-Werror", "-fbyte-code", "-e", "main", "Main.hs"]
        ran = subprocess.run(words, cwd=folder, input=text.encode(), capture_output=True, timeout=SECONDS, check=False)
        return ran.stdout.decode(), ran.stderr.decode()[:3000]


# ---- our quotes


def haskell_text(text):
    """A text as a string of Haskell."""
    return '"' + "".join(c if " " <= c <= "~" and c not in '"\\' else f"\\{ord(c)}\\&" for c in text) + '"'


def haskell_read(shown):
    """A text that Haskell's show wrote."""

    def one(match):
        said = match[1]
        return chr(int(said)) if said.isdigit() else ESCAPES[said] if said in ESCAPES else chr(CONTROLS.index(said)) if said in CONTROLS else match[0]

    return ESCAPED.sub(one, shown[1:-1])


def as_json(shown):
    """A string or character that Haskell's show wrote, as we print it."""
    return json.dumps(haskell_read(shown), ensure_ascii=False)


def our_trees(shown):
    """Trees that Haskell's show wrote, as we print them."""
    words = iter(TREES.findall(shown))

    def trees():
        found = []
        for word in words:
            if word == "]":
                return found
            if word == "Leaf":
                found.append(haskell_read(next(words)))
            elif word == "Node":
                label = haskell_read(next(words))
                next(words)
                found.append({"kids": trees(), "node": label})
        return found

    next(words)
    return json.dumps(trees(), ensure_ascii=False, separators=(",", ":"))


def our_line(line):
    """A line of the library's error with our quotes. What notFollowedBy and eof met has single ones there."""
    return (QUOTED if line.startswith("unexpected ") else STRING).sub(lambda m: as_json(m[0]), line)


def our_answer(answer):
    """An answer of the library with our quotes."""
    lines = answer.split("\n")
    if lines[0].endswith("ok"):
        return "\n".join([*lines[:-2], our_trees(lines[-2]), ""])
    return "\n".join([lines[0], *map(our_line, lines[1:])])
