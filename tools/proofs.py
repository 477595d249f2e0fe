#!/usr/bin/env python3
"""Proves all crates and runs their programs by the toolchain's own gate, `rt ci`, in a copy of the repository.

usage: tools/proofs.py FOLDER

FOLDER is a new or empty folder: the copy is made there, and what is built stays there. The copy has no must-fail edits
(tools/edits.py tries them) and none of the crates' #[test] functions (tools/crate_tests.py runs them, unproved). Each crate is proved
from nothing, but for those that an earlier run of `rt ci` on this machine has passed with the same files, the same crates below and
the same toolchain: it keeps their sums beside the toolchain. What it prints is printed, and its last line is 'N passed, M failed'.
"""

import os
import re
import shutil
import subprocess
import sys

ROOT = os.path.dirname(os.path.dirname(os.path.realpath(__file__)))
# A module of tests, as the file that it is declared in has it.
TEST_MODULE = re.compile(r"^#\[cfg\(test\)\]\nmod (\w+);\n", re.M)


def without_tests(file):
    """Takes the modules of tests out of a source file, and their files away."""
    with open(file, encoding="utf-8") as opened:
        text = opened.read()
    for name in TEST_MODULE.findall(text):
        inside = os.path.dirname(file) if os.path.basename(file) in ("lib.rt", "main.rt", "mod.rt") else file.removesuffix(".rt")
        os.remove(f"{inside}/{name}.rt")
    if TEST_MODULE.search(text):
        with open(file, "w", encoding="utf-8") as opened:
            opened.write(TEST_MODULE.sub("", text).rstrip("\n") + "\n")


def copy_to(folder):
    os.makedirs(folder, exist_ok=True)
    for name in ("crates.txt", "HANDLES"):
        shutil.copy(f"{ROOT}/{name}", folder)
    left_out = shutil.ignore_patterns("out", "must-fail")
    shutil.copytree(f"{ROOT}/crates", f"{folder}/crates", ignore=left_out)
    for at, _, names in os.walk(f"{folder}/crates"):
        for name in sorted(names):
            if name.endswith(".rt") and os.path.isfile(f"{at}/{name}"):
                without_tests(f"{at}/{name}")


def main(words):
    if len(words) != 1 or os.path.isdir(words[0]) and os.listdir(words[0]):
        print(__doc__, file=sys.stderr)
        return 2
    copy_to(words[0])
    return subprocess.run(["rt", "ci"], cwd=words[0]).returncode


if __name__ == "__main__":
    sys.exit(main(sys.argv[1:]))
