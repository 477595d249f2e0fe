#!/usr/bin/env python3
"""The merge gate: tests/all and then, whatever came of it, tools/prove.py.

usage: tools/gate.py

Where there is no GHC, by which modules are compared with the real library, or no Neovim, which tries the server for editors, apt-get installs it first, and the gate fails
if it can't.
The last line is one sum of both, 'N passed, M failed', and the status is 1 if anything failed.
"""

import os
import shutil
import subprocess
import sys

sys.dont_write_bytecode = True
HERE = os.path.dirname(os.path.realpath(__file__))
sys.path.insert(0, HERE)
from sums import Sums, python


# What is installed where it is missing: the program, and its package.
PACKAGES = {"ghc": "ghc", "nvim": "neovim"}


def install(sums, program, package):
    """Installs a package where its program is missing."""
    for words in (["apt-get", "-q", "update"], ["apt-get", "-q", "install", "-y", "--no-install-recommends", package]):
        if not shutil.which(program):
            subprocess.run(words, env={**os.environ, "DEBIAN_FRONTEND": "noninteractive"}, stdin=subprocess.DEVNULL, stdout=subprocess.DEVNULL, check=False)
    if not shutil.which(program):
        sums.fail(f"there is no {program}, and apt-get can't install it")


def main():
    sums = Sums()
    for program, package in PACKAGES.items():
        install(sums, program, package)
    for name in ("tests/all", "tools/prove.py"):
        sums.run(name, python(f"{os.path.dirname(HERE)}/{name}"))
    return sums.end()


if __name__ == "__main__":
    sys.exit(main())
