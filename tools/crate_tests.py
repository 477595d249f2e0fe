#!/usr/bin/env python3
"""Runs the #[test] functions of the crates, without proving them.

usage: tools/crate_tests.py [CRATE ..]

Each crate is compiled from its sources and run with memory checked, by `rt try --test`. A crate whose tests fail gives what
was said. The last line is 'N passed, M failed', counted in crates, and the status is 1 if any failed.
"""

import concurrent.futures
import os
import subprocess
import sys

sys.dont_write_bytecode = True
sys.path.insert(0, os.path.dirname(os.path.realpath(__file__)))
from toolchain import TOOLS, crates_of, lanes


def tried(crate):
    """Whether a crate's tests passed, and what was said."""
    how = {"stdin": subprocess.DEVNULL, "stdout": subprocess.PIPE, "stderr": subprocess.STDOUT, "errors": "replace"}
    ran = subprocess.run(["rt", "try", "--test"], cwd=crate.folder, **how)
    return ran.returncode == 0, ran.stdout


def main(names):
    crates = [it for it in crates_of(os.path.dirname(TOOLS)).values() if it.has_tests() and (not names or it.name in names)]
    failed = 0
    with concurrent.futures.ThreadPoolExecutor(lanes()) as pool:
        for crate, (passed, said) in zip(crates, pool.map(tried, crates)):
            print(f"{crate.name}: its tests {'passed' if passed else 'FAILED'}")
            if not passed:
                print(said)
                failed += 1
    print(f"{len(crates) - failed} passed, {failed} failed")
    return 1 if failed or not crates else 0


if __name__ == "__main__":
    sys.exit(main(sys.argv[1:]))
