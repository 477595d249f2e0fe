#!/usr/bin/env python3
"""Says which files of the crates aren't laid out as `rt fmt` lays them out, since `rt ci` proves no crate that has one.

usage: tools/layout.py

The files are laid out in a copy, so that none changes here. The last line is 'N passed, M failed', counted in crates, and the status is 1 if any
failed: `rt fmt` in such a crate's folder mends it.
"""

import concurrent.futures
import os
import re
import shutil
import subprocess
import sys
import tempfile

sys.dont_write_bytecode = True
sys.path.insert(0, os.path.dirname(os.path.realpath(__file__)))
from toolchain import TOOLS, lanes

ROOT = os.path.dirname(TOOLS)
CHANGED = re.compile(r"^rt: formatted (\S+)$", re.M)


def faults_of(folder):
    """What is wrong with the layout of a crate: a line for each file that changed, or what `rt fmt` says where it fails."""
    ran = subprocess.run(["rt", "fmt"], cwd=folder, stdin=subprocess.DEVNULL, stdout=subprocess.PIPE, stderr=subprocess.STDOUT, text=True, errors="replace")
    faults = [f"{it} isn't laid out as `rt fmt` does it" for it in CHANGED.findall(ran.stdout)]
    return faults if ran.returncode == 0 else [*faults, ran.stdout[-300:]]


def main():
    with tempfile.TemporaryDirectory(prefix="layout-") as room:
        for name in ("crates.txt", "HANDLES"):
            shutil.copy(f"{ROOT}/{name}", room)
        shutil.copytree(f"{ROOT}/crates", f"{room}/crates", ignore=shutil.ignore_patterns("out", "must-fail"))
        names = sorted(os.listdir(f"{room}/crates"))
        with concurrent.futures.ThreadPoolExecutor(lanes()) as pool:
            found = list(pool.map(lambda name: faults_of(f"{room}/crates/{name}"), names))
    for name, faults in zip(names, found):
        for fault in faults:
            print(f"{name}: {fault}", flush=True)
    failed = sum(map(bool, found))
    print(f"{len(found) - failed} passed, {failed} failed")
    return int(failed > 0)


if __name__ == "__main__":
    sys.exit(main())
