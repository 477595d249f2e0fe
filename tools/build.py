#!/usr/bin/env python3
"""Proves and builds the libraries below the program, side by side, and then the program.

usage: tools/build.py
       tools/build.py --renew [FOLDER]

It says of each library that it is proved, and how many there are. It can be interrupted and called again: what is proved
isn't proved again. `./pgw` calls it where there is no program of these sources. The status is 1 where anything failed.

--renew puts the program in dist/, with the text beside it that says what it was built from. FOLDER is one in which tools/proofs.py
has proved and built these sources: its program is taken then, and nothing is built here.
"""

import filecmp
import os
import shutil
import subprocess
import sys
import tempfile

sys.dont_write_bytecode = True
sys.path.insert(0, os.path.dirname(os.path.realpath(__file__)))
import proofs
import shipping
from toolchain import TOOLS, build, crates_of, rt

PROGRAM = "pg"
ROOT = os.path.dirname(TOOLS)
SOURCES = ("src", "specs", "proofs")


def tell(text):
    print(f"pgw: {text}", file=sys.stderr, flush=True)


def build_program():
    """Proves and builds the program in this folder. Returns whether that went well."""
    crates = crates_of(ROOT)
    libraries = crates[PROGRAM].below()
    held = rt.rtlib.lock([*libraries, crates[PROGRAM]])
    if not build(libraries, tell):
        return False
    for it in held:
        os.close(it)
    tell("the program itself")
    how = {"stdin": subprocess.DEVNULL, "stdout": subprocess.PIPE, "stderr": subprocess.STDOUT, "text": True}
    ran = subprocess.run(["rt", "run", "--", "--version"], cwd=crates[PROGRAM].folder, **how)
    if ran.returncode:
        tell(ran.stdout)
    return ran.returncode == 0


# ---- the program that the repository carries


def sources_of(folder):
    """The paths of the files in a copy of the repository that the program is built from."""
    found = {"crates.txt"}
    for at, folders, names in os.walk(f"{folder}/crates"):
        folders[:] = [name for name in folders if name != "out"]
        path = os.path.relpath(at, folder).split(os.sep)
        if len(path) > 2 and path[2] in SOURCES:
            found.update(os.path.join(*path, name) for name in names if name.endswith((".rt", ".antt")))
    return found


def difference(folder):
    """A file in which the folder differs from what tools/proofs.py makes of these sources now, or none."""
    with tempfile.TemporaryDirectory() as wanted:
        proofs.copy_to(wanted)
        ours, theirs = sources_of(wanted), sources_of(folder)
        differ = [it for it in ours & theirs if not filecmp.cmp(f"{wanted}/{it}", f"{folder}/{it}", shallow=False)]
    return min([*differ, *(ours ^ theirs)], default=None)


def renew(program):
    """Puts a program and its text in dist/."""
    os.makedirs(os.path.dirname(shipping.SHIPPED), exist_ok=True)
    shutil.copyfile(program, shipping.SHIPPED)
    os.chmod(shipping.SHIPPED, 0o755)
    rows = {
        "sources": shipping.sum_of_sources(),
        "toolchain": shipping.toolchain(),
        "compiler": shipping.compiler(),
        "program": shipping.sum_of(shipping.SHIPPED),
        "bytes": os.path.getsize(shipping.SHIPPED),
    }
    with open(shipping.TEXT, "w", encoding="utf-8") as file:
        file.write(shipping.HEAD + "".join(f"{word} {what}\n" for word, what in rows.items()))
    tell(f"{os.path.relpath(shipping.SHIPPED, ROOT)} is the program of these sources now")


def main(words):
    if words and words[0] != "--renew" or len(words) > 2:
        print(__doc__, file=sys.stderr)
        return 2
    folder = words[1] if len(words) == 2 else None
    if folder:
        other = difference(folder)
        if other:
            tell(f"{folder} was not built from these sources: {other} differs")
            return 1
    elif not build_program():
        return 1
    if words:
        renew(f"{folder or ROOT}/crates/{PROGRAM}/out/{PROGRAM}")
    return 0


if __name__ == "__main__":
    try:
        sys.exit(main(sys.argv[1:]))
    except KeyboardInterrupt:
        tell("interrupted; the next call goes on from here")
        sys.exit(130)
