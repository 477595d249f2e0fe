"""The program that the repository carries, and the text beside it that says what it was built from."""

import hashlib
import os
import subprocess

ROOT = os.path.dirname(os.path.dirname(os.path.realpath(__file__)))
SHIPPED = f"{ROOT}/dist/pgw-x86_64-linux"
TEXT = f"{SHIPPED}.txt"
HEAD = """# What the program beside this was built from. `tools/build.py --renew` writes both, `./pgw` runs the program where the sources
# are these, and `tools/prove.py` builds it again and compares the bytes.
"""


def by_wrapper(words):
    """What some words of bash print, with the functions of ./pgw at hand, and their status."""
    ran = subprocess.run(["bash", "-c", f'source "$1"; {words}', "bash", f"{ROOT}/pgw"], stdin=subprocess.DEVNULL, stdout=subprocess.PIPE,
                         stderr=subprocess.STDOUT, text=True)
    return ran.stdout.removesuffix("\n"), ran.returncode


def sum_of_sources():
    """The sum over all that the program is built from, as ./pgw has it."""
    return by_wrapper("sum_of_sources")[0]


def program_of_sources():
    """The program of these sources that is there, or none, and why there is none."""
    said, status = by_wrapper('if is_chosen || find_program "$(sum_of_sources)"; then echo "$program"; else echo "$lacking"; exit 1; fi')
    return (said, None) if status == 0 else (None, said)


def sum_of(path):
    with open(path, "rb") as file:
        return hashlib.sha256(file.read()).hexdigest()


def noted():
    """What the text says, by its words."""
    try:
        with open(TEXT, encoding="utf-8") as file:
            return dict(line.rstrip("\n").split(" ", 1) for line in file if not line.startswith("#"))
    except FileNotFoundError:
        return {}


def toolchain():
    """The toolchain's identity, as it tells it."""
    return subprocess.run(["rt", "version"], stdout=subprocess.PIPE, text=True, check=True).stdout.strip()


def compiler():
    """The compiler that made the program's machine code, as the toolchain's LLVM tells it."""
    kit = os.path.dirname(os.path.dirname(os.path.realpath(subprocess.run(["which", "rt"], stdout=subprocess.PIPE, text=True, check=True).stdout.strip())))
    ran = subprocess.run([f"{kit}/toolchain/bin/clang", "--version"], stdout=subprocess.PIPE, text=True, check=True)
    return ran.stdout.split("\n")[0].strip()
