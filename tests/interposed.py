"""A library that stands between a program and the C library, and refuses memory, gives a file slowly, or fails, where its variables say so."""

import os
import shutil
import subprocess

# It needs no header, so that a compiler without those of the C library will do.
#
# REFUSED_FROM is the first call for memory that gets none, as every later one, and REFUSED_ALONE the only one. ALLOCATIONS_TO is the
# descriptor that gets their number at the end. With SLOW each call reads and writes one byte at most. FAILING_READ is the call of `read` that
# fails. WRITTEN is how many bytes standard output takes: then a call fails, or takes nothing with FULL.
SOURCE = """
typedef unsigned long size;
extern void *__libc_malloc(size), *__libc_calloc(size, size), *__libc_realloc(void *, size);
extern char *getenv(const char *);
extern int atoi(const char *), *__errno_location(void);
extern long syscall(long, ...);

static long made, from, alone, reads, failing, room, bounded, slow, full;

static long number(const char *name) { const char *it = getenv(name); return it ? atoi(it) : 0; }

__attribute__((constructor)) static void begin(void) {
    from = number("REFUSED_FROM"), alone = number("REFUSED_ALONE"), failing = number("FAILING_READ");
    slow = getenv("SLOW") != 0, full = getenv("FULL") != 0;
    bounded = getenv("WRITTEN") != 0, room = number("WRITTEN");
    made = reads = 0;
}

__attribute__((destructor)) static void end(void) {
    char digits[24];
    int at = sizeof digits;
    long count = made, to = number("ALLOCATIONS_TO");
    do digits[--at] = '0' + count % 10; while (count /= 10);
    if (to) syscall(1, to, digits + at, sizeof digits - at);
}

static int is_refused(void) { return ++made == alone || (from && made >= from); }

void *malloc(size bytes) { return is_refused() ? 0 : __libc_malloc(bytes); }
void *calloc(size count, size bytes) { return is_refused() ? 0 : __libc_calloc(count, bytes); }
void *realloc(void *old, size bytes) { return is_refused() ? 0 : __libc_realloc(old, bytes); }

static long failed(void) { *__errno_location() = 5; return -1; }

long read(int file, void *to, size bytes) {
    if (++reads == failing) return failed();
    return syscall(0, file, to, slow && bytes > 1 ? 1 : bytes);
}

long write(int file, const void *bytes, size count) {
    if (slow && count > 1) count = 1;
    if (file != 1 || !bounded) return syscall(1, file, bytes, count);
    if (count && room == 0) return full ? 0 : failed();
    long taken = syscall(1, file, bytes, count < (size)room ? count : (size)room);
    if (taken > 0) room -= taken;
    return taken;
}

long __write(int file, const void *bytes, size count) { return write(file, bytes, count); }
"""


def compilers():
    """The C compilers that are there, the toolchain's first, each with the words that it takes."""
    toolchain = os.path.join(os.path.dirname(os.path.dirname(os.path.realpath(shutil.which("rt") or "rt"))), "toolchain", "bin")
    if os.access(f"{toolchain}/clang", os.X_OK):
        yield [f"{toolchain}/clang", f"-fuse-ld={toolchain}/ld.lld"]
    yield from ([name] for name in ("cc", "gcc", "clang") if shutil.which(name))


def library(folder):
    """The library, built in a folder, or none where no compiler builds it."""
    source, built = os.path.join(folder, "interposed.c"), os.path.join(folder, "interposed.so")
    with open(source, "w", encoding="utf-8") as file:
        file.write(SOURCE)
    for compiler in compilers():
        words = [*compiler, "-O2", "-fPIC", "-fno-builtin", "-shared", "-nostdlib", "-o", built, source]
        if subprocess.run(words, stdin=subprocess.DEVNULL, capture_output=True).returncode == 0:
            return built
    return None
