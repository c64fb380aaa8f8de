#!/usr/bin/env python3
"""Runs the built program on small scenes with each of its allocations refused in turn.

A small library, put before the C library, lets the Nth allocation fail. Each run has to end in one of two
ways: with status 5, nothing written and the line of wanting memory, or with status 0 and the right bytes.
Needs a C compiler, and the program built once by ./icet. Usage: tools/fail_each_allocation.py
"""
import os
import subprocess
import sys
import tempfile

HERE = os.path.dirname(os.path.dirname(os.path.abspath(__file__)))
PROGRAM = os.path.join(HERE, "crates", "icet", "out", "icet")
HEADER = b"P7\nWIDTH %d\nHEIGHT %d\nDEPTH 4\nMAXVAL 255\nTUPLTYPE RGB_ALPHA\nENDHDR\n"
SHARED_EDGE = b"""icet-scene 1
mode depth
ranks 2
tile 0 0 2 2 0
tri 0 0 0 5 10 20 30 255 32 0 5 10 20 30 255 0 32 5 10 20 30 255
tri 1 32 0 5 40 50 60 255 32 32 5 40 50 60 255 0 32 5 40 50 60 255
end
"""
FOUR_BLENDED = b"""icet-scene 1
mode blend
ranks 4
order 0 1 2 3
tile 0 0 1 1 0
point 1 0 0 0 0 0 0 128
point 2 0 0 0 1 0 0 128
point 3 0 0 0 100 0 0 255
end
"""
FIVE_RANKS = b"icet-scene 1\nmode depth\nranks 5\ntile 0 0 7 1 0\nend\n"
SEQUENTIAL = ["composite", "--strategy", "sequential", "--single"]
QUIET = 100  # how many later allocations have to do no harm before the run is taken to have no more
# Words, a scene, and what has to be written with ample memory.
RUNS = [
    (["composite"], SHARED_EDGE, HEADER % (2, 2) + bytes([10, 20, 30, 255] + 3 * [40, 50, 60, 255])),
    (SEQUENTIAL + ["tree"], FOUR_BLENDED, HEADER % (1, 1) + bytes([0x18, 0, 0, 0xFF])),
    (SEQUENTIAL + ["bswap"], FIVE_RANKS, HEADER % (7, 1) + bytes(28)),
    (["replay", "--strategy=direct", "--cap=1", "--schedule=0,1,0"], SHARED_EDGE, b"0 stalled\n1 moved\n0 moved\nfinished\n"),
]
FAILING = r"""
#define _GNU_SOURCE
#include <dlfcn.h>
#include <errno.h>
#include <stdlib.h>
static long count = 0, refused = -1;
static int refuses(void) {
    if (refused < 0) { const char *n = getenv("REFUSED"); refused = n ? atol(n) : 0; }
    return ++count == refused;
}
#define REAL(type, name) static type real; if (!real) real = (type)dlsym(RTLD_NEXT, name)
typedef void *(*malloc_t)(size_t);
typedef void *(*realloc_t)(void *, size_t);
typedef void *(*aligned_t)(size_t, size_t);
typedef int (*memalign_t)(void **, size_t, size_t);
void *malloc(size_t n) { REAL(malloc_t, "malloc"); if (refuses()) { errno = ENOMEM; return 0; } return real(n); }
void *realloc(void *p, size_t n) { REAL(realloc_t, "realloc"); if (refuses()) { errno = ENOMEM; return 0; } return real(p, n); }
void *aligned_alloc(size_t a, size_t n) { REAL(aligned_t, "aligned_alloc"); if (refuses()) { errno = ENOMEM; return 0; } return real(a, n); }
int posix_memalign(void **p, size_t a, size_t n) { REAL(memalign_t, "posix_memalign"); if (refuses()) return ENOMEM; return real(p, a, n); }
"""


def compiled(folder):
    source, library = os.path.join(folder, "failing.c"), os.path.join(folder, "failing.so")
    with open(source, "w") as file:
        file.write(FAILING)
    subprocess.run(["cc", "-shared", "-fPIC", "-O1", "-o", library, source, "-ldl"], check=True)
    return library


def ends_well(ran, right):
    if ran.returncode == 0:
        return ran.stdout == right and ran.stderr == b""
    return ran.returncode == 5 and ran.stdout == b"" and ran.stderr in (b"icet: no memory\n", b"")


def main():
    if not os.path.exists(PROGRAM):
        sys.exit("build the program first: ./icet composite --strategy direct < examples/one-point.scene")
    with tempfile.TemporaryDirectory() as folder:
        library = compiled(folder)
        for words, scene, right in RUNS:
            wanting, last, refused = 0, 0, 1
            while True:
                environment = dict(os.environ, LD_PRELOAD=library, REFUSED=str(refused))
                ran = subprocess.run([PROGRAM, *words], input=scene, capture_output=True, env=environment)
                if not ends_well(ran, right):
                    sys.exit(f"{words}: allocation {refused} refused: status {ran.returncode}, {ran.stdout!r}, {ran.stderr!r}")
                if ran.returncode == 5:
                    wanting, last = wanting + 1, refused
                elif refused > last + QUIET:
                    break
                refused += 1
            print(f"{' '.join(words)}: {wanting} allocations were refused in turn, each with status 5 and nothing written")


main()
