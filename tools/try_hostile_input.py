#!/usr/bin/env python3
"""Tries the built program on what a hostile or broken outside may hand it, and counts how it ends.

  cuts    the scenes of examples/, and small ones with each kind of line: cut at every byte, and every byte changed to
          each of ten others (of scenes above 4 KiB the first and the last 1000 bytes and as many between, at random)
  faults  each read of the source and each write of the sink failing in turn
  edges   a full disk, a closed pipe, lines of 64 MiB and numerals as long, texts at and above the limit

Every run has to end by itself within ten seconds, with a status that the documents state, with one line in the notes
exactly where the status isn't 0, and with nothing written unless the status is 0 or 4. Needs a C compiler, and the
program built once by ./icet. Usage: tools/try_hostile_input.py [cuts] [faults] [edges]
"""
import collections
import os
import pathlib
import random
import subprocess
import sys
import tempfile

HERE = pathlib.Path(__file__).resolve().parent.parent
PROGRAM = HERE / "crates" / "icet" / "out" / "icet"
WHOLE = 4096  # bytes of a scene of which each byte is tried
SAMPLE = 1000  # bytes tried at either end and between of a longer one
OTHERS = b"\0\n\r -09az\xff"  # what each byte is changed to
LIMIT = 67_108_864  # bytes of a scene's text
SECONDS = 10

EVERY_LINE = b"""icet-scene 2
mode blend
ranks 3
maxval 65535
background 1 2 3 4
order 2 0 1
tile 0 0 3 2 1
tile 3 0 2 2 0
# a comment
point 0 1 1 7 10 20 30 255
tri 1 -5 0 5 9 9 9 255 64 0 5 9 9 9 255 -1 40 5 9 9 9 255
span 2 0 1 7 1 2 3 255 7 4 5 6 65535
end
"""
EDGE = b"""icet-scene 1
mode depth
ranks 2
tile 0 0 2 2 0
tri 0 0 0 5 10 20 30 255 32 0 5 10 20 30 255 0 32 5 10 20 30 255
tri 1 32 0 5 40 50 60 255 32 32 5 40 50 60 255 0 32 5 40 50 60 255
end
"""
EDGE_PICTURE = b"P7\nWIDTH 2\nHEIGHT 2\nDEPTH 4\nMAXVAL 255\nTUPLTYPE RGB_ALPHA\nENDHDR\n" + bytes(
    [10, 20, 30, 255] + 3 * [40, 50, 60, 255]
)

# Lets the read of the source, or the write to the sink, with a number fail.
FAILING = r"""
#define _GNU_SOURCE
#include <dlfcn.h>
#include <errno.h>
#include <stdlib.h>
#include <unistd.h>
#include <sys/uio.h>
static int fails(int fd) {
    static long count = 0;
    const char *number = getenv("FAILS"), *which = getenv("FAILS_FD");
    return number && which && fd == atoi(which) && count++ == atol(number);
}
#define REAL(type, name) static type real; if (!real) real = (type)dlsym(RTLD_NEXT, name)
typedef ssize_t (*read_t)(int, void *, size_t);
typedef ssize_t (*write_t)(int, const void *, size_t);
typedef ssize_t (*writev_t)(int, const struct iovec *, int);
ssize_t read(int fd, void *to, size_t n) { REAL(read_t, "read"); if (fails(fd)) { errno = EIO; return -1; } return real(fd, to, n); }
ssize_t write(int fd, const void *from, size_t n) { REAL(write_t, "write"); if (fails(fd)) { errno = ENOSPC; return -1; } return real(fd, from, n); }
ssize_t writev(int fd, const struct iovec *from, int n) { REAL(writev_t, "writev"); if (fails(fd)) { errno = ENOSPC; return -1; } return real(fd, from, n); }
"""


def run(words, source, **more):
    return subprocess.run([PROGRAM, *words], input=source, capture_output=True, timeout=SECONDS, **more)


def refuse(ran, what):
    sys.exit(f"{what}: status {ran.returncode}, {len(ran.stdout or b'')} bytes written, notes {ran.stderr[:200]!r}")


# Whether a run ended as the documents say, whatever its source held.
def ends_well(ran):
    noted = ran.stderr.startswith(b"icet: ") and ran.stderr.count(b"\n") == 1 and ran.stderr.endswith(b"\n")
    if ran.returncode == 0:
        return ran.stderr == b""
    return ran.returncode in (1, 3, 4, 5) and noted and (ran.returncode == 4 or ran.stdout == b"")


def tried(source, statuses, what):
    ran = run(["composite"], source)
    if not ends_well(ran):
        refuse(ran, what)
    statuses[ran.returncode] += 1


def places(size):
    if size <= WHOLE:
        return range(size)
    between = random.Random(size).sample(range(SAMPLE, size - SAMPLE), SAMPLE)
    return [*range(SAMPLE), *sorted(between), *range(size - SAMPLE, size)]


def try_cuts():
    scenes = {"every line": EVERY_LINE, "shared edge": EDGE}
    scenes |= {path.name: path.read_bytes() for path in sorted((HERE / "examples").glob("*.scene"))}
    for name, text in scenes.items():
        statuses = collections.Counter()
        for at in places(len(text)):
            tried(text[:at], statuses, f"{name} cut after {at} bytes")
            for byte in OTHERS:
                tried(text[:at] + bytes([byte]) + text[at + 1 :], statuses, f"{name} with byte {byte} at {at}")
        print(f"cuts: {name}: {sum(statuses.values())} texts, by status {dict(sorted(statuses.items()))}")


def compiled(folder):
    source, library = os.path.join(folder, "failing.c"), os.path.join(folder, "failing.so")
    pathlib.Path(source).write_text(FAILING)
    subprocess.run(["cc", "-shared", "-fPIC", "-O1", "-o", library, source, "-ldl"], check=True)
    return library


def try_faults():
    with tempfile.TemporaryDirectory() as folder:
        library = compiled(folder)
        wall = (HERE / "examples" / "wall.scene").read_bytes()
        for name, text in (("shared edge", EDGE), ("wall", wall)):
            right = run(["composite"], text).stdout
            for fd, status in ((0, 3), (1, 4)):
                failed = 0
                while True:
                    environment = dict(os.environ, LD_PRELOAD=library, FAILS=str(failed), FAILS_FD=str(fd))
                    ran = run(["composite"], text, env=environment)
                    if ran.returncode == 0 and ran.stdout == right:
                        break
                    front = ran.stdout == b"" if status == 3 else right.startswith(ran.stdout)
                    if ran.returncode != status or not front or not ends_well(ran):
                        refuse(ran, f"{name}: call {failed} on stream {fd} failing")
                    failed += 1
                print(f"faults: {name}: {failed} calls on stream {fd} failed in turn, each with status {status}")


def long_texts():
    head = b"icet-scene 1\nmode depth\nranks 1\ntile 0 0 1 1 0\n"
    yield "a comment as long as a text", head + b"#" + b"x" * (LIMIT - len(head) - 6) + b"\nend\n", 0
    yield "one byte more than a text has", head + b"#" + b"x" * (LIMIT - len(head) - 5) + b"\nend\n", 1
    yield "a numeral of 64 MiB", b"icet-scene " + b"1" * (LIMIT - 12) + b"\n", 1
    yield "a word of 64 MiB", b"x" * LIMIT, 1
    yield "spaces alone", b" " * LIMIT, 1
    yield "newlines alone", b"\n" * LIMIT, 1
    yield "one newline more", b"\n" * (LIMIT + 1), 1
    yield "zero bytes alone", b"\0" * LIMIT, 1


def try_edges():
    for name, text, status in long_texts():
        ran = run(["composite"], text)
        if ran.returncode != status or not ends_well(ran):
            refuse(ran, name)
        print(f"edges: {name}: status {status}, {ran.stderr.decode().strip() or 'a picture'}")
    with open("/dev/full", "wb") as full:
        ran = subprocess.run([PROGRAM, "composite"], input=EDGE, stdout=full, stderr=subprocess.PIPE, timeout=SECONDS)
    if ran.returncode != 4 or ran.stderr != b"icet: write failed\n":
        refuse(ran, "a full disk")
    print("edges: a full disk: status 4")
    source, sink = os.pipe()
    os.close(source)
    ran = subprocess.run([PROGRAM, "composite"], input=EDGE, stdout=sink, stderr=subprocess.PIPE, timeout=SECONDS)
    os.close(sink)
    if ran.returncode != 4 or ran.stderr != b"icet: write failed\n":
        refuse(ran, "a closed pipe")
    print("edges: a closed pipe: status 4")
    with open("/dev/full", "wb") as full:
        ran = subprocess.run([PROGRAM, "composite"], input=b"", stdout=subprocess.PIPE, stderr=full, timeout=SECONDS)
    if ran.returncode != 1 or ran.stdout:
        sys.exit(f"notes that can't be written: status {ran.returncode}")
    print("edges: notes that can't be written: the status stands")


def main():
    parts = {"cuts": try_cuts, "faults": try_faults, "edges": try_edges}
    wanted = sys.argv[1:] or list(parts)
    if not PROGRAM.exists() or any(part not in parts for part in wanted):
        sys.exit(__doc__)
    if run(["composite"], EDGE).stdout != EDGE_PICTURE:
        sys.exit("the shared edge isn't drawn right")
    for part in wanted:
        parts[part]()


main()
