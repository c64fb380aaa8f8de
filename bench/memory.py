#!/usr/bin/env python3
"""Measures the memory of `composite` beside what it has to hold, and how it grows where only blank area does.

The first table has the demonstration's scene at 2, 4, 8 and 16 ranks: the greatest memory in use, beside the fragments that
the ranks draw (12 bytes each) and the picture (16 bytes a pixel). The second has 16 ranks by each strategy. The third has 64 ranks that each draw one small
triangle in the corner of a tile whose sides double: memory and time less those of the picture, which is what one rank
without shapes takes, stand still where blank area costs nothing.
It needs the program built once: ./icet composite < examples/one-point.scene
Usage: bench/memory.py
"""
import os
import pathlib
import resource
import subprocess
import sys
import tempfile
import time

HERE = pathlib.Path(__file__).resolve().parent.parent
PROGRAM = HERE / "crates" / "icet" / "out" / "icet"
RUNS = 5
FRAGMENT, PIXEL = 12, 16  # bytes


def run(words, path):
    """The least time of some runs in milliseconds, and their greatest memory in MB."""
    times, peak = [], 0
    for _ in range(RUNS):
        with open(path, "rb") as source, open(os.devnull, "wb") as sink:
            start = time.perf_counter()
            child = subprocess.Popen([PROGRAM, *words], stdin=source, stdout=sink)
            _, status, usage = os.wait4(child.pid, 0)
            times.append(time.perf_counter() - start)
        if status:
            sys.exit(f"{' '.join(words)} on {path}: status {status}")
        peak = max(peak, usage.ru_maxrss)
    return 1000 * min(times), peak / 1024


def drawn(path):
    """How many fragments the ranks draw: those of the spans that `upgrade` writes."""
    with open(path, "rb") as source:
        text = subprocess.Popen([PROGRAM, "upgrade"], stdin=source, stdout=subprocess.PIPE)
        return sum((line.count(b" ") - 3) // 5 for line in text.stdout if line.startswith(b"span "))


def demonstration(folder):
    print("ranks  peak MB  fragments and picture MB  ratio  ms")
    for ranks in (2, 4, 8, 16):
        path = os.path.join(folder, "demo.scene")
        with open(path, "wb") as file:
            subprocess.run([HERE / "tools" / "make_demo.py", "1", str(ranks)], stdout=file, check=True)
        took, peak = run(["composite", "--workers", "1"], path)
        held = (FRAGMENT * drawn(path) + PIXEL * 1920 * 1080) / 1e6
        print(f"{ranks:5}  {peak * 1.048576:7.1f}  {held:24.1f}  {peak * 1.048576 / held:5.2f}  {took:.0f}")
    print("16 ranks by                        peak MB  ratio")
    for words in ("--strategy direct", "--k 16", "--k 8", "--strategy sequential --single tree", "--single bswap"):
        _, peak = run(["composite", "--workers", "1", *words.split()], path)
        print(f"{words:34} {peak * 1.048576:7.1f}  {peak * 1.048576 / held:5.2f}")


def corner(path, ranks, side, draws):
    tri = "0 0 5 1 2 3 255 320 0 5 1 2 3 255 0 320 5 1 2 3 255"
    with open(path, "w") as file:
        file.write(f"icet-scene 1\nmode depth\nranks {ranks}\ntile 0 0 {side} {side} 0\n")
        for rank in range(ranks if draws else 0):
            file.write(f"tri {rank} {tri}\n")
        file.write("end\n")


def blank_area(folder):
    print("side  64 ranks: MB  ms  one rank without shapes: MB  ms  difference: MB  ms")
    path = os.path.join(folder, "corner.scene")
    for side in (128, 256, 512, 1024):
        corner(path, 64, side, True)
        many = run(["composite", "--workers", "1"], path)
        corner(path, 1, side, False)
        one = run(["composite", "--workers", "1"], path)
        print(f"{side:4}  {many[1]:13.1f} {many[0]:5.1f}  {one[1]:26.1f} {one[0]:5.1f}  {many[1] - one[1]:14.1f} {many[0] - one[0]:5.1f}")


def main():
    if not PROGRAM.exists():
        sys.exit(__doc__)
    resource.setrlimit(resource.RLIMIT_CORE, (0, 0))
    with tempfile.TemporaryDirectory() as folder:
        demonstration(folder)
        blank_area(folder)


main()
