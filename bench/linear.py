#!/usr/bin/env python3
"""Times the program on scenes that it makes, and shows that time grows with the size of the work.

Prints, for each scene, nanoseconds per byte of the scene's text and nanoseconds per rank-pixel (ranks
times pixels of the tile), the best of three runs, and the greatest memory in use. In a row of scenes
only one size grows; where that size is what costs, its column stands still while the size doubles.
With --reading it shows instead how fast scenes are read: texts of triangles, each twice as long as the one
before, by the job that writes the messages of a plan, of which one rank has none. The best of five runs, less
the best start-up, both by the clock and by the processor time that the program took, which other work on the
machine disturbs less. It fails where twice the text takes more than 2.2 times the processor time.
It needs the program built once: ./icet composite --strategy direct < examples/one-point.scene
Usage: bench/linear.py [--limits | --reading]   (--limits also runs the largest legal inputs)
"""
import os
import random
import resource
import subprocess
import sys
import tempfile
import time

HERE = os.path.dirname(os.path.dirname(os.path.abspath(__file__)))
PROGRAM = os.path.join(HERE, "crates", "icet", "out", "icet")
WORDS = [PROGRAM, "composite", "--strategy", "direct"]
READING = [PROGRAM, "traffic", "--strategy", "direct"]
MAX_BYTES = 67_108_864  # of a scene's text
MAX_GROWTH = 2.2  # of the time to read twice the text


def scene(path, ranks, side, points):
    """Writes a scene of so many points, spread over the ranks and the tile."""
    draw = random.Random(7)
    with open(path, "w") as file:
        file.write(f"icet-scene 1\nmode depth\nranks {ranks}\ntile 0 0 {side} {side} 0\n")
        for i in range(points):
            x, y, z = draw.randrange(side), draw.randrange(side), draw.randrange(16_777_215)
            file.write(f"point {i % ranks} {x} {y} {z} {i % 256} 20 30 255\n")
        file.write("end\n")
    return os.path.getsize(path)


def shapes(path, size, lines):
    """Writes a scene of one rank of at most so many bytes, with these lines again and again."""
    head = "icet-scene 1\nmode depth\nranks 1\ntile 0 0 1 1 0\n"
    room = size - len(head) - len("end\n")
    with open(path, "w") as file:
        file.write(head)
        block = "".join(lines)
        for _ in range(room // len(block)):
            file.write(block)
        room %= len(block)
        for line in lines:
            if len(line) > room:
                break
            file.write(line)
            room -= len(line)
        file.write("end\n")
    return os.path.getsize(path)


def triangles(count):
    """The lines of so many triangles, with corners all over the plane."""
    draw = random.Random(7)

    def corner():
        x, y = (draw.randrange(-262_143, 262_144) for _ in range(2))
        return f" {x} {y} {draw.randrange(16_777_215)} {draw.randrange(256)} 20 30 255"

    return [f"tri 0{corner()}{corner()}{corner()}\n" for _ in range(count)]


def run(path, words=WORDS):
    """The seconds of one run, the greatest memory in use in bytes, and the seconds of processor time."""
    before = time.monotonic()
    with open(path, "rb") as source, open(os.devnull, "wb") as sink:
        process = subprocess.Popen(words, stdin=source, stdout=sink)
        _, status, usage = os.wait4(process.pid, 0)
    seconds = time.monotonic() - before
    if status != 0:
        sys.exit(f"{path}: status {os.waitstatus_to_exitcode(status)}")
    return seconds, usage.ru_maxrss * 1024, usage.ru_utime + usage.ru_stime


def best(path):
    """The least seconds, the greatest memory and the least processor time of five runs that read a scene."""
    runs = [run(path, READING) for _ in range(5)]
    return min(r[0] for r in runs), max(r[1] for r in runs), min(r[2] for r in runs)


def read(path, name, size, start):
    """Prints how fast a scene is read, and gives the processor time."""
    seconds, memory, processor = best(path)
    clock, processor = max(seconds - start[0], 1e-9), max(processor - start[2], 1e-9)
    print(f"{name:34} {size:>11} {clock:8.3f} {size / clock / 1e6:8.0f} {processor:8.3f} {size / processor / 1e6:8.0f} {memory / 2**20:8.0f}", flush=True)
    return processor


def show_reading(folder):
    path = os.path.join(folder, "scene")
    shapes(path, 100, triangles(1))
    start = best(path)
    print(f"{'scene':34} {'bytes':>11} {'seconds':>8} {'MB/s':>8} {'of proc.':>8} {'MB/s':>8} {'MB':>8}")
    lines, times = triangles(8_000), []
    for part in (16, 8, 4, 2, 1):
        size = shapes(path, MAX_BYTES // part, lines)
        times.append(read(path, "triangles", size, start))
    for name, line in (("points of the least text", "point 0 0 0 0 0 0 0 0\n"), ("empty lines alone", "\n")):
        size = shapes(path, MAX_BYTES, [line] * 4_000)
        read(path, name, size, start)
    growth = max(after / before for before, after in zip(times, times[1:]))
    print(f"twice the text takes at most {growth:.2f} times the processor time")
    if growth > MAX_GROWTH:
        sys.exit(f"more than {MAX_GROWTH} times: reading isn't linear")


def show(folder, name, ranks, side, points):
    path = os.path.join(folder, "scene")
    size = scene(path, ranks, side, points)
    runs = [run(path) for _ in range(3)]
    seconds, memory = min(r[0] for r in runs), max(r[1] for r in runs)
    pixels = ranks * side * side
    print(f"{name:34} {size:>11} {pixels:>11} {seconds:8.3f} {seconds * 1e9 / size:10.1f} {seconds * 1e9 / pixels:10.2f} {memory / 2**20:8.0f}")


def main():
    if not os.path.exists(PROGRAM):
        sys.exit("build the program first: ./icet composite --strategy direct < examples/one-point.scene")
    # the runs inherit these limits: 4 GB of memory, and a stack of 1 MB
    resource.setrlimit(resource.RLIMIT_AS, (4 * 2**30, 4 * 2**30))
    resource.setrlimit(resource.RLIMIT_STACK, (2**20, 2**20))
    if "--reading" in sys.argv:
        with tempfile.TemporaryDirectory() as folder:
            show_reading(folder)
        return
    print(f"{'scene':34} {'bytes':>11} {'rank-pixels':>11} {'seconds':>8} {'ns/byte':>10} {'ns/rank-px':>10} {'MB':>8}")
    with tempfile.TemporaryDirectory() as folder:
        for points in (250_000, 500_000, 1_000_000):
            show(folder, f"{points} points, 64 ranks, 64 x 64", 64, 64, points)
        for side in (256, 512, 1024):
            show(folder, f"64 ranks, a point each, {side} x {side}", 64, side, 64)
        for side in (1024, 2048, 4096):
            show(folder, f"one rank, one point, {side} x {side}", 1, side, 1)
        show(folder, "1000000 points, 64 ranks, 1024 x 1024", 64, 1024, 1_000_000)
        if "--limits" in sys.argv:
            show(folder, "67108864 rank-pixels, one rank", 1, 8192, 1)
            show(folder, "a text of nearly 67108864 bytes", 64, 1024, 1_730_000)


main()
