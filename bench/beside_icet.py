#!/usr/bin/env python3
"""Times the program beside IceT and beside a plain program without processes, in turns, and prints ratios.

Needs two yardsticks, which aren't part of this repository, in a folder YARDSTICKS: `icet_peer`, which drives IceT 2.2 over
MPI (`--scene FILE --mode M --strategy S --single L --reps N --verify 0 --csv FILE`, least and median time of a frame in the
16th and 17th column), and `plain`, a plain Rust program that reads a scene, draws it densely, folds the images and writes the
picture (`once SCENE OUT THREADS`), and says how fast memory is copied (`bandwidth`).

The first table has the compositing step alone on the demonstration's scene, from ready images to the picture: IceT's frame
of its best strategy, ours (open, drive and close of a net) of our best, with 1, 2 and 4 workers, and the time that copying
all drawn fragments once would take. The second has the whole `composite` of the printed scene beside the plain program with
4 threads, and with 1, 2 and 4 workers. The third has scenes of twice the ranks, tiles, pixels and triangles.

IceT keeps its memory from frame to frame. So that our nets do too, their program is told by the C library's settings not to
give memory back; `--fresh` leaves that out.

Each figure is the least and the median of PASSES passes, in each of which all that is compared runs once.
It needs the programs built once: ./icet composite < examples/one-point.scene, and bench/net.sh
Usage: bench/beside_icet.py [--fresh] YARDSTICKS [PASSES]   (PASSES: 5)
"""
import os
import pathlib
import re
import statistics
import subprocess
import sys
import tempfile
import time

HERE = pathlib.Path(__file__).resolve().parent.parent
PROGRAM = HERE / "crates" / "icet" / "out" / "icet"
NETS = HERE / "crates" / "icet_net_bench" / "out" / "icet_net_bench"
FRAGMENT = 12  # bytes
KEPT = {"MALLOC_MMAP_THRESHOLD_": str(2**32), "MALLOC_TRIM_THRESHOLD_": str(2**34), "MALLOC_TOP_PAD_": str(2**26)}
FRAMES = 15  # of a run of IceT
FRESH = "--fresh" in sys.argv
STRATEGIES = [("sequential", "tree"), ("sequential", "bswap"), ("sequential", "radixk"), ("direct", "auto"), ("reduce", "radixk")]
MPIRUN = "mpirun --oversubscribe --bind-to none --mca mpi_yield_when_idle 1".split()
if os.geteuid() == 0:
    MPIRUN.append("--allow-run-as-root")


class Times:
    """The times of what runs in turns, by name."""

    def __init__(self):
        self.of = {}

    def add(self, name, milliseconds):
        self.of.setdefault(name, []).append(milliseconds)

    def least(self, name):
        return min(self.of[name])

    def median(self, name):
        return statistics.median(self.of[name])

    def best(self, names):
        """The name of the least median."""
        return min(names, key=self.median)


def demonstration(ranks, mode):
    text = subprocess.run([HERE / "tools" / "make_demo.py", "1", str(ranks)], stdout=subprocess.PIPE, check=True, text=True).stdout
    if mode == "blend":
        order = " ".join(str(rank) for rank in range(ranks))
        text = text.replace("mode depth", "mode blend", 1).replace("\ntile ", f"\norder {order}\ntile ", 1)
    return text


def fragments(path):
    """How many fragments the ranks draw: those of the spans that `upgrade` writes."""
    with open(path, "rb") as source:
        text = subprocess.Popen([PROGRAM, "upgrade"], stdin=source, stdout=subprocess.PIPE)
        return sum((line.count(b" ") - 3) // 5 for line in text.stdout if line.startswith(b"span "))


def frame(yardsticks, ranks, path, mode, strategy, folder):
    """The least and the median of IceT's frames, in milliseconds."""
    figures = os.path.join(folder, "figures")
    if os.path.exists(figures):
        os.remove(figures)
    words = ["--scene", path, "--mode", mode, "--strategy", strategy[0], "--single", strategy[1]]
    words += ["--reps", str(FRAMES), "--verify", "0", "--csv", figures]
    subprocess.run([*MPIRUN, "-np", str(ranks), yardsticks / "icet_peer", *words], stdout=subprocess.DEVNULL, check=True)
    with open(figures) as file:
        columns = file.read().split(",")
    return float(columns[14]), float(columns[15])


def nets(path):
    """The least and the median of our nets by strategy and workers, in milliseconds."""
    settings = {**os.environ, **({} if FRESH else KEPT)}
    with open(path, "rb") as source:
        text = subprocess.run([NETS, "scene"], stdin=source, stdout=subprocess.PIPE, check=True, text=True, env=settings).stdout
    for name, workers, least, median in re.findall(r"^(\S+), (\d) workers, all: (\d+) (\d+) us$", text, re.M):
        yield name, int(workers), int(least) / 1000, int(median) / 1000


def copying(yardsticks):
    """Bytes a second that one thread copies, of 64 MiB."""
    text = subprocess.run([yardsticks / "plain", "bandwidth"], stdout=subprocess.PIPE, check=True, text=True).stdout
    return 1e9 * float(re.search(r"^1 threads, +64 MiB: memcpy +([\d.]+)", text, re.M)[1])


def compositing(yardsticks, passes, folder):
    bandwidth = copying(yardsticks)
    print(f"the compositing step, ms, least and median of {passes} passes; memory is copied at {bandwidth / 1e9:.1f} GB/s")
    print("mode   ranks  IceT's best      least   med.  ours' best   workers  least   med.  ours/IceT  copied once  ours/copied")
    path = os.path.join(folder, "scene")
    for mode in ("depth", "blend"):
        for ranks in (2, 4, 8, 16):
            with open(path, "w") as file:
                file.write(demonstration(ranks, mode))
            least, median, theirs, ours = Times(), Times(), set(), set()
            for _ in range(passes):
                for strategy in STRATEGIES:
                    low, middle = frame(yardsticks, ranks, path, mode, strategy, folder)
                    least.add(strategy, low)
                    median.add(strategy, middle)
                    theirs.add(strategy)
                for name, workers, low, middle in nets(path):
                    least.add((name, workers), low)
                    median.add((name, workers), middle)
                    ours.add((name, workers))
            their, our = median.best(theirs), median.best(ours)
            one = median.best({case for case in ours if case[1] == 1})
            once = 1000 * FRAGMENT * fragments(path) / bandwidth
            for case in dict.fromkeys((one, our)):
                print(
                    f"{mode:6} {ranks:5}  {their[0] + ' ' + their[1]:16} {least.least(their):5.1f}  {median.median(their):5.1f}"
                    f"  {case[0]:11} {case[1]:8} {least.least(case):6.1f} {median.median(case):6.1f}"
                    f"  {median.median(case) / median.median(their):9.2f}  {once:11.2f}  {median.median(case) / once:11.1f}",
                    flush=True,
                )


def clocked(words, path):
    """The milliseconds of one run that reads a scene and writes nowhere."""
    with open(path, "rb") as source, open(os.devnull, "wb") as sink:
        start = time.perf_counter()
        subprocess.run(words, stdin=source, stdout=sink, check=True)
        return 1000 * (time.perf_counter() - start)


def whole(yardsticks, passes, folder):
    path = os.path.join(folder, "scene")
    print(f"\nthe whole composite of the demonstration's scene, ms, least and median of {passes * 3} passes")
    for ranks in (2, 4, 8, 16):
        with open(path, "w") as file:
            file.write(demonstration(ranks, "depth"))
        times = Times()
        for _ in range(passes * 3):
            times.add("plain, 4 threads", clocked([yardsticks / "plain", "once", path, os.devnull, "4"], path))
            for workers in (1, 2, 4):
                words = [PROGRAM, "composite", "--workers", str(workers)]
                times.add(f"ours, {workers} workers", clocked(words, path))
        for name in times.of:
            ratio = times.median(name) / times.median("plain, 4 threads")
            print(f"{ranks:5} ranks  {name:18} {times.least(name):7.0f} {times.median(name):7.0f}  {ratio:5.2f} of plain", flush=True)
        gain = times.median("ours, 1 workers") / times.median("ours, 4 workers")
        print(f"{ranks:5} ranks  4 workers are {gain:.2f} times as fast as one")


def wall(ranks, tiles, width, height, triangles):
    """A scene of so many triangles a rank, spread over a row of tiles."""
    import random

    draw = random.Random(7)
    lines = ["icet-scene 2", "mode depth", f"ranks {ranks}"]
    lines += [f"tile {width * t} 0 {width} {height} {t % ranks}" for t in range(tiles)]
    for rank in range(ranks):
        for _ in range(triangles):
            x, y = draw.randrange(16 * width * tiles), draw.randrange(16 * height)
            corners = ((x + draw.randrange(-1000, 1000), y + draw.randrange(-1000, 1000)) for _ in range(3))
            lines.append(f"tri {rank} " + " ".join(f"{a} {b} {draw.randrange(16_777_215)} {draw.randrange(256)} 20 30 255" for a, b in corners))
    return "\n".join([*lines, "end", ""])


def growth(passes, folder):
    print(f"\ngrowth: scenes of which one size is doubled twice, ms of `composite --workers 1`, least of {passes}")
    start = {"ranks": 16, "tiles": 4, "width": 512, "height": 512, "triangles": 200}
    for size in ("ranks", "tiles", "height", "triangles"):
        took = []
        for factor in (1, 2, 4):
            path = os.path.join(folder, "scene")
            sizes = {**start, size: start[size] * factor}
            with open(path, "w") as file:
                file.write(wall(**sizes))
            took.append(min(clocked([PROGRAM, "composite", "--workers", "1"], path) for _ in range(passes)))
        grows = max(b / a for a, b in zip(took, took[1:]))
        print(f"{size:10} {' '.join(f'{t:7.1f}' for t in took)}   at most {grows:.2f} times", flush=True)


def main():
    words = [word for word in sys.argv[1:] if word != "--fresh"]
    if len(words) not in (1, 2) or not PROGRAM.exists() or not NETS.exists():
        sys.exit(__doc__)
    yardsticks = pathlib.Path(words[0])
    passes = int(words[1]) if len(words) == 2 else 5
    with tempfile.TemporaryDirectory() as folder:
        compositing(yardsticks, passes, folder)
        whole(yardsticks, passes, folder)
        growth(passes, folder)


main()
