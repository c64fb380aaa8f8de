#!/usr/bin/env python3
"""Writes the text of the scene that `icet demo` makes from a seed, as docs/FORMATS.md tells it.

Usage: tools/make_demo.py [SEED [RANKS [TRIANGLES [WIDTH HEIGHT]]]] > demo.scene
With other numbers than the demonstration's own (16 ranks of 25 triangles on 1920 by 1080) it makes scenes of other sizes
in the same way, for measurements of how time grows.
"""
import sys

MULTIPLIER = 6364136223846793005
STREAM = 54


def words(seed):
    """The 32-bit words of PCG-XSH-RR with this seed (O'Neill 2014)."""
    increment = STREAM << 1 | 1
    state = (seed + increment) * MULTIPLIER + increment & (1 << 64) - 1
    while True:
        shifted = ((state >> 18 ^ state) >> 27) & 0xFFFFFFFF
        turn = state >> 59
        yield (shifted >> turn | shifted << (-turn & 31)) & 0xFFFFFFFF
        state = state * MULTIPLIER + increment & (1 << 64) - 1


def main():
    seed, ranks, triangles, width, height = [int(word) for word in sys.argv[1:]] + [1, 16, 25, 1920, 1080][len(sys.argv) - 1 :]
    word = words(seed).__next__
    lines = ["icet-scene 1", "mode depth", f"ranks {ranks}", f"tile 0 0 {width} {height} 0"]
    for rank in range(ranks):
        for _ in range(triangles):
            x, y = word() % width, word() % height
            numbers = []
            for _ in range(3):
                numbers += [16 * x + word() % 8192 - 4096, 16 * y + word() % 8192 - 4096]
                numbers += [word() % 16777215, word() % 256, word() % 256, word() % 256, 255]
            lines.append(" ".join(map(str, ["tri", rank, *numbers])))
    sys.stdout.write("\n".join(lines + ["end"]) + "\n")


main()
