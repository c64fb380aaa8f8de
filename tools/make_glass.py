#!/usr/bin/env python3
"""Writes examples/glass.scene: nine panes of coloured glass, one a rank, blended in order, with channels of 16 bits.

The panes fan out from one point, like petals; each is a row of triangles that grow clearer towards the tip. The first
rank of the order is the front. Usage: make_glass.py > FILE
"""
import math

SIDE = 360
RANKS = 9
STEPS = 24
FULL = 65535


def paint(hue, alpha):
    """A premultiplied colour of this hue."""
    rgb = [0.52 + 0.48 * math.cos(hue + shift) for shift in (0.0, 2.3, 4.2)]
    a = int(FULL * alpha)
    return [min(a, int(a * c)) for c in rgb] + [a]


def corner(rank, along, side):
    """A corner of a pane, `along` from 0 at the middle to 1 at the tip, on its left or right side."""
    angle = 2 * math.pi * rank / RANKS - math.pi / 2
    width = 66 * math.sin(math.pi * along) ** 0.7 * side
    x = SIDE / 2 + math.cos(angle) * (12 + 155 * along) - math.sin(angle) * width
    y = SIDE / 2 + math.sin(angle) * (12 + 155 * along) + math.cos(angle) * width
    colour = paint(2 * math.pi * rank / RANKS, 0.80 - 0.45 * along)
    return f"{int(16 * x)} {int(16 * y)} 0 " + " ".join(map(str, colour))


def main():
    print("icet-scene 2\nmode blend")
    print(f"ranks {RANKS}\nmaxval {FULL}\nbackground 63000 62000 59000 65535")
    print("order", *range(RANKS))
    print(f"tile 0 0 {SIDE} {SIDE} 0")
    for rank in range(RANKS):
        for step in range(STEPS):
            near, far = step / STEPS, (step + 1) / STEPS
            a, b = corner(rank, near, -1), corner(rank, near, 1)
            c, d = corner(rank, far, 1), corner(rank, far, -1)
            if step > 0:
                print("tri", rank, a, b, c)
            if step < STEPS - 1:
                print("tri", rank, a, c, d)
    print("end")


if __name__ == "__main__":
    main()
