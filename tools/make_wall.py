#!/usr/bin/env python3
"""Writes a scene: three linked rings of triangles on a wall of two by two displays, drawn by 12 ranks.

Each ring is a closed mesh whose triangles share their edges, four ranks draw a quarter of each, and the rings
pass through one another, so that every display gets pieces of many ranks. Usage: make_wall.py > FILE
"""
import math

W, H = 480, 270  # of one display
RANKS = 12
LONG, ROUND = 60, 20  # how many pieces go along a ring and around its tube
LIGHT = (-0.45, 0.55, 0.70)
RINGS = [  # middle, radius, tube, tilt about x and y, hue
    ((-1.55, 0.25, 0.0), 1.35, 0.36, (1.15, 0.25), 0.0),
    ((0.05, -0.15, 0.1), 1.35, 0.36, (-0.75, 0.55), 2.1),
    ((1.60, 0.20, 0.0), 1.35, 0.36, (1.05, -0.45), 4.2),
]


def turned(p, tilt):
    x, y, z = p
    c, s = math.cos(tilt[0]), math.sin(tilt[0])
    y, z = y * c - z * s, y * s + z * c
    c, s = math.cos(tilt[1]), math.sin(tilt[1])
    return x * c + z * s, y, z * c - x * s


def vertex(ring, i, j):
    """A corner of a ring's mesh: x and y in sixteenths of a pixel, the depth, and the colour."""
    middle, radius, tube, tilt, hue = ring
    a, b = 2 * math.pi * i / LONG, 2 * math.pi * j / ROUND
    out = turned((math.cos(a) * math.cos(b), math.sin(a) * math.cos(b), math.sin(b)), tilt)
    at = turned(((radius + tube * math.cos(b)) * math.cos(a), (radius + tube * math.cos(b)) * math.sin(a), tube * math.sin(b)), tilt)
    x, y, z = (at[k] + middle[k] for k in range(3))
    scale = 900 / (6.5 - z)
    light = 0.22 + 0.78 * max(0.0, sum(out[k] * LIGHT[k] for k in range(3)))
    shine = max(0.0, sum(out[k] * LIGHT[k] for k in range(3))) ** 24
    rgb = [min(255, int(255 * (light * (0.55 + 0.45 * math.cos(hue + s + 0.5 * math.sin(2 * a))) + 0.55 * shine))) for s in (0.0, 2.3, 4.2)]
    return int(16 * (W + scale * x)), int(16 * (H - scale * y)), int(1_000_000 * (6.5 - z)), rgb


def main():
    print("icet-scene 1\nmode depth")
    print(f"ranks {RANKS}\nbackground 14 16 24 255")
    for display in range(4):
        print(f"tile {W * (display % 2)} {H * (display // 2)} {W} {H} {display}")
    for number, ring in enumerate(RINGS):
        for i in range(LONG):
            rank = 4 * number + 4 * i // LONG
            for j in range(ROUND):
                a, b, c, d = vertex(ring, i, j), vertex(ring, i + 1, j), vertex(ring, i + 1, j + 1), vertex(ring, i, j + 1)
                for corners in ((a, b, c), (a, c, d)):
                    words = [f"{x} {y} {z} {rgb[0]} {rgb[1]} {rgb[2]} 255" for x, y, z, rgb in corners]
                    print("tri", rank, *words)
    print("end")


if __name__ == "__main__":
    main()
