#!/usr/bin/env python3
"""Writes examples/knot.scene: a knotted tube that 32 ranks draw, a stretch of it each.

The tube winds five times round a ring while it goes round three times, so every rank's stretch passes
in front of others and behind others. Usage: make_knot.py > FILE
"""
import math

SIDE = 256
RANKS = 32
ALONG = 6400
AROUND = 120
TUBE = 14.0


def middle(t):
    """The middle line of the tube: a torus knot, with z towards the viewer."""
    turn = 3 * t
    radius = 73 + 32 * math.cos(5 * t)
    return radius * math.cos(turn), radius * math.sin(turn), 38 * math.sin(5 * t)


def minus(a, b):
    return a[0] - b[0], a[1] - b[1], a[2] - b[2]


def cross(a, b):
    return a[1] * b[2] - a[2] * b[1], a[2] * b[0] - a[0] * b[2], a[0] * b[1] - a[1] * b[0]


def unit(a):
    length = math.sqrt(sum(c * c for c in a))
    return a[0] / length, a[1] / length, a[2] / length


def colour(rank, light):
    """A hue that goes once round with the ranks."""
    hue = 2 * math.pi * rank / RANKS
    channels = [0.56 + 0.42 * math.cos(hue + shift) for shift in (0.0, 2.3, 4.2)]
    return [min(255, int(255 * c * light)) for c in channels]


def nearest_fragments():
    """Each rank's nearest fragment at each pixel, as its own renderer would hand it over."""
    drawn = {}
    for step in range(ALONG):
        t = 2 * math.pi * step / ALONG
        at = middle(t)
        ahead = unit(minus(middle(t + 1e-4), at))
        side = unit(cross(ahead, (0.0, 0.0, 1.0)))
        up = cross(side, ahead)
        rank = step * RANKS // ALONG
        for turn in range(AROUND):
            angle = 2 * math.pi * turn / AROUND
            out = [side[i] * math.cos(angle) + up[i] * math.sin(angle) for i in range(3)]
            if out[2] < -0.15:
                continue  # the far side of the tube is never seen
            x = int(SIDE / 2 + at[0] + TUBE * out[0])
            y = int(SIDE / 2 - at[1] - TUBE * out[1])
            depth = int(1000 - 6 * (at[2] + TUBE * out[2]))
            light = 0.2 + 0.8 * max(0.0, out[0] * -0.35 + out[1] * 0.45 + out[2] * 0.82)
            if depth < drawn.get((rank, y, x), (depth + 1,))[0]:
                drawn[rank, y, x] = depth, colour(rank, light)
    return sorted(drawn.items())


print("icet-scene 1")
print("mode depth")
print(f"ranks {RANKS}")
print(f"tile 0 0 {SIDE} {SIDE} 0")
for (rank, y, x), (depth, channels) in nearest_fragments():
    print("point", rank, x, y, depth, *channels, 255)
print("end")
