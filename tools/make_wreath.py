#!/usr/bin/env python3
"""Writes examples/wreath.scene: a wreath of points, drawn by one rank.

The points stand on winding rings; a nearer ring hides what is behind it. Usage: make_wreath.py > FILE
"""
import math

SIDE = 256
print("icet-scene 1")
print("mode depth")
print("ranks 1")
print(f"tile 0 0 {SIDE} {SIDE} 0")
for ring in range(3):
    for step in range(9000):
        turn = 2 * math.pi * step / 9000
        wave = math.sin(turn * 9 + ring * 2 * math.pi / 3)
        radius = 84 + 24 * wave + 6 * math.sin(step * 2.3999632)
        x = int(SIDE / 2 + radius * math.cos(turn))
        y = int(SIDE / 2 + radius * math.sin(turn))
        depth = int(1000 + 900 * math.cos(turn * 9 + ring * 2 * math.pi / 3))
        light = (1900 - depth) / 1900
        red, green, blue = [(236, 112, 60), (60, 160, 210), (240, 200, 80)][ring]
        channels = [int(c * (0.35 + 0.65 * light)) for c in (red, green, blue)]
        if 0 <= x < SIDE and 0 <= y < SIDE:
            print("point 0", x, y, depth, *channels, 255)
print("end")
