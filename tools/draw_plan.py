#!/usr/bin/env python3
"""Draws a plan as a picture: ranks down, rounds across, an arrow for each message with its tile and its range.

    ./icet plan --strategy sequential --single tree < scene | tools/draw_plan.py > plan.svg

Reads what `icet plan` prints and writes an SVG. A tile's colour is the same throughout.
"""
import sys
from collections import defaultdict

ROW, LANE, LEFT, TOP, GAP = 46, 62, 90, 58, 36
COLOURS = ["#1f6f8b", "#c05640", "#5a7d2a", "#7a4fa3", "#b8860b", "#2f4f4f"]


def read(lines):
    """The bracket of each tile, the ranks, and the messages: (round, from, to, tile, lo, hi)."""
    brackets, messages, ranks = {}, [], 0
    for number, line in enumerate(lines, 1):
        words = line.split()
        if words[:1] == ["tile"] and len(words) >= 3:
            brackets[int(words[1])] = " ".join(words[2:])
        elif words[:1] == ["rank"] and len(words) == 8 and words[2] in ("send", "take"):
            rank, round_, peer, tile, lo, hi = int(words[1]), *map(int, words[3:])
            ranks = max(ranks, rank + 1, peer + 1)
            if words[2] == "send":
                messages.append((round_, rank, peer, tile, lo, hi))
        else:
            sys.exit(f"draw_plan: line {number} is no line of a plan")
    return brackets, max(ranks, 1), sorted(messages)


def lanes(messages):
    """A lane of its round for each message, so that arrows of one round that overlap stand side by side."""
    placed = defaultdict(list)
    for message in messages:
        round_, a, b = message[0], *sorted(message[1:3])
        rows = placed[round_]
        for lane, taken in enumerate(rows):
            if all(b < c or d < a for c, d in taken):
                taken.append((a, b))
                break
        else:
            lane = len(rows)
            rows.append([(a, b)])
        yield message, lane


def draw(brackets, ranks, messages):
    placed = list(lanes(messages))
    widths = defaultdict(lambda: 1)
    for message, lane in placed:
        widths[message[0]] = max(widths[message[0]], lane + 1)
    rounds = max(widths, default=0) + 1
    starts, x = [], LEFT
    for round_ in range(rounds):
        starts.append(x)
        x += widths[round_] * LANE + GAP
    width, bottom = x, TOP + (ranks - 1) * ROW
    height = bottom + 40 + 20 * len(brackets)
    out = [
        f'<svg xmlns="http://www.w3.org/2000/svg" width="{width}" height="{height}" '
        f'viewBox="0 0 {width} {height}" font-family="sans-serif" font-size="12">',
        f'<rect width="{width}" height="{height}" fill="#ffffff"/>',
        "<defs>" + "".join(
            f'<marker id="head{i}" viewBox="0 0 10 10" refX="9" refY="5" markerWidth="7" markerHeight="7" orient="auto">'
            f'<path d="M0 0 L10 5 L0 10 z" fill="{colour}"/></marker>' for i, colour in enumerate(COLOURS)) + "</defs>",
    ]
    for round_, start in enumerate(starts):
        end = start + widths[round_] * LANE
        out.append(f'<rect x="{start}" y="{TOP - 18}" width="{end - start}" height="{bottom - TOP + 36}" fill="#f3f3f0"/>')
        out.append(f'<text x="{(start + end) / 2}" y="{TOP - 28}" text-anchor="middle" fill="#555">round {round_}</text>')
    for rank in range(ranks):
        y = TOP + rank * ROW
        out.append(f'<text x="{LEFT - 18}" y="{y + 4}" text-anchor="end">rank {rank}</text>')
        out.append(f'<line x1="{LEFT - 10}" y1="{y}" x2="{width - GAP + 6}" y2="{y}" stroke="#999"/>')
    for (round_, sender, receiver, tile, lo, hi), lane in placed:
        x = starts[round_] + lane * LANE + 14
        y1, y2 = TOP + sender * ROW, TOP + receiver * ROW
        shade = tile % len(COLOURS)
        out.append(f'<circle cx="{x}" cy="{y1}" r="3" fill="{COLOURS[shade]}"/>')
        out.append(f'<line x1="{x}" y1="{y1}" x2="{x}" y2="{y2}" stroke="{COLOURS[shade]}" stroke-width="1.6" marker-end="url(#head{shade})"/>')
        out.append(f'<text x="{x + 5}" y="{(y1 + y2) / 2 + 4}" font-size="10" fill="{COLOURS[shade]}">t{tile} {lo}..{hi}</text>')
    for i, tile in enumerate(sorted(brackets)):
        y = bottom + 40 + 20 * i
        out.append(f'<text x="{LEFT - 10}" y="{y}" fill="{COLOURS[tile % len(COLOURS)]}">tile {tile}: {brackets[tile]}</text>')
    out.append("</svg>")
    return "\n".join(out) + "\n"


if __name__ == "__main__":
    if len(sys.argv) > 1:
        sys.exit(__doc__)
    sys.stdout.write(draw(*read(sys.stdin.read().splitlines())))
