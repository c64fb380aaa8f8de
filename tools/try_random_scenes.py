#!/usr/bin/env python3
"""Tries the program on random scenes under every strategy, beside a plain composite of its own.

Each scene has random tiles, ranks and shapes. By depth all pictures of all strategies have to be those that a few lines
below make from docs/FORMATS.md alone: at each pixel the nearest fragment of all ranks, the lowest rank's where two are
equally near. By blending they have to be the value of the bracket that the job `plan` prints for the same words. The
other options are random too. Tells of the first scene on which a byte differs, and leaves it in a file.

Needs the program built once by ./icet. Usage: tools/try_random_scenes.py [SCENES [FIRST SEED]]
"""
import pathlib
import random
import subprocess
import sys

HERE = pathlib.Path(__file__).resolve().parent.parent
PROGRAM = HERE / "crates" / "icet" / "out" / "icet"
STRATEGIES = [["--strategy", "direct"]] + [
    ["--strategy", strategy, "--single", single]
    for strategy in ("sequential", "reduce")
    for single in ("tree", "bswap", "radixk")
]
DEEPEST = 16_777_214


# What a scene is: its text is made from it, and its pictures.
class Scene:
    def __init__(self, dice):
        self.blends = dice.random() < 0.4
        self.wide = dice.random() < 0.2
        self.ranks = dice.choice([1, 2, 3, 4, 5, 6, 7, 8, 9, 11, 12, 16, 23, 64])
        self.most = 65535 if self.wide else 255
        self.background = colour(dice, self.most) if dice.random() < 0.5 else (0, 0, 0, 0)
        self.order = list(range(self.ranks))
        if self.blends:
            dice.shuffle(self.order)
        shows = dice.sample(range(self.ranks), dice.randint(1, min(self.ranks, 6)))
        self.tiles = [tile(dice) + (rank,) for rank in shows]
        self.second = self.wide or dice.random() < 0.4
        self.shapes = [(dice.randrange(self.ranks), self.shape(dice)) for _ in range(dice.choice([0, 1, 3, 8, 20]))]

    def paint(self, dice):
        return (dice.choice([0, 5, 7, 7, DEEPEST, dice.randrange(DEEPEST)]),) + colour(dice, self.most)

    def shape(self, dice):
        kind = dice.choice(["point", "tri", "tri", "span" if self.second else "tri"])
        if kind == "point":
            return kind, dice.randrange(30), dice.randrange(30), self.paint(dice)
        if kind == "span":
            return kind, dice.randrange(30), dice.randrange(30), [self.paint(dice) for _ in range(dice.randint(1, 12))]
        reach = dice.choice([40, 200, 600])
        return kind, [(dice.randint(-reach, 300), dice.randint(-reach, 300), self.paint(dice)) for _ in range(3)]

    def text(self):
        lines = [f"icet-scene {2 if self.second else 1}", f"mode {'blend' if self.blends else 'depth'}", f"ranks {self.ranks}"]
        if self.wide:
            lines.append("maxval 65535")
        if self.background != (0, 0, 0, 0):
            lines.append(line("background", *self.background))
        if self.blends:
            lines.append(line("order", *self.order))
        lines += [line("tile", *tile) for tile in self.tiles]
        for rank, (kind, *of) in self.shapes:
            if kind == "tri":
                lines.append(line("tri", rank, *(n for x, y, paint in of[0] for n in (x, y, *paint))))
            elif kind == "point":
                lines.append(line("point", rank, of[0], of[1], *of[2]))
            else:
                lines.append(line("span", rank, of[0], of[1], *(n for paint in of[2] for n in paint)))
        return "\n".join(lines + ["end"]) + "\n"


def line(keyword, *numbers):
    return " ".join([keyword, *map(str, numbers)])


def colour(dice, most):
    alpha = dice.choice([0, most, most, dice.randint(0, most)])
    return tuple(dice.randint(0, alpha) for _ in range(3)) + (alpha,)


def tile(dice):
    return dice.randrange(16), dice.randrange(16), dice.randint(1, 9), dice.randint(1, 9)


# What a shape gives at a pixel: a paint (z, r, g, b, a), or None.
def given(shape, x, y):
    kind, *of = shape
    if kind == "tri":
        return shaded(of[0], 16 * x + 8, 16 * y + 8)
    if of[1] != y:
        return None
    paints = [of[2]] if kind == "point" else of[2]
    return paints[x - of[0]] if 0 <= x - of[0] < len(paints) else None


def shaded(corners, px, py):
    a, b, c = corners
    area = edge(a, b, c[0], c[1])
    if area == 0:
        return None
    if area < 0:
        b, c, area = c, b, -area
    sides = [(b, c), (c, a), (a, b)]
    weights = [edge(start, end, px, py) for start, end in sides]
    for weight, (start, end) in zip(weights, sides):
        down, right = end[1] - start[1], end[0] - start[0]
        if weight < 0 or weight == 0 and not (down < 0 or down == 0 and right > 0):
            return None
    return tuple(sum(w * corner[2][i] for w, corner in zip(weights, (a, b, c))) // area for i in range(5))


def edge(start, end, px, py):
    return (end[0] - start[0]) * (py - start[1]) - (end[1] - start[1]) * (px - start[0])


def over(front, back, most):
    return (front[0],) + tuple(f + b * (most - min(front[4], most)) // most for f, b in zip(front[1:], back[1:]))


def joined(scene, front, back):
    if front is None or back is None:
        return back if front is None else front
    if scene.blends:
        return over(front, back, scene.most)
    return front if front[0] <= back[0] else back


def drawn(scene, shapes, x, y):
    pixel = None
    for shape in shapes:
        new = given(shape, x, y)
        if scene.blends:
            pixel = joined(scene, new if new and new[4] else None, pixel)
        else:
            pixel = joined(scene, pixel, new)
    return pixel


def images(scene):
    by_rank = [[shape for rank, shape in scene.shapes if rank == r] for r in range(scene.ranks)]
    return [
        [[drawn(scene, shapes, x + i % w, y + i // w) for i in range(w * h)] if shapes else [None] * (w * h) for shapes in by_rank]
        for x, y, w, h, _ in scene.tiles
    ]


# A printed bracket: a rank, a pair, or None.
def bracket(text):
    def parse(at):
        if text[at] == "(":
            front, at = parse(at + 1)
            back, at = parse(at + 1)
            return (front, back), at + 1
        end = at
        while end < len(text) and text[end].isdigit():
            end += 1
        return int(text[at:end]), end
    return None if text == "-" else parse(0)[0]


def value(scene, bracket, of_ranks, i):
    if bracket is None:
        return None
    if isinstance(bracket, int):
        return of_ranks[bracket][i]
    return joined(scene, value(scene, bracket[0], of_ranks, i), value(scene, bracket[1], of_ranks, i))


def nearest(of_ranks, i):
    seen = [(image[i][0], rank, image[i]) for rank, image in enumerate(of_ranks) if image[i]]
    return min(seen)[2] if seen else None


def finished(scene, pixel):
    ground = (0,) + scene.background
    if pixel is None:
        pixel = ground
    elif scene.blends:
        pixel = over(pixel, ground, scene.most)
    return b"".join(min(c, scene.most).to_bytes(2 if scene.wide else 1, "big") for c in pixel[1:])


def pictures(scene, of_tiles, brackets):
    text = b""
    for (_, _, w, h, _), of_ranks, bracket in zip(scene.tiles, of_tiles, brackets):
        text += f"P7\nWIDTH {w}\nHEIGHT {h}\nDEPTH 4\nMAXVAL {scene.most}\nTUPLTYPE RGB_ALPHA\nENDHDR\n".encode()
        pixels = [value(scene, bracket, of_ranks, i) if scene.blends else nearest(of_ranks, i) for i in range(w * h)]
        text += b"".join(finished(scene, pixel) for pixel in pixels)
    return text


def run(words, text):
    ran = subprocess.run([PROGRAM, *words], input=text, capture_output=True)
    return ran.stdout if ran.returncode == 0 and not ran.stderr else None


def printed_brackets(settings, text):
    lines = (run(["plan", *settings], text) or b"").decode().splitlines()
    return [bracket(line.split(" ", 2)[2]) for line in lines if line.startswith("tile ")]


def settings(dice, strategy):
    numbers = {"--k": (2, 64), "--cap": (1, 64), "--workers": (1, 4), "--burst": (1, 20), "--strands": (1, 64)}
    words = list(strategy)
    for name, (least, most) in numbers.items():
        if dice.random() < 0.3:
            words += [name, str(dice.choice([least, min(least + 1, most), dice.randint(least, most)]))]
    return words


def try_scene(seed):
    dice = random.Random(seed)
    scene = Scene(dice)
    text = scene.text().encode()
    of_tiles = images(scene)
    for strategy in STRATEGIES:
        words = settings(dice, strategy)
        brackets = printed_brackets(words, text) if scene.blends else [None] * len(scene.tiles)
        if run(["composite", *words], text) != pictures(scene, of_tiles, brackets):
            left = pathlib.Path(f"differs-{seed}.scene")
            left.write_bytes(text)
            sys.exit(f"seed {seed}: composite {' '.join(words)} writes other bytes on {left}")
    return len(STRATEGIES)


def main():
    scenes = int(sys.argv[1]) if len(sys.argv) > 1 else 1000
    first = int(sys.argv[2]) if len(sys.argv) > 2 else 1
    runs = sum(try_scene(seed) for seed in range(first, first + scenes))
    print(f"{scenes} scenes from seed {first}, {runs} runs of composite: none differs")


main()
