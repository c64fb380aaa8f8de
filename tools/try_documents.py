#!/usr/bin/env python3
"""Tries what docs/FORMATS.md shows: each line of a scene, each fault and its line, each word, and the texts of the jobs.

Reads the tables and the blocks of the document, runs the program on scenes made around the examples, and tells which
answers differ from what the document says. Needs the program built once by ./icet. Usage: tools/try_documents.py
"""
import pathlib
import re
import subprocess
import sys

HERE = pathlib.Path(__file__).resolve().parent.parent
PROGRAM = HERE / "crates" / "icet" / "out" / "icet"
TEXT = (HERE / "docs" / "FORMATS.md").read_text()
POINT = "icet-scene 1\nmode depth\nranks 1\ntile 0 0 1 1 0\npoint 0 0 0 7 10 20 30 255\nend\n"
TWO = "icet-scene 1\nmode depth\nranks 2\ntile 0 0 1 1 0\npoint 1 0 0 7 2 2 2 255\npoint 0 0 0 7 1 1 1 255\nend\n"

EDGE = (
    "icet-scene 1\nmode depth\nranks 2\ntile 0 0 2 2 0\n"
    "tri 0 0 0 5 10 20 30 255 32 0 5 10 20 30 255 0 32 5 10 20 30 255\n"
    "tri 1 32 0 5 40 50 60 255 32 32 5 40 50 60 255 0 32 5 40 50 60 255\nend\n"
)

# A scene with each example of a line, by its keyword.
SCENES = {
    "icet-scene": "{line}\nmode depth\nranks 1\ntile 0 0 1 1 0\nend\n",
    "mode": "icet-scene 1\n{line}\nranks 1\norder 0\ntile 0 0 1 1 0\nend\n",
    "ranks": "icet-scene 1\nmode depth\n{line}\ntile 0 0 1 1 0\nend\n",
    "maxval": "icet-scene 2\nmode depth\nranks 1\n{line}\ntile 0 0 1 1 0\nend\n",
    "background": "icet-scene 1\nmode depth\nranks 1\n{line}\ntile 0 0 1 1 0\nend\n",
    "order": "icet-scene 1\nmode blend\nranks 3\n{line}\ntile 0 0 1 1 0\nend\n",
    "tile": "icet-scene 1\nmode depth\nranks 1\n{line}\nend\n",
    "point": "icet-scene 1\nmode depth\nranks 1\ntile 0 0 9 9 0\n{line}\nend\n",
    "tri": "icet-scene 1\nmode depth\nranks 1\ntile 0 0 9 9 0\n{line}\nend\n",
    "span": "icet-scene 2\nmode depth\nranks 1\ntile 0 0 9 9 0\n{line}\nend\n",
    "end": "icet-scene 1\nmode depth\nranks 1\ntile 0 0 1 1 0\n{line}\n",
}

# A text for each fault of the table, by the first words of its row.
FAULTS = {
    "too long": "\n" * 67_108_865,
    "a byte that may not stand there": "icet-scene 1\r\n",
    "no line of the format": "icet-scene 1\nmode depth\nranks 01\n",
    "a line that may not stand there": "icet-scene 1\nmode depth\nranks 3\norder 0 1 2\n",
    "a number outside its range": "icet-scene 1\nmode depth\nranks 65\n",
    "a channel above its alpha": "icet-scene 1\nmode depth\nranks 1\ntile 0 0 1 1 0\npoint 0 0 0 5 200 0 0 100\nend\n",
    "a display rank of an earlier tile": "icet-scene 1\nmode depth\nranks 2\ntile 0 0 1 1 0\ntile 1 0 1 1 0\n",
    "an order that isn't each rank once": "icet-scene 1\nmode blend\nranks 3\norder 0 2 2\n",
    "the text ends too early": "",
    "too large": "icet-scene 1\nmode depth\nranks 64\ntile 0 0 1024 1025 0\nend\n",
}

wrong = 0


def run(words, scene):
    done = subprocess.run([PROGRAM, *words], input=scene.encode(), capture_output=True)
    return done.returncode, done.stdout, done.stderr.decode()


def expect(what, got, want):
    global wrong
    if got != want:
        wrong += 1
        print(f"{what}: {got!r}, and the document says {want!r}")


def rows(heading):
    """The rows of the first table behind a line of the document, each as its cells."""
    lines = TEXT[TEXT.index(heading):].split("\n")
    first = next(i for i, line in enumerate(lines) if line.startswith("|"))
    for line in lines[first + 2:]:
        if not line.startswith("|"):
            return
        yield [cell.strip() for cell in line.strip("|").split("|")]


def block(before):
    """The first block of code behind these words."""
    return re.search(r"```\n(.*?)```", TEXT[TEXT.index(before):], re.S).group(1)


for cells in rows("| Line | Example |"):
    line = cells[1].strip("`")
    status, _, notes = run(["composite"], SCENES[line.split()[0]].format(line=line))
    expect(f"the line {line}", (status, notes), (0, ""))

for cells in rows("| Fault | Line of the notes |"):
    said = re.findall(r"`(icet: [^`]*)`", " ".join(cells[1:]))[-1]
    status, out, notes = run(["composite"], FAULTS[cells[0]])
    expect(f"the fault {cells[0]}", (status, out, notes), (1, b"", said + "\n"))

for cells in rows("| Word | Values |"):
    words = cells[3].strip("`").split()[1:]
    status, _, notes = run(words, TWO)
    expect(f"the words {' '.join(words)}", (status, notes), (0, ""))

expect("the plan", run(["plan", "--strategy", "direct"], TWO), (0, block("Of two ranks under the direct strategy").encode(), ""))
expect("the summary", run(["summary"], TWO), (0, block("pixel of a tile weigh 32").encode(), ""))
picture = block("The Netpbm format PAM").replace("w\n", "1\n", 1).replace("h\n", "1\n", 1).replace(" m\n", " 255\n", 1)
expect("the picture", run(["composite"], POINT), (0, picture.encode() + bytes([10, 20, 30, 255]), ""))
expect("the upgraded text", run(["upgrade"], EDGE), (0, block("one half of a tile of four pixels").encode(), ""))

demonstration = subprocess.run([HERE / "tools" / "make_demo.py"], capture_output=True, text=True, check=True).stdout
for words in ([], ["--strands", "16", "--workers", "4"], ["--strategy", "direct", "--cap", "1"]):
    made, read = run(["demo", *words], ""), run(["summary", *words], demonstration)
    expect(f"the summary of the demonstration's text, {' '.join(words)}", read, made)
expect("the size of the demonstration's picture", len(run(["composite"], demonstration)[1]), 71 + 4 * 1920 * 1080)

sys.exit(f"{wrong} differ" if wrong else None)
