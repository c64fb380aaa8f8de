#!/usr/bin/env python3
"""Makes one PNG of the pictures that `icet composite` writes, a wall's tiles put together.

    ./icet composite < SCENE | tools/pam_to_png.py [SCENE] > FILE.png

With a scene the pictures stand where its tiles do; without one they stand side by side. Samples of 16 bits are cut to 8.
"""
import struct
import sys
import zlib


def pictures(data):
    """Width, height and the rows of RGBA bytes of each picture."""
    while data:
        header, _, rest = data.partition(b"ENDHDR\n")
        fields = dict(line.split(b" ", 1) for line in header.splitlines() if b" " in line)
        width, height, wide = int(fields[b"WIDTH"]), int(fields[b"HEIGHT"]), fields[b"MAXVAL"] == b"65535"
        size = width * height * 4
        samples = rest[: size * 2 : 2] if wide else rest[:size]
        yield width, height, [samples[4 * width * y : 4 * width * (y + 1)] for y in range(height)]
        data = rest[size * 2 :] if wide else rest[size:]


def places(scene):
    """Where each tile of a scene begins."""
    with open(scene) as lines:
        return [tuple(map(int, line.split()[1:3])) for line in lines if line.startswith("tile ")]


def chunk(kind, body):
    return struct.pack(">I", len(body)) + kind + body + struct.pack(">I", zlib.crc32(kind + body))


def main():
    tiles = list(pictures(sys.stdin.buffer.read()))
    if len(sys.argv) > 1:
        at = places(sys.argv[1])
    else:
        at = [(sum(tile[0] for tile in tiles[:i]), 0) for i in range(len(tiles))]
    left, top = min(x for x, _ in at), min(y for _, y in at)
    width = max(x + w for (x, _), (w, _, _) in zip(at, tiles)) - left
    height = max(y + h for (_, y), (_, h, _) in zip(at, tiles)) - top
    rows = [bytearray(4 * width) for _ in range(height)]
    for (x, y), (w, h, lines) in zip(at, tiles):
        for i, line in enumerate(lines):
            rows[y - top + i][4 * (x - left) : 4 * (x - left + w)] = line
    body = zlib.compress(b"".join(b"\0" + bytes(row) for row in rows), 9)
    sys.stdout.buffer.write(
        b"\x89PNG\r\n\x1a\n"
        + chunk(b"IHDR", struct.pack(">IIBBBBB", width, height, 8, 6, 0, 0, 0))
        + chunk(b"IDAT", body)
        + chunk(b"IEND", b"")
    )


if __name__ == "__main__":
    main()
