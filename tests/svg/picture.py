"""The beam of examples/c/outline.c, ours beside librsvg's.

    picture.py OUTLINE [PNG]    OUTLINE is examples/c/outline.c, linked with the archive. Both pictures are held against each
                                other; PNG gets them side by side, ours left, each pixel four times as large.

A pixel of the one may be apart from the other's by MOST of 255: librsvg draws by cairo, which takes 15 rows of samples to a pixel, and ours
by exact areas of lines, 2^4 to a curve.
"""
import os, re, struct, subprocess, sys, tempfile, zlib

MOST, SCALE, GAP = 16, 4, 16


def ppm(data):
    head = re.match(rb"P6\n(\d+) (\d+)\n255\n", data)
    width, height = int(head[1]), int(head[2])
    grey = data[head.end()::3]
    return width, height, [grey[width * y:width * y + width] for y in range(height)]


def png_rows(data):
    """The first channel of a PNG of 8-bit RGB or RGBA, not interlaced."""
    at, packed, width, height, kind = 8, b"", 0, 0, 0
    while at < len(data):
        n, name = struct.unpack(">I4s", data[at:at + 8])
        body = data[at + 8:at + 8 + n]
        if name == b"IHDR":
            width, height, depth, kind, _, _, interlaced = struct.unpack(">IIBBBBB", body)
            assert depth == 8 and kind in (2, 6) and not interlaced
        if name == b"IDAT":
            packed += body
        at += 12 + n
    each, raw, rows, before = (3 if kind == 2 else 4), zlib.decompress(packed), [], None
    for y in range(height):
        row = bytearray(raw[(width * each + 1) * y + 1:(width * each + 1) * (y + 1)])
        how, up = raw[(width * each + 1) * y], before or bytes(len(row))
        for k in range(len(row)):
            a, b, c = (row[k - each] if k >= each else 0), up[k], (up[k - each] if k >= each else 0)
            p = a + b - c
            near = min((abs(p - v), i, v) for i, v in enumerate((a, b, c)))[2]
            row[k] = (row[k] + (0, a, b, (a + b) // 2, near)[how]) % 256
        rows.append(bytes(row[::each]))
        before = row
    return rows


def png(rows):
    chunk = lambda name, body: struct.pack(">I", len(body)) + name + body + struct.pack(">I", zlib.crc32(name + body))
    head = struct.pack(">IIBBBBB", len(rows[0]), len(rows), 8, 0, 0, 0, 0)
    raw = zlib.compress(b"".join(b"\0" + r for r in rows), 9)
    return b"\x89PNG\r\n\x1a\n" + chunk(b"IHDR", head) + chunk(b"IDAT", raw) + chunk(b"IEND", b"")


def main():
    root = os.path.join(os.path.dirname(os.path.abspath(__file__)), "../..")
    source = open(os.path.join(root, "examples/c/outline.c")).read()
    texts = re.search(r"texts\[\] = \{(.*?)\};", source, re.S)[1]
    beam = "".join(re.findall(r'"([^"]*)"', texts.split(",\n", 1)[1]))
    with tempfile.TemporaryDirectory() as room:
        subprocess.run([sys.argv[1], room + "/ours.ppm"], check=True, stdout=subprocess.DEVNULL)
        width, height, ours = ppm(open(room + "/ours.ppm", "rb").read())
        with open(room + "/beam.svg", "w") as f:
            f.write(f'<svg xmlns="http://www.w3.org/2000/svg" width="{width}" height="{height}"><path fill="#fff" fill-rule="evenodd" d="{beam}"/></svg>')
        subprocess.run(["rsvg-convert", "-b", "black", room + "/beam.svg", "-o", room + "/theirs.png"], check=True)
        theirs = png_rows(open(room + "/theirs.png", "rb").read())
    apart = [abs(a - b) for x, y in zip(ours, theirs) for a, b in zip(x, y)]
    edge = sum(1 for x in ours for a in x if 0 < a < 255)
    print(f"picture: {width} by {height}, {edge} pixels partly covered; at most {max(apart)} of 255 apart, {sum(1 for a in apart if a)} pixels at all")
    if max(apart) > MOST or edge < 20 or len(apart) != width * height:
        sys.exit(f"picture: more than {MOST} apart, or no outline")
    if len(sys.argv) > 2:
        large = lambda row: b"".join(bytes([v]) * SCALE for v in row)
        rows = [large(x) + b"\x80" * GAP + large(y) for x, y in zip(ours, theirs) for _ in range(SCALE)]
        open(sys.argv[2], "wb").write(png(rows))


main()
