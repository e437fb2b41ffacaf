"""Makes a PNG of a screen smaller: at most 256 colors, each pixel a byte."""
import struct
import zlib
from collections import Counter

MOST_COLORS = 256
SIGNATURE = b"\x89PNG\r\n\x1a\n"


def chunks(png):
    """The parts of a PNG, each with its name."""
    at = len(SIGNATURE)
    while at < len(png):
        length = struct.unpack(">I", png[at:at + 4])[0]
        yield png[at + 4:at + 8], png[at + 8:at + 8 + length]
        at += 12 + length


def chunk(name, data):
    return struct.pack(">I", len(data)) + name + data + struct.pack(">I", zlib.crc32(name + data))


def paeth(left, above, corner):
    guess = left + above - corner
    return min((abs(guess - left), 0, left), (abs(guess - above), 1, above), (abs(guess - corner), 2, corner))[2]


GUESSES = {
    1: lambda left, above, corner: left, 2: lambda left, above, corner: above,
    3: lambda left, above, corner: (left + above) // 2, 4: paeth,
}  # fmt: skip


def unfiltered(sort, row, before, size):
    """The bytes of a row, of which each was written as its difference from a guess by its neighbors."""
    guess = GUESSES.get(sort)
    for at in range(len(row)) if guess else ():
        left, corner = (row[at - size], before[at - size]) if at >= size else (0, 0)
        row[at] = (row[at] + guess(left, before[at], corner)) & 255
    return row


def pixels_of(png):
    """The width of a picture and its rows, each a list of colors."""
    parts = list(chunks(png))
    width, _, depth, sort = struct.unpack(">IIBB", dict(parts)[b"IHDR"][:10])
    assert depth == 8 and sort in (2, 6), "the browser's PNG has another form than RGB or RGBA"
    size = 3 if sort == 2 else 4
    data = zlib.decompress(b"".join(each for name, each in parts if name == b"IDAT"))
    before, rows = bytearray(width * size), []
    for start in range(0, len(data), width * size + 1):
        row = bytearray(data[start + 1:start + 1 + width * size])
        before = unfiltered(data[start], row, before, size)
        rows.append([tuple(before[at:at + 3]) for at in range(0, len(before), size)])
    return width, rows


def nearest(color, colors):
    return min(colors, key=lambda other: sum((one - two) ** 2 for one, two in zip(color, other)))


def with_few_colors(png):
    """The same picture with the colors that most of its pixels have; each other one is the nearest of these."""
    width, rows = pixels_of(png)
    counts = Counter(color for row in rows for color in row)
    colors = [color for color, _ in counts.most_common(MOST_COLORS)]
    number = {color: at for at, color in enumerate(colors)}
    number.update({color: number[nearest(color, colors)] for color in counts if color not in number})
    data = b"".join(b"\0" + bytes(number[color] for color in row) for row in rows)
    head = chunk(b"IHDR", struct.pack(">IIBBBBB", width, len(rows), 8, 3, 0, 0, 0))
    palette = chunk(b"PLTE", bytes(part for color in colors for part in color))
    return SIGNATURE + head + palette + chunk(b"IDAT", zlib.compress(data, 9)) + chunk(b"IEND", b"")
