"""PNG with at most 256 colours: a page's picture is a third as large then."""

import struct
import zlib
from collections import Counter

SIGN = b"\x89PNG\r\n\x1a\n"
COLOURS = 256


def chunks(png):
    at = len(SIGN)
    while at < len(png):
        length, kind = struct.unpack(">I4s", png[at:at + 8])
        yield kind, png[at + 8:at + 8 + length]
        at += 12 + length


def chunk(kind, content):
    return struct.pack(">I", len(content)) + kind + content + struct.pack(">I", zlib.crc32(kind + content))


def rows(data, width, height, size):
    """The rows of a picture of `size` bytes a pixel, each without its filter."""
    before, length, at = bytes(width * size), width * size, 0
    for _ in range(height):
        way, row = data[at], bytearray(data[at + 1:at + 1 + length])
        at += 1 + length
        if way:
            unfiltered(way, row, before, size)
        yield row
        before = row


def unfiltered(way, row, above, size):
    for at, byte in enumerate(row):
        left, corner = (row[at - size], above[at - size]) if at >= size else (0, 0)
        guess = {1: left, 2: above[at], 3: (left + above[at]) // 2}.get(way)
        row[at] = (byte + (nearest(left, above[at], corner) if guess is None else guess)) & 255


def nearest(left, up, corner):
    guess = left + up - corner
    return min((left, up, corner), key=lambda one: abs(guess - one))


def smaller(png):
    """The picture with the colours that it has most, and for each other one the nearest of them."""
    parts = dict(chunks(png))
    width, height, depth, kind = struct.unpack(">IIBB", parts[b"IHDR"][:10])
    size = {2: 3, 6: 4}.get(kind)
    if depth != 8 or size is None:
        return png
    data = zlib.decompress(b"".join(content for kind, content in chunks(png) if kind == b"IDAT"))
    pixels = [[bytes(row[at:at + 3]) for at in range(0, len(row), size)] for row in rows(data, width, height, size)]
    counted = Counter(pixel for row in pixels for pixel in row)
    palette = [colour for colour, _ in counted.most_common(COLOURS)]
    places = {colour: place for place, colour in enumerate(palette)}
    for colour in counted.keys() - places.keys():
        places[colour] = min(range(len(palette)), key=lambda one: sum((a - b) ** 2 for a, b in zip(palette[one], colour)))
    packed = zlib.compress(b"".join(b"\0" + bytes(places[pixel] for pixel in row) for row in pixels), 9)
    head = struct.pack(">IIBBBBB", width, height, 8, 3, 0, 0, 0)
    return SIGN + chunk(b"IHDR", head) + chunk(b"PLTE", b"".join(palette)) + chunk(b"IDAT", packed) + chunk(b"IEND", b"")
