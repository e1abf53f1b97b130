"""The colours of a screenshot."""

import collections
import struct
import zlib
from typing import Iterator


def rows_of(data: bytes, wide: int, size: int) -> Iterator[bytearray]:
    """The rows of a PNG's pixels, with the filter of each undone."""
    line, before = wide * size, bytearray(wide * size)
    for start in range(0, len(data), line + 1):
        kind, row = data[start], bytearray(data[start + 1 : start + 1 + line])
        for at in range(line):
            left, up, corner = (row[at - size] if at >= size else 0), before[at], (before[at - size] if at >= size else 0)
            if kind == 1:
                row[at] = row[at] + left & 255
            elif kind == 2:
                row[at] = row[at] + up & 255
            elif kind == 3:
                row[at] = row[at] + (left + up) // 2 & 255
            elif kind == 4:
                guess = left + up - corner
                nearest = min((left, up, corner), key=lambda it: abs(guess - it))
                row[at] = row[at] + nearest & 255
        yield row
        before = row


def colours(image: str) -> dict[tuple[int, ...], int]:
    """How many pixels of a PNG have each colour."""
    with open(image, "rb") as file:
        file.seek(8)
        data = b""
        while head := file.read(8):
            length, kind = struct.unpack(">I4s", head)
            piece = file.read(length + 4)[:-4]
            if kind == b"IHDR":
                wide, _, depth, colour = struct.unpack(">IIBB", piece[:10])
            elif kind == b"IDAT":
                data += piece
    size, counts = {2: 3, 6: 4}[colour], collections.Counter()
    assert depth == 8
    for row in rows_of(zlib.decompress(data), wide, size):
        counts.update(zip(row[::size], row[1::size], row[2::size]))
    return counts
