#!/usr/bin/env python3
# SPDX-License-Identifier: Apache-2.0
"""Reads a picture as Chromium writes it: PNG with three or four bytes a pixel, not interlaced."""
import struct
import zlib

SIGNATURE = b"\x89PNG\r\n\x1a\n"


class Picture:
    """The rows of a picture, each the bytes of its pixels."""

    def __init__(self, data):
        assert data.startswith(SIGNATURE), "it is no PNG"
        chunks = list(chunks_of(data))
        self.width, self.height, depth, kind, _, _, interlaced = struct.unpack(">IIBBBBB", dict(chunks)[b"IHDR"])
        assert depth == 8 and kind in (2, 6) and not interlaced, "it is a PNG of another form"
        self.step = 3 if kind == 2 else 4
        packed = b"".join(body for name, body in chunks if name == b"IDAT")
        self.rows = list(rows_of(zlib.decompress(packed), self.width * self.step, self.step))

    def places_of(self, y, colour):
        """At which pixels of a row this colour is, which has three bytes."""
        row, found, at = self.rows[y], [], -1
        while (at := row.find(colour, at + 1)) != -1:
            if at % self.step == 0:
                found.append(at // self.step)
        return found


def chunks_of(data):
    """The name and the bytes of each chunk."""
    at = len(SIGNATURE)
    while at < len(data):
        size, name = struct.unpack_from(">I4s", data, at)
        yield name, data[at + 8:at + 8 + size]
        at += 12 + size


def rows_of(data, width, step):
    """Each row, of which the file has the difference from its neighbours."""
    above = bytes(width)
    for at in range(0, len(data), width + 1):
        above = bytes(unfiltered(data[at], data[at + 1:at + 1 + width], above, step))
        yield above


def unfiltered(kind, row, above, step):
    """A row by what its filter adds to each byte."""
    if kind == 0:
        return row
    if kind == 2:
        return bytes((here + up) & 255 for here, up in zip(row, above))
    out = bytearray(step) + row
    corner = bytes(step) + above
    for at in range(step, len(out)):
        left, up = out[at - step], corner[at]
        if kind == 1:
            added = left
        elif kind == 3:
            added = (left + up) // 2
        else:
            added = nearest(left, up, corner[at - step])
        out[at] = (out[at] + added) & 255
    return out[step:]


def nearest(left, up, corner):
    """Which of the three is nearest to what they foretell."""
    foretold = left + up - corner
    return min((left, up, corner), key=lambda it: abs(foretold - it))
