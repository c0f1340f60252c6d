"""Pictures made of dumps: enlarged, side by side, as PNG files and as text of a terminal with 24-bit colour."""
import struct
import zlib
from functools import cache
from typing import NamedTuple

from colours import DIGITS, colour_of

GAP = 8
GROUND = bytes((96, 96, 96))
PNG_START = b"\x89PNG\r\n\x1a\n"
RESET = "\x1b[0m"
UPPER_HALF = "\N{UPPER HALF BLOCK}"


class Picture(NamedTuple):
    """Rows of pixels, each pixel three bytes: red, green and blue."""
    width: int
    rows: list


def picture_of(dump, table):
    """The picture of a dump whose surface has a table."""
    @cache
    def pixel(digits):
        return bytes(colour_of(dump.format, table, int(digits, 16)))

    step = DIGITS[dump.format]
    return Picture(dump.width, [b"".join(pixel(row[at:at + step]) for at in range(0, len(row), step)) for row in dump.rows])


def pixels_of(row):
    return [row[at:at + 3] for at in range(0, len(row), 3)]


def zoomed(picture, times):
    """Each pixel as a square of so many."""
    rows = [b"".join(pixel * times for pixel in pixels_of(row)) for row in picture.rows]
    return Picture(picture.width * times, [row for row in rows for _ in range(times)])


def side_by_side(pictures):
    """One picture of all, from left to right, their upper edges in a line, with a gap between."""
    height = max(len(picture.rows) for picture in pictures)
    filled = [picture.rows + [GROUND * picture.width] * (height - len(picture.rows)) for picture in pictures]
    width = sum(picture.width + GAP for picture in pictures) - GAP
    return Picture(width, [(GROUND * GAP).join(rows) for rows in zip(*filled)])


def png_part(kind, data):
    """A part of a PNG file: its length, its kind, its data, and a sum over kind and data."""
    return struct.pack(">I", len(data)) + kind + data + struct.pack(">I", zlib.crc32(kind + data))


def png_of(picture):
    """A PNG file of eight bits a channel. Each row begins with 0: it stands there as it is."""
    header = struct.pack(">IIBBBBB", picture.width, len(picture.rows), 8, 2, 0, 0, 0)
    packed = zlib.compress(b"".join(b"\0" + row for row in picture.rows), 9)
    return PNG_START + png_part(b"IHDR", header) + png_part(b"IDAT", packed) + png_part(b"IEND", b"")


def colour_code(layer, pixel):
    """The escape sequence of a text's colour (38) or of the colour behind it (48); without a pixel the terminal's own."""
    return "\x1b[{};2;{};{};{}m".format(layer, *pixel) if pixel else f"\x1b[{layer + 1}m"


def terminal_line(upper, lower):
    """Two rows as one line of text: a character's upper half is a pixel of the first, its lower half one of the second."""
    text, before = "", None
    for pair in zip(upper, lower):
        if pair != before:
            text += colour_code(38, pair[0]) + colour_code(48, pair[1])
        text, before = text + UPPER_HALF, pair
    return text + RESET + "\n"


def terminal_text(picture):
    """The picture as lines of half blocks."""
    rows = [pixels_of(row) for row in picture.rows]
    if len(rows) % 2:
        rows.append([None] * picture.width)
    return "".join(terminal_line(upper, lower) for upper, lower in zip(rows[::2], rows[1::2]))
