"""The colours that values of a pixel stand for, by the format and the colour table of their surface."""

# The bits of red, green and blue in the values of a format without a table, red being the highest.
CHANNELS = {"555": (5, 5, 5), "565": (5, 6, 5), "24": (8, 8, 8), "32": (8, 8, 8)}
TABLE_SIZES = {"1": 2, "4": 16, "8": 256}
# The hexadecimal digits of one value in a dump.
DIGITS = {"1": 1, "4": 1, "8": 2, "555": 4, "565": 4, "24": 6, "32": 8}


def eight_bit_default(value):
    """Three bits of red, three of green, two of blue, each widened to a byte."""
    red, green, blue = value >> 5, value >> 2 & 7, value & 3
    return tuple(channel << 5 | channel << 2 | channel >> 1 for channel in (red, green)) + (blue * 85,)


def default_table(form):
    """The table of a surface that was given none; empty where its values hold the channels themselves."""
    if form == "8":
        return [eight_bit_default(value) for value in range(256)]
    size = TABLE_SIZES.get(form, 0)
    return [(255 * index // (size - 1),) * 3 for index in range(size)]


def widened(channel, bits):
    """A channel of 5 to 8 bits as a byte: its highest bits stand once more behind it."""
    return channel << 8 - bits | channel >> 2 * bits - 8


def unpacked(value, sizes):
    """Red, green and blue of a value that holds them; bits above red are no part of the colour."""
    channels = []
    for bits in reversed(sizes):
        channels.append(widened(value & (1 << bits) - 1, bits))
        value >>= bits
    return tuple(reversed(channels))


def colour_of(form, table, value):
    """The colour of a value as red, green and blue of a byte each."""
    return unpacked(value, CHANNELS[form]) if form in CHANNELS else table[value]


def colour_of_word(word):
    """The colour of six hexadecimal digits."""
    return tuple(bytes.fromhex(word))
