"""Random scripts of the commands that are built, most of them accepted, and lines of them spoiled."""

DIGITS = {"1": 1, "4": 1, "8": 2, "555": 4, "565": 4, "24": 6, "32": 8}
BITS = {"1": 1, "4": 4, "8": 8, "555": 16, "565": 16, "24": 24, "32": 32}
COLOURS = {"1": 2, "4": 16, "8": 256}
HATCHES = ["horizontal", "vertical", "fdiagonal", "bdiagonal", "cross", "diagcross"]
OPERATIONS = ["union", "intersect", "subtract", "xor"]
BYTES = ["CC", "66", "F0", "AA", "5A", "00", "FF", "B8", "E2", "55", "33", "88", "EE", "0F"]
UNBUILT = ["devbitmap d 0 1 1", "stretch screen 0 0 1 1 screen 0 0 1 1 n",
           "transparent screen 0 0 1 1 screen 0 0 1 1 000000", "gradient screen 0 0 1 1 h 000000000000 FFFFFFFFFFFF",
           "line screen 0 0 1 1 #000000 13", "stroke screen solid #000000 13 0 0 1 1", "font f",
           "glyph f 41 1 1 0 0 1 80", "text screen f 0 0 #000000 - 0 0 0 0 41", "frob"]
JUNK = ["", "-", "x", "#", "#12345", "#1234567", "#GG0000", "0", "-1", "-0", "007", "99999", "1234567890",
        "screen", "none", "a1", "_a", "a" * 33, "a" * 32, "zz", "GG", "solid", "hatch", "pattern", "32767",
        "32768", "-32768", "-32769", "65", "16", "17", "13", "013", "\u00e9", "\t", "%%", "#000000", "1e3", "+1",
        "CCCC", "aacc", "F0F", "4096", "4097", "1025", "8", "555", "2", "ff", "00000000"]
WEIGHTS = {"paint": 6, "copy": 4, "shift": 5, "blt": 12, "bitmap": 2, "noise": 3, "pixels": 3, "solid": 1, "hatch": 2,
           "pattern": 3, "table": 1, "region": 3, "clip": 4, "delete": 1, "brushorg": 2, "back": 2, "dump": 3, "sum": 2,
           "skipped": 1}


def needs(byte):
    """Whether a raster operation of one byte depends on the source, and whether on the brush."""
    return (byte >> 2 ^ byte) & 0x33 != 0, (byte >> 4 ^ byte) & 0x0F != 0


class Script:
    """Lines of a script for a screen of a size, and what they have made."""

    def __init__(self, chance, width, height):
        self.chance, self.screen = chance, (width, height, "8")
        self.lines, self.made = [], 0
        self.bitmaps, self.tables, self.brushes, self.regions = {}, {}, [], []

    def say(self, *words):
        self.lines.append(" ".join(str(word) for word in words))

    def name(self):
        self.made += 1
        return self.chance.choice("abcXYZ") + f"{self.made}_"[:self.chance.randrange(1, 4)] + str(self.made)

    def colour(self):
        if self.chance.random() < 0.3:
            return self.chance.choice(["000000", "FFFFFF", "ff0000", "00FF00", "0000ff"])
        digits = "%06x" % self.chance.randrange(1 << 24)
        return digits.upper() if self.chance.random() < 0.5 else digits

    def value(self, form):
        return "%0*x" % (DIGITS[form], self.chance.randrange(1 << BITS[form]))

    def coordinate(self, end):
        wild = self.chance.random() < 0.02
        return self.chance.randrange(-32768, 32767) if wild else self.chance.randrange(-4, end + 5)

    def point(self, surface):
        width, height, _ = self.bitmaps.get(surface, self.screen)
        return f"{self.coordinate(width)} {self.coordinate(height)}"

    def corners(self, surface):
        width, height, _ = self.bitmaps.get(surface, self.screen)
        if self.chance.random() < 0.15:
            return 0, 0, width, height
        x = sorted([self.coordinate(width), self.coordinate(width)])
        y = sorted([self.coordinate(height), self.coordinate(height)])
        if self.chance.random() < 0.01:
            x.reverse()
        return x[0], y[0], x[1], y[1]

    def rectangle(self, surface):
        return "%d %d %d %d" % self.corners(surface)

    def bitmap_name(self):
        return self.chance.choice(list(self.bitmaps)) if self.bitmaps else "nothing"

    def surface(self):
        return "screen" if self.chance.random() < 0.35 else self.bitmap_name()

    def source(self, target):
        return target if self.chance.random() < 0.35 else self.surface()

    def brush(self):
        return self.chance.choice(self.brushes) if self.brushes and self.chance.random() < 0.7 else "#" + self.colour()

    def mask(self, target):
        """A bitmap of one bit a pixel that isn't the target, or `-` where there is none; now and then any bitmap."""
        fitting = [name for name, made in self.bitmaps.items() if made[2] == "1" and name != target]
        return self.bitmap_name() if self.chance.random() < 0.02 else self.chance.choice(fitting or ["-"])

    # One method for each kind of line

    def bitmap(self):
        name, form = self.name(), self.chance.choice([*BITS, "1"])
        width, height = self.chance.randrange(1, 41), self.chance.randrange(1, 13)
        tables = [table for table, count in self.tables.items() if count == COLOURS.get(form)]
        table = [self.chance.choice(tables)] if tables and self.chance.random() < 0.6 else []
        self.say("bitmap", name, width, height, form, *table)
        self.bitmaps[name] = width, height, form

    def delete(self):
        if len(self.bitmaps) > 2:
            name = self.bitmap_name()
            self.say("delete", name)
            del self.bitmaps[name]

    def noise(self):
        name = self.bitmap_name()
        width, height, form = self.bitmaps[name]
        few = [self.value(form) for _ in range(self.chance.choice([2, 5, 40]))]
        for y in range(height):
            self.say("pixels", name, 0, y, *[self.chance.choice(few) for _ in range(width)])

    def pixels(self):
        name = self.bitmap_name()
        width, height, form = self.bitmaps[name]
        count = self.chance.randrange(1, width + 4)
        self.say("pixels", name, self.coordinate(width), self.chance.randrange(-1, height + 1),
                 *[self.value(form) for _ in range(count)])

    def solid(self):
        name = self.name()
        self.say("brush", name, "solid", self.colour())
        self.brushes.append(name)

    def hatch(self):
        name = self.name()
        self.say("brush", name, "hatch", self.chance.choice(HATCHES), self.colour(), self.colour())
        self.brushes.append(name)

    def pattern(self):
        name = self.name()
        self.say("brush", name, "pattern", self.bitmap_name())
        self.brushes.append(name)

    def table(self):
        name, count = self.name(), self.chance.choice([2, 2, 16, 16, 256])
        self.say("table", name, *[self.colour() for _ in range(count)])
        self.tables[name] = count

    def region(self):
        name, form = self.name(), self.chance.choice(["rects", "rects", "offset", *OPERATIONS])
        known = [self.chance.choice(self.regions or ["nothing"]) for _ in range(2)]
        if form == "rects" or not self.regions:
            form, words = "rects", [self.rectangle("screen") for _ in range(self.chance.choice([0, 1, 2, 5, 12]))]
        elif form == "offset":
            words = [known[0], self.coordinate(20), self.coordinate(20)]
        else:
            words = known
        self.say("region", name, form, *words)
        self.regions.append(name)

    def clip(self):
        """A known region, or none; now and then a name of another kind, or an unknown one."""
        if not self.regions and self.chance.random() < 0.6:
            self.region()
        if self.chance.random() < 0.03:
            name = self.chance.choice(["nothing", "screen", "-", self.bitmap_name(), *self.brushes, *self.tables])
        else:
            name = self.chance.choice(self.regions) if self.regions and self.chance.random() < 0.75 else "none"
        self.say("clip", name)

    def brushorg(self):
        self.say("brushorg", self.coordinate(12), self.coordinate(12))

    def back(self):
        self.say("back", self.colour())

    def paint(self):
        target = self.surface()
        mix = 13 if self.chance.random() < 0.3 else self.chance.randrange(1, 17)
        self.say("paint", target, self.rectangle(target), self.brush(), mix)

    def copy(self):
        target = self.surface()
        source = self.source(target)
        self.say("copy", target, self.rectangle(target), source, self.point(source))

    def shift(self):
        target = self.surface()
        left, top, right, bottom = self.corners(target)
        x, y = left + self.chance.randrange(-4, 5), top + self.chance.randrange(-4, 5)
        place = f"{min(max(x, -32768), 32766)} {min(max(y, -32768), 32766)}"
        self.say("copy", target, left, top, right, bottom, target, place)

    def byte(self):
        return int(self.chance.choice(BYTES), 16) if self.chance.random() < 0.5 else self.chance.randrange(256)

    def blt(self):
        """The rop's first byte is for where the mask is 0, its second for where it is 1; often they are the same. What
        the rop needs is nearly always given, the rest now and then."""
        target = self.surface()
        source, brush, mask = self.source(target), self.brush(), self.mask(target)
        low = high = self.byte()
        if mask != "-" and self.chance.random() < 0.6:
            high = self.byte()
        need_source, need_brush = (first or second for first, second in zip(needs(low), needs(high)))
        if self.chance.random() < (0.01 if need_source else 0.5):
            source = "-"
        if self.chance.random() < (0.01 if need_brush else 0.5):
            brush = "-"
        if self.chance.random() < (0.01 if low != high else 0.5):
            mask = "-"
        code = "%02x%02X" % (high, low)
        self.say("blt", target, self.rectangle(target), source, self.point(source), mask, self.point(mask), brush, code)

    def dump(self):
        self.say("dump", self.chance.choice([0, self.bitmap_name()]))

    def sum(self):
        self.say("sum", self.chance.choice([0, self.bitmap_name()]))

    def skipped(self):
        self.say(self.chance.choice(["", "   ", "# a comment", "#paint", "  dump   0  "]))


def random_script(chance, width, height):
    """The lines of a script that ends with all that it has drawn; half of them have a spoiled line."""
    script = Script(chance, width, height)
    for _ in range(chance.randrange(1, 4)):
        script.bitmap()
        script.noise()
    for kind in chance.choices(list(WEIGHTS), list(WEIGHTS.values()), k=chance.randrange(0, 24)):
        getattr(script, kind)()
    for what in [0, *script.bitmaps]:
        script.say("dump", what)
    lines = script.lines
    if chance.random() < 0.5:
        for _ in range(chance.choice([1, 1, 2])):
            at = chance.randrange(len(lines))
            lines[at] = spoiled(chance, lines[at], lines)
    if chance.random() < 0.03:
        lines.insert(chance.randrange(len(lines) + 1), chance.choice(UNBUILT))
    return lines


def spoiled(chance, line, lines):
    """A line with one word taken out, put in, changed, moved, or one of another line in its place."""
    words = line.split(" ")
    at = chance.randrange(len(words))
    how = chance.randrange(6)
    if how == 0:
        words[at] = chance.choice(JUNK)
    elif how == 1:
        del words[at]
    elif how == 2:
        words.insert(at, chance.choice(JUNK))
    elif how == 3:
        words[at] = str(chance.randrange(-40000, 40000))
    elif how == 4:
        words[at] = chance.choice(chance.choice(lines).split(" "))
    else:
        other = chance.randrange(len(words))
        words[at], words[other] = words[other], words[at]
    return " ".join(words)
