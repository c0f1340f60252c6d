"""What the names of a script stand for at one of its lines."""
from typing import NamedTuple

from inputs import quoted

KINDS = ("table", "bitmap", "brush", "region")


class Known(NamedTuple):
    """What a name stands for, and the line that made it; of a bitmap its size and format too, of a table its colours."""
    kind: str
    line: int = 0
    width: int = 0
    height: int = 0
    format: str = ""
    colours: int = 0

    def pixels(self):
        return self.width * self.height


class Names:
    """All names in use. Lines that the program accepted are learned one after the other."""

    def __init__(self):
        self.known = {"screen": Known("screen"), "none": Known("clip of all points")}
        self.deleted = {}

    def learn(self, line):
        """Keeps what an accepted line makes or deletes."""
        command, name, *rest = line.words
        if command == "delete":
            del self.known[name]
            self.deleted[name] = line.number
        elif command == "bitmap":
            self.known[name] = Known(command, line.number, int(rest[0]), int(rest[1]), rest[2])
        elif command in KINDS:
            self.known[name] = Known(command, line.number, colours=len(rest))

    def kind_of(self, name):
        """`table`, `bitmap`, `brush` or `region`; None where the name stands for nothing."""
        return self.known[name].kind if name in self.known else None

    def all_of(self, kind):
        return [known for known in self.known.values() if known.kind == kind]

    def told(self, name):
        """A sentence on what a name stands for."""
        known = self.known.get(name)
        if known:
            since = f"made in line {known.line}" if known.line else "from the start"
            return f"{quoted(name)} is the name of a {known.kind}, {since}."
        if name in self.deleted:
            return f"{quoted(name)} was deleted in line {self.deleted[name]}."
        return f"{quoted(name)} is the name of nothing here."


def names_before(lines, number):
    """The names as they are before the line of a number."""
    names = Names()
    for line in lines:
        if line.number >= number:
            break
        names.learn(line)
    return names
