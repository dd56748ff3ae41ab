"""The program against itself: a client gets the same lines twice, and the same ones where its files and declarations stand in another order, with places that move with them."""
import collections


def kind_of(line):
    """What a line says, without the place."""
    return line.partition(" at ")[0] if line.startswith("client ") else line.partition(":")[0]


def place_of(line):
    """The file, line and column that a line tells, or none."""
    at = line.partition(": untyped at ")[2]
    if not at:
        return None
    file, row, column = at.rsplit(":", 2)
    return file, int(row), int(column)


def offset_of(text, row, column):
    """How many bytes stand before a place."""
    at = 0
    for _ in range(row - 1):
        at = text.index(b"\n", at) + 1
    return at + column - 1


class Moved:
    """A client and the same one shuffled: READ gives the bytes of a file of either, and PIECES say where each part of the first stands in the second."""

    def __init__(self, read, pieces):
        self.read, self.pieces = read, pieces

    def into(self, place):
        """The piece in which a place stands, and its file and offset once shuffled."""
        file, row, column = place
        at = offset_of(self.read(file), row, column)
        for piece in self.pieces:
            if piece["File"] == file and piece["Start"] <= at < piece["End"]:
                return piece, (piece["To"], piece["At"] + at - piece["Start"])
        return None, None

    def out_of(self, place):
        """The piece in which a place of the shuffled client stands, and its offset there."""
        file, row, column = place
        at = offset_of(self.read(file), row, column)
        for piece in self.pieces:
            if piece["To"] == file and piece["At"] <= at < piece["At"] + piece["End"] - piece["Start"]:
                return piece, (file, at)
        return None, None


class Counts:
    """How many lines were had again, and how many differ."""

    def __init__(self, show):
        self.kinds, self.wrong, self.show = collections.Counter(), 0, show

    def fault(self, why, title, *lines):
        self.wrong += 1
        if self.wrong <= self.show:
            print("not the same: %s: %s\n  %s" % (why, title, "\n  ".join(map(str, lines))))

    def twice(self, title, lines, again):
        """The lines of two runs."""
        self.kinds["clients vetted twice"] += 1
        if lines != again:
            self.fault("asked twice", title, lines, again)

    def shuffled(self, title, lines, others, moved):
        """The lines of a client and of the same one shuffled."""
        if len(lines) != len(others):
            self.fault("shuffled", title, lines, others)
        for line, other in zip(lines, others):
            if kind_of(line) != kind_of(other):
                self.fault("shuffled", title, line, other)
                continue
            if not place_of(line):
                self.kinds["lines without a place, shuffled"] += 1
                continue
            piece, wanted = moved.into(place_of(line))
            found, at = moved.out_of(place_of(other))
            if piece is None or found is None:
                self.fault("no declaration is at the place", title, line, other)
            elif wanted == at:
                self.kinds["places moved with their declaration"] += 1
            elif set(piece["Names"] or ()) & set(found["Names"] or ()):
                self.kinds["places at the other declaration of a name"] += 1
            elif at < wanted and (found["File"], found["Start"]) > (piece["File"], piece["Start"]):
                self.kinds["places of another declaration, which stood behind and stands before now"] += 1
            else:
                self.fault("shuffled", title, line, other)

    def tell(self):
        for kind, count in sorted(self.kinds.items()):
            print("%7d again: %s" % (count, kind))
        print("%d not the same" % self.wrong)
        return self.wrong
