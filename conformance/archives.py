"""The cases of crates/cases/data for scripts that run the program itself: what each has in its rows, in the form that README.md there tells."""
import collections
import glob
import os
import re

import sources

FOLDER = os.path.join(sources.TOP, "crates/cases/data")
MARKER = re.compile(r"-- (.+) --$")
HOW = re.compile(r"(.*) \(([^()]*)\)$")

Piece = collections.namedtuple("Piece", "line name how body")


def pieces_of(path):
    """The sections of an archive."""
    found = []
    with open(path, encoding="utf-8") as file:
        for number, line in enumerate(file.read().splitlines(keepends=True), 1):
            marker = MARKER.match(line.rstrip("\n"))
            if not marker:
                found and found[-1].body.append(line)
                continue
            told = None if marker[1].startswith("case ") else HOW.match(marker[1])
            found.append(Piece(number, told[1] if told else marker[1], told[2].split(", ") if told else [], []))
    return found


def unescaped(text):
    """The bytes that a text with escapes stands for."""
    return sources.unescaped(re.sub(rb"\\(?:\\|e|\n)", lambda it: it[0] if it[0] == b"\\\\" else b"", text))


class Case:
    """A case of an archive: its title, and the contents of its sections."""

    def __init__(self, archive, title, shared, own):
        self.archive, self.title, hidden = archive, title, False
        self.sections = []
        for piece in shared:
            hidden = any(it.name == piece.name for it in own) if piece.name != "and" else hidden
            self.add(None if hidden else piece)
        for piece in own:
            self.add(piece)
        counts = [len("".join(it.body).splitlines()) for section in self.sections for it in section if "each line" in it.how]
        self.rows = counts[0] if counts else 1

    def add(self, piece):
        if piece and piece.name == "and":
            self.sections[-1].append(piece)
        elif piece:
            self.sections.append([piece])

    def text(self, piece, row):
        """One copy of a piece."""
        if "each line" in piece.how:
            return unescaped("".join(piece.body).split("\n")[row].encode())
        text = "".join(piece.body).encode()
        return unescaped(text) if "escaped" in piece.how else text

    def content(self, section, row):
        """The bytes of a section."""
        whole = b""
        for piece in section:
            text, copies = self.text(piece, row), [it for it in piece.how if it.endswith(" times") or " to " in it]
            if not copies:
                whole += text
            elif copies[0].endswith(" times"):
                whole += text * int(copies[0].split()[0])
            else:
                first, last = copies[0].split(" to ")
                whole += b"".join(text.replace(b"#", b"%d" % number) for number in range(int(first), int(last) + 1))
        return whole

    def named(self, name, row=0):
        """The bytes of the section of this name, or none."""
        found = [section for section in self.sections if section[0].name == name and "file" not in section[0].how]
        return self.content(found[0], row) if found else b""

    def has(self, *names):
        return any(section[0].name in names for section in self.sections)

    def words(self, row=0):
        """The words of the run."""
        found = []
        for piece in next(section for section in self.sections if section[0].name == "words"):
            text = "".join(piece.body).encode()
            if "each line" in piece.how:
                found += [unescaped(word) for word in text.split(b"\n")[row].split(b" ")] if text.split(b"\n")[row] else []
            else:
                found += [unescaped(word) if "escaped" in piece.how else word for word in text.split(b"\n")[:-1]]
        return found

    def files(self, row=0):
        """The files of the store, by their paths."""
        found = {}
        for section in self.sections:
            first = section[0]
            if first.name.startswith("case ") or "absent" in first.how or not ("file" in first.how or "/" in first.name):
                continue
            name = unescaped(first.name.encode()) if "escaped name" in first.how else first.name.encode()
            copies = [it for it in first.how if " to " in it]
            if not (copies and b"#" in name):
                found[name] = self.content(section, row)
                continue
            low, high = copies[0].split(" to ")
            for number in range(int(low), int(high) + 1):
                digits = b"%d" % number
                found[name.replace(b"#", digits)] = self.text(first, row).replace(b"#", digits) + self.content(section[1:], row)
        return found


def cases_of(path):
    """The cases of an archive, in order."""
    pieces, name = pieces_of(path), os.path.basename(path)
    starts = [at for at, piece in enumerate(pieces) if piece.name.startswith("case ")] + [len(pieces)]
    if len(starts) == 1:
        return [Case(name, "", [], pieces)]
    return [Case(name, pieces[low].name[len("case "):], pieces[:starts[0]], pieces[low + 1:high]) for low, high in zip(starts, starts[1:])]


def archives():
    """The paths of the archives."""
    return sorted(glob.glob(os.path.join(FOLDER, "*.txtar")))


def write(folder, files):
    """Writes files into a folder."""
    for name, content in files.items():
        path = os.path.join(os.fsencode(folder), name)
        os.makedirs(os.path.dirname(path), exist_ok=True)
        with open(path, "wb") as file:
            file.write(content)
