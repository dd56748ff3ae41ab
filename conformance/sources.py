"""What the scripts share that compare many Go sources in one run: the files, spoiled copies, and frames."""
import os
import re
import subprocess
import tempfile

import go_programs

HERE = os.path.dirname(os.path.abspath(__file__))
TOP = os.path.dirname(HERE)
ODD = [b"_", b"0", b"8", b"x", b"e", b".", b"i", b"'", b'"', b"`", b"\\", b"\n", b"\r", b"\0", b"\xff", b"\xef\xbb\xbf", b"/*", b"*/",
       b"//", b"\xc3\xa9", b"p-", b"<-", b"...", b"~", b"08", b"(", b")", b"[", b"]", b"{", b"}", b",", b";", b"=", b":="]
# Near enough to Go's tokens for choosing places.
TOKEN = re.compile(rb'//[^\n]*|/\*.*?\*/|"(?:\\.|[^"\\\n])*"|`[^`]*`|\'(?:\\.|[^\'\\\n])*\'|[A-Za-z_\x80-\xff][\w\x80-\xff]*|[0-9][\w.]*'
                   rb'|<<=|>>=|&\^=|\.\.\.|&&|\|\||<-|\+\+|--|[-+*/%&|^=!<>:]=|<<|>>|&\^|[^\s]|\n', re.S)


def go_files(go, folders):
    """The Go files of the folders, or of the sources and tests of the command's own tree."""
    if not folders:
        root = subprocess.run([go, "env", "GOROOT"], capture_output=True, text=True, check=True).stdout.strip()
        folders = [os.path.join(root, name) for name in ("src", "test")]
    found = set()
    for folder in folders:
        for place, _, names in os.walk(os.path.realpath(folder)):
            found |= {os.path.join(place, name) for name in names if name.endswith(".go")}
    return sorted(path for path in found if os.path.isfile(path))


def build_oracle(go, folder):
    """The program that asks Go's scanner and parser, built into this folder."""
    return go_programs.build(go, "conformance/internal/oracle", os.path.join(folder, "oracle"), folder)


def spoiled_bytes(draw, data):
    """One to three places with bytes dropped, doubled, swapped or put in."""
    data = bytearray(data)
    for _ in range(draw.randrange(1, 4)):
        at = draw.randrange(len(data) + 1)
        most = min(len(data), at + draw.randrange(1, 4))
        choice = draw.randrange(4)
        if choice == 0:
            del data[at:most]
        elif choice == 1:
            data[at:at] = data[at:most]
        elif choice == 2 and at + 1 < len(data):
            data[at], data[at + 1] = data[at + 1], data[at]
        else:
            data[at:at] = draw.choice(ODD)
    return bytes(data)


def outer_tokens(data):
    """The places of the tokens, near enough, that stand outside the bodies of a file in Go's layout."""
    spans, start = [], 0
    for body in re.finditer(rb"^func [^\n]*\{\n(?:.*?\n)?\}", data, re.S | re.M):
        head = data.index(b"\n", body.start())
        spans.append((start, head))
        start = body.end()
    spans.append((start, len(data)))
    return [found.span() for low, high in spans for found in TOKEN.finditer(data, low, high)]


def spoiled_tokens(draw, data, places):
    """One or two tokens dropped, doubled, swapped with the next, or replaced by another token of the file."""
    for at, end in sorted({draw.choice(places) for _ in range(draw.choice([1, 1, 2]))}, reverse=True):
        choice = draw.randrange(5)
        text = data[at:end]
        if choice == 0:
            data = data[:at] + data[end:]
        elif choice == 1:
            data = data[:end] + b" " + text + data[end:]
        elif choice == 2:
            after = TOKEN.search(data, end)
            if after:
                data = data[:at] + after.group() + data[end:after.start()] + text + data[after.end():]
        elif choice == 3:
            other = places[draw.randrange(len(places))]
            data = data[:at] + data[other[0]:other[1]] + data[end:] if other[1] <= len(data) else data
        else:
            data = data[:at] + draw.choice([b"(", b")", b"[", b"]", b"{", b"}", b",", b";", b"=", b":", b"...", b"*", b"<-", b"chan ", b"func",
                                            b"func()", b"struct{", b"interface{", b"[...]", b"[]", b"map[", b"~", b"|", b".", b"type ",
                                            b"const ", b"var ", b"(int)", b"[int]", b"1", b'"a"', b"_ "]) + data[at:]
    return data


def unescaped(text):
    """The bytes that a text with escapes stands for, as the crate frames has them."""
    meant = {b"n": b"\n", b"r": b"\r", b"t": b"\t", b"\\": b"\\"}
    return re.sub(rb"\\(?:([nrt\\])|x([0-9a-f]{2}))", lambda found: meant[found[1]] if found[1] else bytes([int(found[2], 16)]), text)


def stored(crate):
    """The questions and sources of a program's stored run, and its answers, which stand in parts between comments."""
    folder = os.path.join(TOP, "crates", crate)
    asked = []
    with open(os.path.join(folder, "stdin"), "rb") as file:
        for line in file:
            if line.startswith(b"#"):
                continue
            words, is_escaped, text = line.rstrip(b"\n").partition(b"> ")
            asked.append((words, unescaped(text)) if is_escaped else (b"", file.read(int(line))))
    with open(os.path.join(folder, "stdout"), "rb") as file:
        return asked, [line for line in file if not line.startswith(b"#")]


def stored_trees(word):
    """The trees of the stored run of `units` of which a question asks by this word, each behind its heading."""
    found, lines = [], []
    with open(os.path.join(TOP, "crates/units/stdin"), encoding="utf-8") as file:
        for line in file.read().splitlines():
            if line.startswith("#"):
                heading = line
                continue
            lines.append(line)
            if line.startswith(("units ", "features ")):
                found += [[heading] + lines] if line.startswith(word + " ") else []
                lines = []
    return found


class Frames:
    """Sources as frames in a temporary file."""

    def __init__(self):
        self.file = tempfile.TemporaryFile()
        self.count = 0

    def add(self, data):
        self.file.write(b"%d\n" % len(data) + data)
        self.count += 1

    def add_question(self, words, data):
        """The source on one line, after a question."""
        self.file.write(words + b"> " + data.replace(b"\\", b"\\\\").replace(b"\n", b"\\n") + b"\n")
        self.count += 1

    def source(self, number):
        """The source of this number, from 0."""
        self.file.seek(0)
        for _ in range(number):
            self.file.seek(int(self.file.readline()), os.SEEK_CUR)
        return self.file.read(int(self.file.readline()))

    def sources(self, numbers):
        """The sources of these ascending numbers."""
        self.file.seek(0)
        wanted = set(numbers)
        for number in range(self.count):
            data = self.file.read(int(self.file.readline()))
            if number in wanted:
                yield data

    def ask(self, commands):
        """The outputs of the commands, which run side by side."""
        self.file.flush()
        runs = []
        for command in commands:
            out = tempfile.TemporaryFile()
            given = open("/proc/self/fd/%d" % self.file.fileno(), "rb")
            runs.append((command, subprocess.Popen(command, stdin=given, stdout=out), out))
            given.close()
        answers = []
        for command, child, out in runs:
            if child.wait() != 0:
                raise SystemExit("%s: status %d" % (" ".join(command), child.returncode))
            out.seek(0)
            answers.append(out.read())
        return answers
