"""Asks apigate for the features of trees that are told line by line, as the crate units reads them, and tells its answers as that does."""
import concurrent.futures
import os
import re
import shutil
import subprocess
import tempfile

# why a tree is refused, in the words of a fault line and of the crate units
WHY = {"declaration has no typing": "no typing", "declared twice": "declared twice", "import not found": "import not found",
       "internal package": "internal import", "not a token": "no token", "not in the grammar of this profile": "not in the grammar",
       "two go:build lines": "two build lines", "go:build line not understood": "bad build expression",
       "+build without go:build": "a plus line alone", "two package names": "several package names", "import cycle": "import cycle"}


def case_of(lines):
    """The files of a case by their paths, with new/ or std/ before these, and the platform."""
    files, place, platform = {}, None, None
    for line in lines:
        word, _, rest = line.partition(" ")
        if line.startswith("|"):
            files[place].append(line[1:])
        elif word in ("new", "std"):
            place = "%s/%s" % (word, rest)
            files[place] = []
        elif word == "features":
            platform = rest
        elif line:
            raise ValueError("not of a case of features: " + line)
    return {place: "".join(line + "\n" for line in text) for place, text in files.items()}, platform


def cases_of(text):
    """The lines of each case, without its heading."""
    return [part.split("\n")[1:] for part in re.split(r"^(?=#)", text, flags=re.M)[1:]]


def offset_of(text, line, column):
    """The offset of a place in a file."""
    return sum(len(one) + 1 for one in text.encode().split(b"\n")[:line - 1]) + column - 1


def refusal_of(files, line):
    """A fault line, told as the crate units does."""
    found = re.match(r"apigate: new \S+: (?P<file>\S+?)(?::(?P<line>\d+):(?P<column>\d+))?: (?P<why>.*)$", line)
    if not found or found["why"] not in WHY:
        return line
    why, module, of_std = WHY[found["why"]], files["new/go.mod"].split()[1], found["file"].startswith("std:")
    place = found["file"].removeprefix("std:")
    path = ("std/" if of_std else "new/") + place
    if path not in files:
        return "%s: %s" % (place, why)
    folder = os.path.dirname(place)
    told = "%s %s: %s" % (folder if of_std else "/".join(filter(None, [module, folder])), place, why)
    return told + " at %d" % offset_of(files[path], int(found["line"]), int(found["column"])) if found["line"] else told


class ByFolders:
    """The program, which is run once for each tree, in a folder."""

    def __init__(self, program, jobs=2):
        self.program, self.pool = program, concurrent.futures.ThreadPoolExecutor(jobs)
        self.top = "/dev/shm" if os.path.isdir("/dev/shm") else None

    def answer(self, lines):
        """What it says of a case, line by line."""
        files, platform = case_of(lines)
        top = tempfile.mkdtemp(dir=self.top)
        try:
            for place, text in files.items():
                path = os.path.join(top, place)
                os.makedirs(os.path.dirname(path), exist_ok=True)
                with open(path, "wb") as file:
                    file.write(text.encode())
            words = ["features", "--new", top + "/new", "--std", top + "/std", "--platforms", platform]
            ran = subprocess.run([self.program, *words], stdin=subprocess.DEVNULL, capture_output=True, check=False)
        finally:
            shutil.rmtree(top)
        if ran.returncode == 3:
            return [refusal_of(files, ran.stderr.decode().rstrip("\n"))]
        if ran.returncode or ran.stderr:
            return ["status %d: %s" % (ran.returncode, ran.stderr.decode())]
        return ran.stdout.decode().split("\n")[:-1]

    def answers(self, text):
        return list(self.pool.map(self.answer, cases_of(text)))
