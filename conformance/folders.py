"""What the scripts share that run the program on modules in folders: Go's side, the cutter, merged lines, and runs."""
import collections
import os
import re
import shutil
import subprocess
import sys

import go_programs

HERE = os.path.dirname(os.path.abspath(__file__))
TOP = os.path.dirname(HERE)
PLATFORMS = """linux-386 linux-arm windows-386 linux-amd64 linux-arm64 linux-riscv64 linux-s390x android-arm64 darwin-amd64 darwin-arm64
ios-arm64 freebsd-amd64 illumos-amd64 windows-amd64""".split()
# hosts below which a module's path has three elements, where no go.mod says it
LONG = ["github.com", "golang.org", "bitbucket.org", "code.google.com", "launchpad.net"]
PROGRAM = os.path.join(TOP, "crates/apigate/out/apigate")

Answer = collections.namedtuple("Answer", "status lines error")


def add_words(words):
    """The options that say which programs are run."""
    words.add_argument("--program", default=PROGRAM)
    words.add_argument("--go", default="go")
    words.add_argument("--cutter", default=os.path.join(TOP, "tools/stdcut"))
    words.add_argument("--library")


class Tools:
    """Go's side and the cutter, built into a folder."""

    def __init__(self, words, folder, gopath=None):
        self.program, self.go, self.folder, self.kept = words.program, words.go, folder, words.library
        if not os.access(self.program, os.X_OK):
            sys.exit("the program isn't built: ./apigate --build")
        self.settings = dict(os.environ, GO111MODULE="off", GOFLAGS="", GOCACHE=os.environ.get("GOCACHE", os.path.join(folder, "cache")))
        if gopath:
            self.settings["GOPATH"] = gopath
        self.asker, self.cutter = os.path.join(folder, "asker"), os.path.join(folder, "cutter")
        go_programs.build(self.go, "conformance/internal/modules", self.asker, folder)
        subprocess.run([self.go, "build", "-o", self.cutter, "."], check=True, env=dict(self.settings, GO111MODULE="auto"), cwd=words.cutter)
        self.root = subprocess.run([self.go, "env", "GOROOT"], capture_output=True, text=True, check=True).stdout.strip()

    def ask(self, *words, given=""):
        """What Go's side answers."""
        return subprocess.run([self.asker, *words], input=given.encode(), stdout=subprocess.PIPE, check=True, env=self.settings).stdout.decode()

    def listed(self):
        """The import paths of Go's own packages."""
        told = subprocess.run([self.go, "list", "std"], capture_output=True, text=True, check=True, env=self.settings).stdout.split()
        return [path for path in told if path != "unsafe"]

    def cut(self, into, *words):
        """Cuts declarations into a folder, and gives what the cutter told."""
        done = subprocess.run([self.cutter, "--out", into, *words], capture_output=True, text=True, env=self.settings, cwd=self.folder)
        os.makedirs(into, exist_ok=True)
        if done.returncode not in (0, 1):
            raise SystemExit("the cutter: status %d: %s" % (done.returncode, done.stderr[-500:]))
        return done.stderr.splitlines()

    def library(self, into):
        """Go's standard library, cut for all platforms: its folder, and what was left out. It is cut once where a folder for it was named."""
        place = self.kept or into
        told = place.rstrip("/") + ".told"
        if not os.path.exists(told):
            log = self.cut(place, "--platforms", "all", "--whole", ",".join(self.listed()))
            with open(told, "w", encoding="utf-8") as file:
                file.writelines(line + "\n" for line in log)
        with open(told, encoding="utf-8") as file:
            return place, told_of(file.read().splitlines())

    def api(self, root, cut):
        """The command of Go's cmd/api over the cut library: its words, before those that say for which platforms. ROOT becomes a tree of Go's."""
        built = os.path.join(self.folder, "api")
        subprocess.run([self.go, "build", "-o", built, "cmd/api"], check=True, env=self.settings, cwd=self.folder)
        os.makedirs(root)
        for name in os.listdir(self.root):
            if name != "src":
                os.symlink(os.path.join(self.root, name), os.path.join(root, name))
        shutil.copytree(cut, os.path.join(root, "src"))
        os.makedirs(os.path.join(root, "src/unsafe"))
        shutil.copy(os.path.join(self.root, "src/unsafe/unsafe.go"), os.path.join(root, "src/unsafe"))
        with open(os.path.join(root, "src/go.mod"), "w", encoding="utf-8") as file:
            file.write("module std\n\ngo 1.19\n")
        return ["env", "GOROOT=" + root, "GOCACHE=" + self.settings["GOCACHE"], "GO111MODULE=off", "GOFLAGS=", built]

    def run(self, *words, program=None):
        """One run of the program or of another: its status, its report line by line, and what it says on its error output."""
        done = subprocess.run([program or self.program, *words], stdin=subprocess.DEVNULL, capture_output=True)
        assert not done.stdout or done.stdout.endswith(b"\n")
        return Answer(done.returncode, done.stdout.split(b"\n")[:-1], done.stderr.decode(errors="replace"))


def modules_below(path):
    """The modules below a folder of sources, and their folders."""
    found, top = {}, os.path.join(path, "src")
    for at, below, names in os.walk(top):
        below[:] = sorted(name for name in below if not os.path.islink(os.path.join(at, name)) and name not in ("testdata", "vendor") and name[0] not in "._")
        module = os.path.relpath(at, top)
        if "go.mod" in names:
            with open(os.path.join(at, "go.mod"), encoding="utf-8", errors="replace") as file:
                said = re.search(r'^module\s+"?([^"\s]+)', file.read(), re.M)
            found[module] = (said[1] if said else module, at)
        elif any(name.endswith(".go") and not name.endswith("_test.go") for name in names):
            elements = module.split("/")
            if not any("/".join(elements[:count]) in found for count in range(1, len(elements) + 1)):
                count = 3 if elements[0] in LONG else 2
                module = "/".join(elements[:count])
                found[module] = (module, os.path.join(top, module))
    return list(found.values())


def copied(place, into):
    """Copies the files of a module that may be read; gives how many Go files."""
    count = 0
    for at, below, names in os.walk(place):
        below[:] = [name for name in below if not os.path.islink(os.path.join(at, name)) and name not in ("testdata", "vendor")]
        for name in names:
            path = os.path.join(at, name)
            if (name == "go.mod" or name.endswith(".go") and not name.endswith("_test.go")) and os.path.isfile(path) and not os.path.islink(path):
                to = os.path.join(into, os.path.relpath(path, place))
                os.makedirs(os.path.dirname(to), exist_ok=True)
                shutil.copyfile(path, to)
                count += name != "go.mod"
    return count


def renew(folder):
    """Gives the files of a module that have build lines of the old form alone those of the new one, by gofmt."""
    found = []
    for at, _, names in os.walk(folder):
        for name in names:
            with open(os.path.join(at, name), "rb") as file:
                text = file.read()
            if re.search(rb"^// *\+build ", text, re.M) and not re.search(rb"^//go:build ", text, re.M):
                found.append(os.path.join(at, name))
    if found:
        subprocess.run(["gofmt", "-w", *found], capture_output=True, check=False)


def write_module_line(folder, module):
    with open(os.path.join(folder, "go.mod"), "w", encoding="utf-8") as file:
        file.write("module %s\n" % module)


def has_features(answer):
    """Whether an answer of Go's side is a list of feature lines, which may be empty."""
    return not answer["Lines"] or answer["Lines"][0].startswith("pkg ")


def on(line, platform):
    """A feature line with a platform as its context."""
    at = line.index(b",")
    return line[:at] + b" (" + platform.encode() + b")" + line[at:]


def merged(lists):
    """The lines of platforms, by these, in one list: what all have once, and what some have once for each of them."""
    having = collections.defaultdict(list)
    for platform, lines in lists.items():
        for line in set(lines):
            having[line].append(platform)
    found = []
    for line, platforms in having.items():
        found += [line] if len(platforms) == len(lists) else [on(line, platform) for platform in platforms]
    return sorted(found)


def told_of(log):
    """What a cutter left out, by the names of the objects and methods, and why."""
    found = {}
    for line in log:
        at = re.match(r"dropped (\S+): (.*?)(?:, by \S+)?(?: \([^)]*\))?$", line)
        if at:
            found[at[1]] = at[2]
    return found


def lines_of_api(lines):
    """What cmd/api writes where these are the lines of the library as a module: without packages that are internal in the library, and
    without runtime/cgo, which Go's list of the library has only with cgo."""
    moved = (b"pkg " + line.split(b"/", 1)[1] for line in lines)
    return sorted(line for line in moved if b"-open" not in path_of(line) and path_of(line) != b"runtime/cgo")


def path_of(line):
    """The import path of a feature line."""
    return re.match(rb"pkg ([^ ,]+)", line)[1]
