"""What the scripts share that run apigate beside Go's own tools over the same trees."""
import argparse
import os
import subprocess

from measuring import TOP, best_of
import go_programs

MOST_GROWTH = 2.3


def settings(words, top):
    """Go's environment for code below GOPATH; nothing is fetched."""
    return dict(os.environ, GO111MODULE="off", GOFLAGS="", GOPATH=words.gopath, GOCACHE=os.path.join(top, "cache"))


def asked(about):
    """The options that these scripts have in common."""
    words = argparse.ArgumentParser(description=about, formatter_class=argparse.RawDescriptionHelpFormatter)
    words.add_argument("--runs", type=int, default=3)
    words.add_argument("--no-module", action="store_true")
    words.add_argument("--go", default="go")
    words.add_argument("--gopath", default="/usr/share/gocode")
    return words


def numbers(output):
    """The numbers of a report by their words."""
    return {line.split()[0]: int(line.split()[1]) for line in output.decode().splitlines() if line.split()[-1].isdigit()}


def write(top, files):
    """Writes files by their paths below a folder."""
    for path, text in files.items():
        os.makedirs(os.path.dirname(os.path.join(top, path)), exist_ok=True)
        with open(os.path.join(top, path), "w", encoding="utf-8") as file:
            file.write(text)


class Comparison:
    """Builds apigate and, in the folder TOP, Go's side and tools/stdcut; apidiff has to be below GOPATH."""

    def __init__(self, words, top):
        self.words, self.top, self.missed = words, top, []
        subprocess.run([os.path.join(TOP, "apigate"), "--build"], check=True)
        self.program = os.path.join(TOP, "crates/apigate/out/apigate")
        self.comparer, self.cutter = os.path.join(top, "comparer"), os.path.join(top, "cutter")
        go_programs.build(words.go, "bench/internal/compare", self.comparer, top, words.gopath)
        subprocess.run([words.go, "build", "-o", self.cutter, "."], check=True, env=settings(words, top), cwd=os.path.join(TOP, "tools", "stdcut"))

    def beside(self, name, words, trees, before=None, most=None):
        """Runs apigate with these words and Go's side over the trees, prints what both take, and gives apigate's run and what Go
        found. BEFORE is the run at half of the size, and MOST the ratios of time and memory that are wanted."""
        run = best_of([self.program] + words, self.words.runs, statuses=(0, 1))
        other = best_of([self.comparer] + trees, self.words.runs)
        ratios = run.processor / other.processor, run.peak / other.peak
        text = "%s: %.2f s, peak %.0f MB" % (name, run.processor, run.peak / 1e6)
        if before:
            growth = run.processor / before.processor
            text += ", growth %.2f" % growth
            if growth > MOST_GROWTH:
                self.missed.append("%s: growth %.2f" % (name, growth))
        print("%s; Go: %.2f s, peak %.0f MB: ratios %.2f and %.2f" % (text, other.processor, other.peak / 1e6, *ratios), flush=True)
        for what, ratio, limit in zip(("time", "memory"), ratios, most or ()):
            if ratio > limit:
                self.missed.append("%s: %.2f of Go's %s" % (name, ratio, what))
        return run, numbers(other.output)

    def verdict(self, name, run, found):
        """Holds the verdict against apidiff's."""
        if (b": incompatible\n" in run.output) != (found["breaks"] > 0):
            self.missed.append("%s: another verdict than apidiff's, which has %d breaks" % (name, found["breaks"]))

    def ended(self):
        """Says what is missed, and gives the status."""
        print("all hold" if not self.missed else "missed:\n  " + "\n  ".join(self.missed))
        return 1 if self.missed else 0
