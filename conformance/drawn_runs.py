"""Runs whose trees come from the archives of crates/cases/data and from the ordinary module, and such in which platforms choose which files, for scripts that run the program."""
import collections

import archives
import ordinary
import sources
from folders import PLATFORMS

SUFFIXES = ["_linux", "_windows", "_arm64", "_amd64", "_darwin_arm64", "_386"]
LINES = ["linux", "!windows", "arm64 || s390x", "386 || arm", "unix && !darwin", "!amd64"]
Run = collections.namedtuple("Run", "name words files")


def without(words, option):
    """The words without an option and its value."""
    at = words.index(option) if option in words else len(words)
    return words[:at] + words[at + 2:]


def standing():
    """The runs of the archives and of the ordinary module."""
    files = ordinary.files()
    for mode, words in ordinary.MODES.items():
        yield Run(mode + ", an ordinary module", without(words.encode().split(), b"--workers"), files)
    for path in archives.archives():
        for number, case in enumerate(archives.cases_of(path)):
            words = case.words() if case.has("words") else []
            if words and not case.has("load", "archive", "fails", "capacity", "made", "tries", "differs", "faults") and b"\0" not in b"".join(words) and case.named("status").strip() in (b"0", b"1", b"3"):
                run = Run("%s, case %d" % (case.archive, number + 1), without(words, b"--workers"), case.files())
                # names that no folder takes, and trees of many files
                if len(run.files) < 2000 and all(b"\0" not in name and max(map(len, name.split(b"/"))) < 256 and len(name) < 3000 for name in run.files):
                    yield run


def with_trees(runs):
    """Those of the runs whose trees are small and have a new one with a file."""
    return [run for run in runs if any(name.startswith(b"new/") and name.endswith(b".go") for name in run.files) and sum(map(len, run.files.values())) < 100000]


def both_trees(run):
    """The files of the old tree of a run, or else copies of the new ones, those of the new tree, and those of the standard library."""
    new = {name: text for name, text in run.files.items() if name.startswith(b"new/")}
    old = {name: text for name, text in run.files.items() if name.startswith(b"old/")} or {b"old" + name[len(b"new"):]: text for name, text in new.items()}
    return old, new, {name: text for name, text in run.files.items() if name.startswith(b"std/")}


def changed(draw, name, text):
    """The file under a name, or with a build line, that only some platforms choose."""
    choice = draw.randrange(4)
    if choice == 0:
        return name[: -len(b".go")] + draw.choice(SUFFIXES).encode() + b".go", text
    if choice == 1:
        return name, b"//go:build " + draw.choice(LINES).encode() + b"\n\n" + text
    if choice == 2:
        return name, sources.spoiled_bytes(draw, text) if text and draw.randrange(4) == 0 else text
    return name, text


def drawn(draw, pool):
    """A run whose trees differ from one of the pool in which platforms choose which files."""
    run = draw.choice(pool)
    old, new, files = both_trees(run)
    for name, text in {**old, **new}.items():
        name, text = changed(draw, name, text) if name.endswith(b".go") else (name, text)
        files[name] = text
    mode = draw.choice(["features", "judge", "judge", "judge", "advise", "skipped"])
    words = [mode.encode(), b"--new", b"new"] + ([b"--old", b"old"] if mode in ("judge", "advise") else []) + ([b"--version", b"v1.2.3"] if mode == "advise" else [])
    words += [b"--std", b"std"] if any(name.startswith(b"std/") for name in files) else []
    platforms = draw.sample(PLATFORMS, draw.randrange(1, len(PLATFORMS) + 1))
    return Run("drawn from " + run.name, words + [b"--platforms", ",".join(platforms).encode()], files)
