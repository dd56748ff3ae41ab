"""Modules at hand as an old and a new tree, with the packages that they import cut out of Go's library and other modules."""
import os
import re
import shutil
import subprocess

from comparing import settings

MOST_FILE, MOST_BYTES, MOST_FILES, MOST_PACKAGES = 4_194_304, 67_108_864, 20_000, 4_096
MORE = "package %s\n\ntype MoreOfOld struct{ A, B int }\n\nfunc (*MoreOfOld) M(a MoreOfOld) error\n\nfunc FuncOfOld(a ...MoreOfOld) *MoreOfOld\n"


def sources(folder):
    """The sizes of the files that apigate may read of a module, by their paths below it."""
    found = {}
    for at, folders, names in os.walk(folder):
        if at != folder and "go.mod" in names:
            folders[:] = []
            continue
        folders[:] = [name for name in folders if name[0] not in "._" and name not in ("testdata", "vendor")]
        for name in names:
            path = os.path.join(at, name)
            if os.path.isfile(path) and (name == "go.mod" or name.endswith(".go") and not name.endswith("_test.go") and name[0] not in "._"):
                found[os.path.relpath(path, folder)] = os.path.getsize(path)
    return found


def is_within(sizes):
    """Whether a module is within the limits of a tree."""
    return (max(sizes.values(), default=0) <= MOST_FILE and sum(sizes.values()) <= MOST_BYTES and len(sizes) <= MOST_FILES
            and len({os.path.dirname(path) for path in sizes}) <= MOST_PACKAGES)


def at_hand(words):
    """The modules in Go's module cache and below GOPATH that are within the limits, the largest first: their bytes, the path, and
    the folders of one or two versions."""
    cache = subprocess.run([words.go, "env", "GOMODCACHE"], stdout=subprocess.PIPE, text=True, check=True).stdout.strip()
    versions = {}
    for top in cache, os.path.join(words.gopath, "src"):
        for at, folders, names in os.walk(top):
            if "go.mod" in names:
                versions.setdefault(re.sub(r"@[^/]*", "", os.path.relpath(at, top)), []).append(at)
                folders[:] = []
            elif at == cache:
                folders[:] = [name for name in folders if name != "cache"]
    found = []
    for path, places in versions.items():
        sized = [(sources(place), place) for place in sorted(places)]
        good = [(sum(sizes.values()), place) for sizes, place in sized if len(sizes) > 1 and is_within(sizes)]
        if good:
            found.append((max(size for size, _ in good), path, [place for _, place in good][-2:]))
    return sorted(found, reverse=True)


def copy(folder, to):
    """Copies what apigate may read of a module; gofmt gives files that have build lines of the old form alone those of the new one."""
    old_form = []
    for path in sources(folder):
        place = os.path.join(to, path)
        os.makedirs(os.path.dirname(place), exist_ok=True)
        shutil.copyfile(os.path.join(folder, path), place)
        with open(place, "rb") as file:
            text = file.read()
        if re.search(rb"^// *\+build ", text, re.M) and not re.search(rb"^//go:build ", text, re.M):
            old_form.append(place)
    if old_form:
        subprocess.run(["gofmt", "-w", *old_form], check=True)


def add_more(folder):
    """Gives each package of a module a type and a function more."""
    named = {}
    for path in sorted(sources(folder)):
        with open(os.path.join(folder, path), encoding="utf-8", errors="replace") as file:
            text = file.read()
        clause = re.search(r"^package (\w+)", text, re.M)
        if path.endswith(".go") and clause and clause[1] != "main" and not re.search(r"^(//go:build|// \+build) ", text, re.M):
            named[os.path.dirname(path)] = clause[1]
    for place, name in named.items():
        with open(os.path.join(folder, place, "more_of_old.go"), "w", encoding="utf-8") as file:
            file.write(MORE % name)


def largest(comparison):
    """The largest module at hand that apigate can judge: its path, an old and a new tree, and the folder of what they import. Where
    there is one version alone, the old one is a copy with more in each package."""
    for number, (_, path, places) in enumerate(at_hand(comparison.words)):
        here = os.path.join(comparison.top, "module%d" % number)
        old, new, std = (os.path.join(here, name) for name in ("old", "new", "std"))
        copy(places[0], old)
        copy(places[-1], new)
        if len(places) == 1:
            add_more(old)
        env = settings(comparison.words, comparison.top)
        cut = subprocess.run([comparison.cutter, "--platforms", "linux-amd64", "--out", std, old, new], env=env, capture_output=True, text=True, check=False)
        why = "its imports aren't cut: " + "".join(line for line in cut.stderr.splitlines(True) if line.startswith("fault"))[:200].strip()
        if cut.returncode == 0:
            words = [comparison.program, "judge", "--old", old, "--new", new, "--std", std]
            judged = subprocess.run(words, stdout=subprocess.DEVNULL, stderr=subprocess.PIPE, text=True, check=False)
            if judged.returncode in (0, 1):
                return path, old, new, std
            why = judged.stderr.strip()
        print("%s isn't judged: %s" % (path, why), flush=True)
        shutil.rmtree(here)
    return None
