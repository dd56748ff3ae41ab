"""The folder for --std: the declarations of other packages, cut by tools/stdcut once for what decides about them, and kept in the user's
cache."""
import contextlib
import functools
import hashlib
import json
import os
import subprocess
import time

import cache
import gating
import go_command
import modules
import places

# the sources of the Go programs of this repository that are built here
SOURCES = {"stdcut": ["go.mod", "tools/stdcut", "internal/trees"], "explain": ["go.mod", "tools/explain", "internal/profile", "internal/trees", "internal/typed", "internal/reasons"]}


class Cut:
    """The declarations of a judgement: the folder, what the cutter said, how they came about, of which trees, and the digest of the old one."""

    def __init__(self, folder, lines, go, told, trees, digest):
        self.folder, self.lines, self.go, self.told, self.trees, self.digest = folder, lines, go, told, trees, digest


def sources(program):
    """The files that one of these programs is made of."""
    for name in SOURCES[program]:
        path = os.path.join(gating.TOP, name)
        yield from [path] if os.path.isfile(path) else sorted(os.path.join(path, it) for it in os.listdir(path) if it.endswith(".go"))


def built(program, room, known):
    """Builds a Go program of this repository, or takes the one that was built of the same sources by the same Go."""
    sums = hashlib.sha256()
    for path in sources(program):
        sums.update(os.path.relpath(path, gating.TOP).encode() + b"\0" + modules.content(path) + b"\0")
    digest = hashlib.sha256((sums.hexdigest() + known["GOVERSION"] + known["GOROOT"]).encode()).hexdigest()
    place = os.path.join(cache.folder("tools") or room, program + "-" + digest[:16])
    if not os.access(place, os.X_OK):
        made = os.path.join(room, program)
        settings = {**os.environ, "GO111MODULE": "on", "GOFLAGS": "", "GOWORK": "off", "GOTOOLCHAIN": "local", "GOTMPDIR": room}
        if subprocess.run(["go", "build", "-o", made, "./tools/" + program], cwd=gating.TOP, env=settings, check=False).returncode:
            raise gating.Stop("tools/%s can't be built" % program)
        places.put(place, modules.content(made), 0o755)
    return place, digest


def stamps(folder):
    """What tells whether the Go files of a folder are the same as before."""
    try:
        with os.scandir(folder) as found:
            return sorted([each.name, told.st_size, told.st_mtime_ns] for each in found if each.name.endswith(".go") for told in [each.stat()])
    except OSError:
        return None


def fault(ran):
    """Why the cutter ended: its last line, or what Go's runtime says where that ended it."""
    lines = ran.stderr.strip().splitlines() or ["it ended with %d" % ran.returncode]
    fatal = [line for line in lines if line.startswith("fatal error: ")]
    return gating.Stop("tools/stdcut: " + gating.shown((fatal or lines[-1:])[0].removeprefix("stdcut: ")))


def look(room, trees):
    """What the cutter sees in trees: a digest of what decides about the declarations, and of each a digest of all that apigate reads, with the
    files that have build lines of the old form alone. What it saw in a file is remembered while that stays as it is."""
    program, digest = built("stdcut", room, go_command.settings({}))
    store = cache.folder("digests")
    kept = ["--digests", os.path.join(store, cache.name_of(digest, modules.path_of(trees[-1])))] if store else []
    ran = gating.within([program, "--key", *kept, *trees], text=True, errors="replace")
    if ran.returncode:
        raise fault(ran)
    if store:
        cache.forget(store)
    return json.loads(ran.stdout)


# one look at trees that nothing in a run changes
looked = functools.cache(look)


def key(digest, known, platforms, trees, seen):
    """The digest of what decides which declarations are cut."""
    sums = hashlib.sha256(json.dumps([digest, known, platforms, seen]).encode())
    for tree in trees:
        work = go_command.workspace(tree)
        for path in [os.path.join(tree, "go.mod"), os.path.join(tree, "go.sum"), os.path.join(tree, "vendor", "modules.txt"), work]:
            sums.update(modules.content(path) if path and os.path.isfile(path) else b"-")
            sums.update(b"\0")
    return sums.hexdigest()[:32]


def run(program, platforms, folder, trees, settings):
    """Cuts; returns what the cutter said."""
    words = [program, "--platforms", platforms, "--out", os.path.join(folder, "std"), "--read", os.path.join(folder, "read"), *trees]
    # what the commands of go that it runs leave behind where it is ended goes with the folder
    ran = gating.within(words, env={**os.environ, "GOTMPDIR": folder, **settings}, text=True, errors="replace")
    if ran.returncode == 2 or not os.path.isdir(os.path.join(folder, "std")):
        raise fault(ran)
    return ran.stderr.strip().splitlines()


def fresh(place):
    """What was kept at a place, where all that was read for it is as it was."""
    try:
        with open(os.path.join(place, "told.json"), encoding="utf-8") as file:
            told = json.load(file)
        if any(stamps(folder) != was for folder, was in told["read"].items()):
            return None
        os.utime(place)
        return told["lines"]
    except (OSError, ValueError, KeyError, AttributeError, TypeError):
        return None


def keep(store, made, place, lines):
    """Puts what was cut into the cache, whole or not at all; what depends on a package that wasn't found isn't kept."""
    if any(line.startswith("fault ") for line in lines):
        return os.path.join(made, "std")
    with open(os.path.join(made, "read"), encoding="utf-8") as file:
        read = {folder: stamps(folder) for folder in file.read().split("\n") if folder}
    with open(os.path.join(made, "told.json"), "w", encoding="utf-8") as file:
        json.dump({"lines": lines, "read": read}, file)
    import shutil
    import tempfile
    waits = tempfile.mkdtemp(dir=store, prefix=".made-")
    try:
        shutil.copytree(made, os.path.join(waits, "it"))
        if os.path.isdir(place):
            os.rename(place, os.path.join(waits, "old"))
        os.rename(os.path.join(waits, "it"), place)
        cache.forget(store)
        return os.path.join(place, "std")
    except OSError:
        return os.path.join(made, "std")
    finally:
        shutil.rmtree(waits, ignore_errors=True)


def promised(room, cut, platforms):
    """The features of the old tree: those of before, where program, declarations, platforms and tree are the same and the declarations are kept."""
    program, store, old = gating.ready(), cache.folder("promises"), cut.trees[0]
    if not store or os.path.dirname(os.path.dirname(cut.folder)) != cache.folder("declarations") or not go_command.is_program(program):
        return gating.promised(cut.folder, platforms, old)
    place = os.path.join(store, cache.name_of(os.path.basename(os.path.dirname(cut.folder)), platforms, hashlib.sha256(modules.content(program)).hexdigest(), cut.digest))
    try:
        found = modules.content(place).decode()
        os.utime(place)
    except (OSError, ValueError):
        found = gating.promised(cut.folder, platforms, old)
        if look(room, cut.trees)["trees"][0]["digest"] == cut.digest:
            with contextlib.suppress(OSError):
                places.put(place, found.encode())
                cache.forget(store)
    return found


def of_client(room, platforms, old, new, client):
    """Cuts what a client and both trees need of other packages: the folder, and what the cutter said. Nothing of it is kept."""
    program, _ = built("stdcut", room, go_command.settings({}))
    lines = run(program, platforms, room, ["--client", client, *([new] if old == new else [old, new])], {})
    return os.path.join(room, "std"), lines


def cut(room, platforms, old, new, settings=None):
    """Cuts what both trees need of other packages, or takes what was cut of the same before."""
    for tree in old, new:
        gating.check_module(tree)
    settings = settings or {}
    begun, known = time.monotonic(), go_command.settings(settings)
    program, digest = built("stdcut", room, known)
    trees = [new] if old == new else [old, new]
    store, seen = cache.folder("declarations"), looked(room, tuple(trees))
    place = os.path.join(store, key(digest, known, platforms, trees, seen["key"])) if store else ""
    lines = fresh(place) if store else None
    if lines is not None:
        return Cut(os.path.join(place, "std"), lines, known["GOVERSION"], "kept from before", trees, seen["trees"][0]["digest"])
    import tempfile
    made = tempfile.mkdtemp(dir=room, prefix="declarations-")
    lines = run(program, platforms, made, trees, settings)
    folder = keep(store, made, place, lines) if store else os.path.join(made, "std")
    return Cut(folder, lines, known["GOVERSION"], "cut in %.1f s" % (time.monotonic() - begun), trees, seen["trees"][0]["digest"])
