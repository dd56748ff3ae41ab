"""What is kept in the user's cache from one run to the next, a folder for each kind of thing, and how a file is told from another one without reading it."""
import contextlib
import errno
import functools
import hashlib
import json
import os
import sys

import gating

sys.path.append(os.path.join(gating.TOP, "tools"))
import places

# how many things of a kind are kept: those that were used last
MOST = 32


@functools.cache
def folder(kind):
    """The folder for things of a kind, or None where none can be used."""
    found = places.cache("0")
    if not found:
        return None
    place = os.path.join(os.path.dirname(found[0]), kind)
    try:
        os.makedirs(place, exist_ok=True)
        if not os.access(place, os.W_OK | os.X_OK):
            raise PermissionError(errno.EACCES, os.strerror(errno.EACCES))
        return place
    except OSError as error:
        tell_once("note: nothing is kept: %s: %s; XDG_CACHE_HOME may name another folder" % (gating.shown(os.path.dirname(place)), error.strerror))
        return None


@functools.cache
def tell_once(text):
    gating.say(text)


def name_of(*parts):
    """A name for what these decide."""
    return hashlib.sha256(json.dumps(parts).encode()).hexdigest()[:32]


def forget(place):
    """Removes what was used longest ago."""
    with contextlib.suppress(OSError):
        names = os.listdir(place)
        if len(names) <= MOST:
            return
        import shutil
        found = sorted((os.path.join(place, name) for name in names), key=os.path.getmtime)
        for each in found[:-MOST]:
            if os.path.isdir(each):
                shutil.rmtree(each, ignore_errors=True)
            else:
                os.remove(each)


def told(kind, name):
    """What was kept as a value, or None."""
    place = folder(kind)
    if not place:
        return None
    try:
        with open(os.path.join(place, name), encoding="utf-8") as file:
            return json.load(file)
    except (OSError, ValueError):
        return None


def tell(kind, name, value):
    """Keeps a value."""
    place = folder(kind)
    if place:
        with contextlib.suppress(OSError):
            places.put(os.path.join(place, name), json.dumps(value).encode())
            forget(place)


def stamp(path):
    """What is another one once a file was changed, or None where there is no file."""
    try:
        return numbers(os.stat(path))
    except OSError:
        return None


def numbers(seen):
    return [seen.st_dev, seen.st_ino, seen.st_size, seen.st_mtime_ns, seen.st_ctime_ns]


def stamps_below(top):
    """A digest that is another one once anything below a folder was changed, wherever the folder itself stands."""
    found, waits, here = [], [top], len(top)
    while waits:
        at = waits.pop()
        with os.scandir(at) as entries:
            for each in entries:
                if each.is_dir(follow_symlinks=False):
                    waits.append(each.path)
                    found.append((each.path[here:], 0))
                else:
                    found.append((each.path[here:], *numbers(each.stat(follow_symlinks=False))))
    return hashlib.sha256(repr(sorted(found)).encode("utf-8", "surrogateescape")).hexdigest()


def tree(name):
    """A tree that was kept, where nothing of it has changed, or nothing."""
    store = folder("trees")
    if not store:
        return ""
    place = os.path.join(store, name)
    try:
        with open(os.path.join(place, "stamps"), encoding="ascii") as file:
            if file.read() == stamps_below(os.path.join(place, "tree")):
                os.utime(place)
                return os.path.join(place, "tree")
    except OSError:
        pass
    return ""


def keep_tree(name, write):
    """Keeps the tree that is written into a folder, whole or not at all; returns where, or nothing."""
    import shutil
    import tempfile
    store = folder("trees")
    if not store:
        return ""
    waits, place = tempfile.mkdtemp(dir=store, prefix=".made-"), os.path.join(store, name)
    try:
        made = os.path.join(waits, "it", "tree")
        os.makedirs(made)
        write(made)
        with open(os.path.join(waits, "it", "stamps"), "w", encoding="ascii") as file:
            file.write(stamps_below(made))
        if os.path.isdir(place):
            os.rename(place, os.path.join(waits, "old"))
        os.rename(os.path.join(waits, "it"), place)
        forget(store)
        return os.path.join(place, "tree")
    except OSError:
        return ""
    finally:
        shutil.rmtree(waits, ignore_errors=True)
