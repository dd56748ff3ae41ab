"""The sums of the sources of crates, remembered in the user's cache while no file of theirs changes. As for git, a file is as it was while its
size, its times and its number are; sums that are taken within a moment of a change aren't remembered."""
import hashlib
import json
import marshal
import os
import signal
import time

import places
import repository

# how long a file may have been still, in nanoseconds, and yet have changed within one tick of its system's clock
MOMENT = 2_000_000_000
NAME = "sums.json"


def seen(names):
    """Returns what tells these crates' files apart from others without reading them, and when the last of them changed."""
    told = os.stat(os.path.join(repository.TOP, "crates.txt"))
    found, last = [("crates.txt", told.st_size, told.st_mtime_ns, told.st_ctime_ns, told.st_ino)], told.st_ctime_ns
    waits = [os.path.join(repository.TOP, "crates", name, part) for name in names for part in repository.READ]
    while waits:
        try:
            entries = os.scandir(waits.pop())
        except OSError:
            continue
        with entries:
            for each in entries:
                if each.is_dir():
                    # as a walk, not into what is linked
                    waits += [] if each.is_symlink() else [each.path]
                    continue
                told = each.stat()
                changed = told.st_ctime_ns
                found.append((each.path, told.st_size, told.st_mtime_ns, changed, told.st_ino))
                if changed > last:
                    last = changed
    # in a form that is the same for the same values
    return hashlib.sha256(marshal.dumps(sorted(found), 2)).hexdigest(), last


class Early:
    """What `seen` finds of these crates, in a process of its own, while this one does something else."""

    def __init__(self, names):
        self.source, sink = os.pipe()
        # a signal ends that process, and says nothing there
        signals = {signal.SIGINT, signal.SIGTERM}
        signal.pthread_sigmask(signal.SIG_BLOCK, signals)
        self.child = os.fork()
        if self.child == 0:
            # without the ends of the run that it was begun in
            try:
                for each in signals:
                    signal.signal(each, signal.SIG_DFL)
                signal.pthread_sigmask(signal.SIG_UNBLOCK, signals)
                with os.fdopen(sink, "wb") as file:
                    marshal.dump(seen(names), file)
            finally:
                os._exit(0)
        signal.pthread_sigmask(signal.SIG_UNBLOCK, signals)
        os.close(sink)

    def told(self):
        """Returns it, or None where that process didn't find it."""
        with os.fdopen(self.source, "rb") as file:
            told = file.read()
        os.waitpid(self.child, 0)
        try:
            return marshal.loads(told)
        except (EOFError, ValueError, TypeError):
            return None


def before(place, names, now):
    """Returns the sums that were remembered of the same files, or None."""
    try:
        with open(place, encoding="utf-8") as file:
            kept = json.load(file)
        sums = kept["sums"]
        return sums if kept["seen"] == now and list(sums) == names and all(isinstance(it, str) for it in sums.values()) else None
    except (OSError, ValueError, KeyError, TypeError, AttributeError):
        return None


def digests(names, early=None):
    """Returns what repository.digests does; early has begun to look at these crates' files, if anything has."""
    folders = places.cache(hashlib.sha256(repository.TOP.encode()).hexdigest())
    now, last = early and early.told() or seen(names)
    for folder in folders:
        sums = before(os.path.join(folder, NAME), names, now)
        if sums:
            return sums
    begun = time.time_ns()
    sums = repository.digests(names)
    if folders and begun - last > MOMENT and seen(names) == (now, last):
        try:
            places.first(folders, lambda folder: places.put(os.path.join(folder, NAME), json.dumps({"seen": now, "sums": sums}).encode()))
        except places.Closed:
            pass
    return sums
