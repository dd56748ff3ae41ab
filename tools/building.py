"""The program as it is proved and built on this machine: an `rt ci` of the crates that it stands on, and of nothing else, on a copy of their
sources. Crates that don't stand on each other are proved side by side, and what passed here before isn't proved again."""
import hashlib
import os
import re
import shutil
import subprocess
import sys
import tempfile
import threading
import time

import places
import repository

CRATE = os.path.join(repository.TOP, "crates", "apigate")
QUIET = 60


class Stop(Exception):
    """Why the program can't be built."""


def folders(digest):
    """Returns where a program of sources with this digest may stand."""
    return [os.path.join(CRATE, "out"), *places.cache(digest)]


def note(program, digest, toolchain):
    """Returns what stands beside a program that was built: of what, with what, and its own sum."""
    with open(program, "rb") as file:
        return "sources %s\ntoolchain %s\nprogram %s\n" % (digest, toolchain, hashlib.sha256(file.read()).hexdigest())


def toolchain_of(program):
    """Returns the toolchain that the note beside a program names, or None."""
    try:
        with open(program + ".built", encoding="utf-8") as file:
            return file.read().split("\n")[1].partition(" ")[2]
    except (OSError, IndexError, UnicodeDecodeError):
        return None


def current(digest):
    """Returns the program that was built here of sources with this digest, or None."""
    for folder in folders(digest):
        program = os.path.join(folder, "apigate")
        try:
            with open(program + ".built", encoding="utf-8") as file:
                if os.access(program, os.X_OK) and file.read() == note(program, digest, toolchain_of(program)):
                    return program
        except (OSError, UnicodeDecodeError):
            pass
    return None


def forget(program):
    """Has a program that was built count no more."""
    try:
        os.unlink(program + ".built")
    except OSError:
        pass


def toolchain():
    """Returns the identity of the toolchain at hand."""
    if not shutil.which("rt"):
        raise Stop("the command rt of Rattle's toolchain isn't on the path, and nothing is proved and built without it")
    try:
        ran = subprocess.run(["rt", "version"], stdin=subprocess.DEVNULL, capture_output=True, text=True, errors="replace")
    except OSError as error:
        raise Stop("rt can't be run: %s" % (error.strerror or error))
    if ran.returncode or not ran.stdout.strip():
        raise Stop("rt version ended with %d: %s" % (ran.returncode, ran.stderr.strip().split("\n")[0]))
    return ran.stdout.strip().split("\n")[0]


def follow(told, names, log, say):
    """Says which crates are proved, from the lines of `rt ci`, and which are next; where it has nothing to say for a minute, that it goes on."""
    begun = time.time()
    stands, done, ended = repository.below(), [], threading.Event()
    next_ones = lambda: [it for it in names if it not in done and all(below in done for below in stands[it])]
    spoken = [begun]

    def tell(text):
        spoken[0] = time.time()
        say(text)

    def go_on():
        while not ended.wait(1):
            if time.time() - spoken[0] >= QUIET:
                tell("%.1f minutes: still proving, %d of %d done; now %s" % ((time.time() - begun) / 60, len(done), len(names), ", ".join(next_ones())))

    tell("proving and building %d crates first: %s; the log is %s" % (len(names), ", ".join(next_ones()), log.name))
    threading.Thread(target=go_on, daemon=True).start()
    for line in told:
        log.write(line)
        log.flush()
        found = re.match(r"rt: (\w+) (is kept: |proved$|NOT PROVED)", line)
        if not found or found[1] not in names:
            continue
        done.append(found[1])
        how = {"is kept: ": "proved before", "proved": "proved", "NOT PROVED": "not proved"}[found[2]]
        after = "; now %s" % ", ".join(next_ones()) if next_ones() else ""
        tell("%.1f minutes: %s %s, %d of %d%s" % ((time.time() - begun) / 60, found[1], how, len(done), len(names), after))
    ended.set()


def prove(names, folder, say):
    """Proves and builds the program into a folder, where nothing else does."""
    begun, with_what = time.time(), toolchain()
    with tempfile.TemporaryDirectory(prefix="apigate-build-") as room, open(os.path.join(folder, "build.log"), "w", encoding="utf-8") as log:
        repository.copy(room, names)
        digest = repository.digest_of(repository.digests(names, room))
        how = {"cwd": room, "stdin": subprocess.DEVNULL, "stdout": subprocess.PIPE, "stderr": subprocess.STDOUT}
        with subprocess.Popen(["rt", "ci"], text=True, errors="replace", **how) as ran:
            try:
                follow(ran.stdout, names, log, say)
            finally:
                if sys.exc_info()[0]:
                    ran.terminate()
        made = os.path.join(room, "crates", "apigate", "out", "apigate")
        if ran.returncode or not os.path.isfile(made):
            raise Stop("the build failed; the log is %s" % log.name)
        # anew, since a run of `rt ci` in the checkout takes the folder away
        os.makedirs(folder, exist_ok=True)
        program = os.path.join(folder, "apigate")
        subprocess.run(["cp", "-p", made, program + ".new"], check=True)
        os.rename(program + ".new", program)
        places.put(program + ".built", note(program, digest, with_what).encode())
    say("built in %.1f minutes" % ((time.time() - begun) / 60))
    return program


def build(names, say):
    """Proves and builds the program, unless another did meanwhile, and returns its place."""
    digest = repository.digest_of(repository.digests(names))
    toolchain()
    try:
        folder = places.first(folders(digest), places.opened)
    except places.Closed as why:
        raise Stop(str(why))
    with places.alone(CRATE, lambda: say("waiting for another build in this checkout")):
        return current(digest) or prove(names, folder, say)
