"""The program that dist/ holds, and the record of what it was built from: whether the two serve here, and where it is unpacked."""
import collections
import hashlib
import os
import re
import sys

import places
import repository
import trial

DIST = os.path.join(repository.TOP, "dist")
NAME = "apigate-linux-amd64"
SYSTEM = ("linux", "x86_64")
SYMBOLS = r"Name: (GLIBC_[0-9.]+) "

Record = collections.namedtuple("Record", "toolchain library program sources crates")


class Unfit(Exception):
    """Why no program of dist/ can be run."""


def text_of(told):
    """Returns what dist/BUILD says where this is the record."""
    head = ["# What %s.xz was built from; tools/release writes both." % NAME]
    rows = ["%s %s" % (name, getattr(told, name)) for name in Record._fields if name != "crates"]
    return "".join(line + "\n" for line in head + rows + ["crate %s %s" % it for it in sorted(told.crates.items())])


def library(content):
    """Returns the newest version of the C library's symbols that a program needs."""
    import subprocess
    import tempfile
    with tempfile.NamedTemporaryFile(prefix="apigate-") as file:
        file.write(content)
        file.flush()
        words = ["readelf", "--version-info", "--wide", file.name]
        told = subprocess.run(words, env={**os.environ, "LC_ALL": "C"}, stdout=subprocess.PIPE, text=True, check=True).stdout
    return max(re.findall(SYMBOLS, told), key=lambda name: [int(it) for it in name.partition("_")[2].split(".")], default="none")


def write(folder, content, toolchain, library, sums):
    """Writes a program that was built of sources with these sums, and its record."""
    import lzma
    told = Record(toolchain, library, hashlib.sha256(content).hexdigest(), repository.digest_of(sums), sums)
    os.makedirs(folder, exist_ok=True)
    places.put(os.path.join(folder, NAME + ".xz"), lzma.compress(content, preset=9 | lzma.PRESET_EXTREME))
    places.put(os.path.join(folder, "BUILD"), text_of(told).encode())


def record(folder=DIST):
    """Returns what dist/BUILD says."""
    try:
        with open(os.path.join(folder, "BUILD"), encoding="utf-8") as file:
            rows = [line.split(" ", 1) for line in file.read().split("\n")[:-1] if not line.startswith("#")]
        told = dict(row for row in rows if row[0] != "crate")
        return Record(crates=dict(row[1].split(" ") for row in rows if row[0] == "crate"), **told)
    except FileNotFoundError:
        raise Unfit("there is no dist/BUILD")
    except OSError as error:
        raise Unfit("dist/BUILD can't be read: %s" % (error.strerror or error))
    except (ValueError, IndexError, TypeError):
        raise Unfit("dist/BUILD isn't in its form")


def changed(told, sums):
    """Returns the crates whose sources aren't those of a record."""
    return sorted(name for name in {*told.crates, *sums} if told.crates.get(name) != sums.get(name))


def check_sources(told, sums):
    """Refuses a record of other sources than these."""
    names = changed(told, sums)
    if names:
        more = " and %d more" % (len(names) - 3) if len(names) > 3 else ""
        raise Unfit("dist/ is of other sources: not those of %s%s" % (", ".join(names[:3]), more))
    if told.sources != repository.digest_of(sums):
        raise Unfit("dist/BUILD isn't in its form: its digest isn't that of its crates")


def packed(folder=DIST):
    """Returns the program as the compressed file has it."""
    path = os.path.join(folder, NAME + ".xz")
    try:
        with open(path, "rb") as file:
            whole = file.read()
    except OSError as error:
        raise Unfit("dist/%s.xz can't be read: %s" % (NAME, error.strerror or error))
    try:
        import lzma
    except ImportError:
        return unpacked_by_command(whole)
    try:
        return lzma.decompress(whole)
    except lzma.LZMAError as error:
        raise Unfit("dist/%s.xz can't be unpacked: %s" % (NAME, error))


def unpacked_by_command(whole):
    """Unpacks by the command xz."""
    import shutil
    import subprocess
    if not shutil.which("xz"):
        raise Unfit("this Python has no lzma and there is no command xz, so dist/ can't be unpacked")
    ran = subprocess.run(["xz", "-dc"], input=whole, capture_output=True)
    if ran.returncode:
        raise Unfit("dist/%s.xz can't be unpacked: %s" % (NAME, ran.stderr.decode(errors="replace").strip()))
    return ran.stdout


def is_this(path, told):
    """Returns whether a file is the program of the record."""
    try:
        with open(path, "rb") as file:
            return hashlib.sha256(file.read()).hexdigest() == told.program and os.access(path, os.X_OK)
    except OSError:
        return False


def checked(told, folder=DIST):
    """Returns the program of dist/, if it is the one of the record."""
    content = packed(folder)
    if hashlib.sha256(content).hexdigest() != told.program:
        raise Unfit("the program of dist/ isn't the one that dist/BUILD names")
    return content


def unpack(told, folders):
    """Unpacks the program, unless another did meanwhile. Returns its place, and whether it was unpacked now."""
    content = checked(told)

    def put(folder):
        path = os.path.join(folder, NAME)
        with places.alone(folder):
            is_new = not is_this(path, told)
            if is_new:
                places.put(path, content, 0o755)
        return path, is_new

    try:
        return places.first(folders, put)
    except places.Closed as why:
        raise Unfit("dist/ can't be unpacked: %s" % why)


def program(sums, say):
    """Returns the place of the program of dist/, unpacked where it wasn't, if it is of sources with these sums and starts here."""
    told = record()
    found = sys.platform, os.uname().machine
    if found != SYSTEM:
        raise Unfit("dist/ is for Linux on x86-64, and this is %s on %s" % found)
    check_sources(told, sums)
    folders = [os.path.join(repository.TOP, "out"), *places.cache(told.sources)]
    there = [path for path in (os.path.join(folder, NAME) for folder in folders) if is_this(path, told)]
    path, is_new = (there[0], False) if there else unpack(told, folders)
    why = trial.refusal(path)
    if why:
        raise Unfit("the program of dist/, which needs %s, doesn't start here: %s" % (told.library, why))
    if is_new:
        say("this program, unpacked into %s, was built from these sources; ./apigate --build proves it here" % os.path.dirname(path))
    return path
