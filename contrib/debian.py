"""Debian's packages of Go modules: where a suite has one, and the modules in it."""
import lzma
import os
import re
import urllib.request

import gating

SOURCES = "usr/share/gocode/src"
VERSION = re.compile(r"(?:[0-9]+:)?(%s\.%s\.%s)(?:[-+~].*)?$" % ((gating.NUMBER,) * 3))
MIRROR = "http://deb.debian.org/debian"
SETTINGS = {"GO111MODULE": "off", "GOPATH": "/usr/share/gocode"}


def release(version):
    """The version of a release behind the version of a package."""
    number = VERSION.match(version)
    if not number:
        raise gating.Stop("version %s is not a release" % version)
    return "v" + number[1]


def only_module(olds, news, named):
    """The path of the module that both packages have."""
    found = [named] if named else modules(news) or modules(olds)
    if len(found) != 1:
        raise gating.Stop("the package has %d modules; name one" % len(found))
    return found[0]


def fetch(mirror, path):
    try:
        with urllib.request.urlopen(mirror + "/" + path, timeout=60) as answer:
            return answer.read()
    except OSError as error:
        raise gating.Stop("%s/%s: %s" % (mirror, path, error), 4) from error


def stand(mirror, suite, package):
    """Where a suite has a package."""
    index = lzma.decompress(fetch(mirror, "dists/%s/main/binary-amd64/Packages.xz" % suite)).decode()
    for part in index.split("\n\n"):
        fields = dict(line.split(": ", 1) for line in part.split("\n") if re.match(r"\S+: ", line))
        if fields.get("Package") == package:
            return fields["Filename"]
    raise gating.Stop("%s has no package %s" % (suite, package))


def unpack(room, name, mirror, package, where):
    """Unpacks a version of the package; returns its folder and its version."""
    path = where
    if not where.endswith(".deb"):
        path = os.path.join(room, name + ".deb")
        with open(path, "wb") as file:
            file.write(fetch(mirror, stand(mirror, where, package)))
    folder = os.path.join(room, name)
    deb("-x", path, folder)
    return os.path.join(folder, SOURCES), deb("-f", path, "Version").strip()


def deb(*words):
    """What dpkg-deb says."""
    ran = gating.within(["dpkg-deb", *words], text=True, errors="replace")
    if ran.returncode:
        raise gating.Stop(gating.shown((ran.stderr.strip().splitlines() or ["dpkg-deb ended with %d" % ran.returncode])[0]))
    return ran.stdout


def modules(sources):
    """The paths of the modules in a folder of sources, but for those inside of another."""
    found = []
    for at, folders, files in os.walk(sources):
        if "go.mod" in files:
            found.append(os.path.relpath(at, sources))
            folders.clear()
    return found


def tree(sources, module):
    """The folder of a module, with a go.mod of its own where the package has none."""
    folder = os.path.join(sources, module)
    if not os.path.isdir(folder):
        raise gating.Stop("no folder %s in the package" % module)
    path = os.path.join(folder, "go.mod")
    if not os.path.lexists(path):
        with open(path, "w", encoding="utf-8") as file:
            file.write("module %s\n" % module)
    return folder
