"""Modules on disk: the files that apigate reads of one, its path, and copies of it that Go's own commands understand."""
import json
import os
import re

import gating
from go_command import go, workspace

MODULE_LINE = re.compile(r'^[ \t]*module[ \t]+("[^"\n]*"|`[^`\n]*`|[^ \t\r\n]+)', re.M)
OLD_FORM = rb"(?m)^//[ \t]*\+build[ \t]"
NEW_FORM = rb"(?m)^//go:build[ \t]"
LINE = rb"[^\n]*"
ELEMENT = re.compile(r"[A-Za-z0-9~][A-Za-z0-9._~-]*$|_$")
# where Debian's packages of Go modules stand
DEBIAN = "/usr/share/gocode"
# the most bytes of a file that apigate reads
MOST = 4 << 20


def walked(folder):
    """The Go files that apigate reads below a folder, by their paths there."""
    for at, folders, names in os.walk(folder):
        folders[:] = sorted(name for name in folders if ELEMENT.match(name) and name not in ("testdata", "vendor", "_")
                            and not os.path.isfile(os.path.join(at, name, "go.mod")) and not os.path.islink(os.path.join(at, name)))
        for name in sorted(names):
            path = os.path.join(at, name)
            if name.endswith(".go") and not name.endswith("_test.go") and name[0] not in "._" and os.path.isfile(path) and not os.path.islink(path):
                yield os.path.relpath(path, folder)


def content(path):
    with open(path, "rb") as file:
        return file.read()


def text(folder, name):
    """A file of a folder as text, or nothing where it isn't there."""
    path = os.path.join(folder, name)
    return content(path).decode(errors="replace") if os.path.isfile(path) else ""


def old_form(folder):
    """The files that have build lines of the old form alone, but for those that are too large for apigate."""
    found = []
    for name in walked(folder):
        path = os.path.join(folder, name)
        text = content(path) if os.path.getsize(path) <= MOST else b""
        if re.search(OLD_FORM, text) and not re.search(NEW_FORM, text):
            found.append(name)
    return found


def formatted(texts):
    """What gofmt makes of each of these texts: where it can't read one, the text itself."""
    import tempfile
    with tempfile.TemporaryDirectory(prefix="release-gate-") as room:
        places = [os.path.join(room, "%d.go" % number) for number in range(len(texts))]
        for place, text in zip(places, texts):
            with open(place, "wb") as file:
                file.write(text)
        for first in range(0, len(places), 500):
            gating.within(["gofmt", "-w", "--", *places[first:first + 500]])
        return [content(place) for place in places]


def renew(folder, found=None):
    """Gives these files of a copy build lines of the new form, those that gofmt gives them, in place of the old ones, so that no other line
    moves; returns the files."""
    found = old_form(folder) if found is None else found
    if not found:
        return []
    texts = [content(os.path.join(folder, name)) for name in found]
    for name, text, made in zip(found, texts, formatted(texts)):
        new = re.search(NEW_FORM + LINE, made)
        if new:
            with open(os.path.join(folder, name), "wb") as file:
                file.write(re.sub(OLD_FORM + LINE, lambda _: b"//", re.sub(OLD_FORM + LINE, lambda _: new[0], text, count=1)))
    return found


def names(found):
    """Some names on a line."""
    some = " ".join(gating.shown(name) for name in found[:4])
    return some + (" and %d more" % (len(found) - 4) if len(found) > 4 else "")


def path_in(text):
    """The path that the module line of a go.mod has, or nothing."""
    found = MODULE_LINE.search(text)
    return found[1].strip('"`') if found else ""


def path_of(folder):
    """The path of the module in a folder by its go.mod, or nothing where it has none."""
    gating.check_module(folder)
    try:
        return path_in(content(os.path.join(folder, "go.mod")).decode(errors="replace"))
    except FileNotFoundError:
        return ""


def gopaths():
    """The folders below whose src packages lie that no module has: those of GOPATH, and Debian's."""
    found = [folder for folder in go(gating.TOP, "env", "GOPATH").split(os.pathsep) if folder]
    return found + [DEBIAN] * (DEBIAN not in found and os.path.isdir(DEBIAN))


def path_in_gopath(folder):
    """The path by which a folder below a GOPATH is imported, or nothing."""
    for top in gopaths():
        below = os.path.relpath(os.path.realpath(folder), os.path.join(os.path.realpath(top), "src"))
        if below != "." and not below.startswith(".."):
            return below
    return ""


def cached(module, version):
    """The folder of a version in the module cache; nothing is fetched."""
    said = go(gating.TOP, "mod", "download", "-json", "%s@%s" % (module, version), GOPROXY="off", GOFLAGS="-mod=mod", GO111MODULE="on", GOWORK="off", GONOSUMDB="*")
    folder = json.loads(said).get("Dir") if said else None
    if not folder:
        raise gating.Stop("%s@%s isn't in the module cache: go mod download %s@%s" % ((module, version) * 2))
    return folder


def is_near(path):
    return path.startswith(("./", "../")) or path in (".", "..")


def near_replaces(text):
    """Whether a go.mod or go.work replaces a module by a folder beside it."""
    return any(is_near(word) for word in re.findall(r"=>[ \t]*\"?([^ \t\r\n\"]+)", text))


def point(file, words, origin):
    """Makes what a go.mod or go.work replaces by a folder beside it point there from anywhere."""
    if not near_replaces(content(file).decode(errors="replace")):
        return
    said = go(os.path.dirname(file), *words, "-json", file, GOWORK="off", GOFLAGS="")
    for each in (json.loads(said).get("Replace") or []) if said else []:
        if is_near(each["New"]["Path"]):
            old = each["Old"]["Path"] + ("@" + each["Old"]["Version"] if each["Old"].get("Version") else "")
            to = os.path.normpath(os.path.join(origin, each["New"]["Path"]))
            go(os.path.dirname(file), *words, "-replace=%s=%s" % (old, to), file, GOWORK="off", GOFLAGS="")


def copy_file(path, copy):
    with open(copy, "wb") as file:
        file.write(content(path))


def follow(copy, origin):
    """Gives a copy of a module the workspace and the folders that the module has where it stands."""
    if os.path.isfile(os.path.join(copy, "go.mod")):
        point(os.path.join(copy, "go.mod"), ["mod", "edit"], origin)
    work = workspace(origin)
    if not work:
        return
    said = json.loads(go(os.path.dirname(work), "work", "edit", "-json", work) or "{}")
    top, place = os.path.dirname(work), os.path.join(os.path.dirname(copy), "go.work")
    others = [os.path.normpath(os.path.join(top, each["DiskPath"])) for each in said.get("Use") or []]
    if os.path.realpath(origin) not in [os.path.realpath(each) for each in others]:
        return
    copy_file(work, place)
    for each, was in zip(others, said["Use"]):
        at = copy if os.path.realpath(each) == os.path.realpath(origin) else each
        go(os.path.dirname(place), "work", "edit", "-dropuse=" + was["DiskPath"], "-use=" + at, place)
    point(place, ["work", "edit"], top)
    if os.path.isfile(work + ".sum"):
        copy_file(work + ".sum", place + ".sum")


def copied(folder, copy):
    """Copies what apigate and Go's own commands read of a module."""
    os.makedirs(copy, exist_ok=True)
    for name in walked(folder):
        os.makedirs(os.path.dirname(os.path.join(copy, name)), exist_ok=True)
        copy_file(os.path.join(folder, name), os.path.join(copy, name))
    for name in ("go.mod", "go.sum"):
        if os.path.isfile(os.path.join(folder, name)):
            copy_file(os.path.join(folder, name), os.path.join(copy, name))
    if os.path.isdir(os.path.join(folder, "vendor")):
        os.symlink(os.path.abspath(os.path.join(folder, "vendor")), os.path.join(copy, "vendor"))
    follow(copy, folder)
