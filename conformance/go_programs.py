"""Builds the Go programs of the scripts, which stand in conformance/internal/ and bench/internal/, and the cutter."""
import os
import subprocess

TOP = os.path.dirname(os.path.dirname(os.path.abspath(__file__)))


def settings(room, **further):
    """The environment of the command `go`: packages by GOPATH, and what is built is kept in GOCACHE, or else in the folder."""
    return dict(os.environ, GO111MODULE="off", GOFLAGS="", GOCACHE=os.environ.get("GOCACHE", os.path.join(room, "cache")), **further)


def build(go, program, into, room, gopath=None):
    """Builds the program of a folder, as `conformance/internal/clients`, into a file. Where it compares with golang.org/x/exp/apidiff, this has to be below
    GOPATH. The folder ROOM gets a GOPATH in which this repository is the package `apigate`."""
    place = os.path.join(room, "of-go")
    os.makedirs(os.path.join(place, "src"), exist_ok=True)
    link = os.path.join(place, "src", "apigate")
    if not os.path.islink(link):
        os.symlink(TOP, link)
    path = os.pathsep.join([place, *([gopath] if gopath else [])])
    tags = ["-tags", "apidiff"] if gopath else []
    subprocess.run([go, "build", *tags, "-o", into, "apigate/" + program], check=True, env=settings(room, GOPATH=path), cwd=room)
    return into
