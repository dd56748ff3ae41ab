"""Go's command: what it says in a folder, and its settings. These are remembered while nothing has changed by which it chooses them."""
import functools
import json
import os

import cache
import gating

# what of Go's settings decides which packages are found
ASKED = ["GOVERSION", "GOROOT", "GOPATH", "GOMODCACHE", "GOFLAGS", "GO111MODULE", "GOWORK"]
# what decides about them besides what begins with GO
DECIDING = ("HOME", "PATH", "XDG_CONFIG_HOME")
PROGRAM = b"\x7fELF"


def go(folder, *words, **settings):
    """What Go's command says in a folder, or nothing where it can't."""
    try:
        ran = gating.within(["go", *words], cwd=folder, env={**os.environ, **settings}, text=True, errors="replace")
    except FileNotFoundError as error:
        raise gating.Stop("the command go isn't installed: apt-get install golang-go, or https://go.dev/dl") from error
    return ran.stdout.strip() if not ran.returncode else ""


def above(folder):
    """A folder and all those above it."""
    while True:
        yield folder
        if os.path.dirname(folder) == folder:
            return
        folder = os.path.dirname(folder)


def may_have_workspace(folder):
    """Whether a go.work stands in a folder or above it."""
    around = [each for path in {os.path.abspath(folder), os.path.realpath(folder)} for each in above(path)]
    return any(os.path.exists(os.path.join(each, "go.work")) for each in around)


def found(name):
    """Where a command stands, links followed, or nothing."""
    for each in os.get_exec_path():
        path = os.path.join(each, name)
        if os.path.isfile(path) and os.access(path, os.X_OK):
            return os.path.realpath(path)
    return ""


def content(path):
    """The bytes of a file, as text, or None where there is none."""
    try:
        with open(path, "rb") as file:
            return file.read().decode("latin-1")
    except OSError:
        return None


def is_program(path):
    """Whether a file is a program by itself: a script may choose another command at each call."""
    try:
        with open(path, "rb") as file:
            return file.read(len(PROGRAM)) == PROGRAM
    except OSError:
        return False


def deciding(settings):
    """What decides about the settings, or None where that isn't known."""
    command, around = found("go"), {**os.environ, **settings}
    if not command or not is_program(command) or may_have_workspace(gating.TOP):
        return None
    own = {name: value for name, value in around.items() if name.startswith("GO") or name in DECIDING}
    config = around.get("XDG_CONFIG_HOME") or os.path.join(around.get("HOME", ""), ".config")
    file = around.get("GOENV") or os.path.join(config, "go", "env")
    return [command, cache.stamp(command), sorted(own.items()), content(file), content(os.path.join(gating.TOP, "go.mod"))]


def root_of(command):
    return os.path.dirname(os.path.dirname(command))


def stamps_of(root):
    """What stands in a GOROOT and says which release it is."""
    return [cache.stamp(os.path.join(root, name)) for name in ("VERSION", "go.env", "pkg/tool")]


def asked(settings):
    said = go(gating.TOP, "env", "-json", *ASKED, **settings)
    if not said:
        raise gating.Stop("go env fails: is Go's own library installed?")
    return json.loads(said)


@functools.cache
def remembered(settings):
    by = deciding(dict(settings))
    if by is None:
        return asked(dict(settings))
    name = cache.name_of(by)
    told = cache.told("settings", name)
    root = root_of(by[0])
    if isinstance(told, dict) and told.get("root") == stamps_of(root) and set(told.get("said", ())) == set(ASKED):
        return told["said"]
    made = asked(dict(settings))
    # another GOROOT than that of the command may go without a trace
    if os.path.realpath(made["GOROOT"]) == root:
        cache.tell("settings", name, {"root": stamps_of(root), "said": made})
    return made


def settings(more):
    """What Go's command says of its release and settings."""
    return remembered(tuple(sorted(more.items())))


@functools.cache
def named_workspace():
    """The go.work that Go's settings name for every folder, or nothing."""
    return go(os.sep, "env", "GOWORK") if may_have_workspace(gating.TOP) else settings({})["GOWORK"]


def workspace(folder):
    """The go.work that counts in a folder, or nothing. Go's command is asked only where there may be one."""
    if not may_have_workspace(folder) and not named_workspace():
        return ""
    said = go(folder, "env", "GOWORK")
    return said if said and said != "off" else ""
