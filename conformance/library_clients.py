"""Packages of Go's own library, or of others at hand, as clients, bodies and all, over declarations that are cut from them; and copies with one token changed."""
import argparse
import concurrent.futures
import itertools
import os
import random
import re
import shutil
import subprocess

import folders
from again import Counts as Again
from again import Moved
from vetting import answers, vetted, words_of

PLATFORM = "linux-amd64"
TOKEN = re.compile(r"""(?P<skip>//[^\n]*|/\*.*?\*/|\s+)|(?P<text>"(?:\\.|[^"\\\n])*"|`[^`]*`|'(?:\\.|[^'\\\n])+')|(?P<name>[A-Za-z_]\w*)|(?P<number>\d[\w.]*)|(?P<sign><<=|>>=|&\^=|\.\.\.|&&|\|\||<-|\+\+|--|[=!<>:+\-*/%&|^]=|<<|>>|&\^|.)""", re.S)
INTERNAL = re.compile(rb'"((?:[\w.~-]+/)*)internal((?:/[\w.~-]+)*)"')
AT_ONCE = 400


def imports_of(go, paths, settings):
    """The paths of packages with their folders and Go files on the platform."""
    form = "{{.ImportPath}}\t{{.Dir}}\t{{join .GoFiles \",\"}}\t{{join .CgoFiles \",\"}}\t{{join .Imports \",\"}}"
    told = subprocess.run([go, "list", "-e", "-f", form, *paths], capture_output=True, text=True, check=True, env=dict(settings, GOOS="linux", GOARCH="amd64", CGO_ENABLED="0")).stdout
    for line in told.splitlines():
        path, folder, files, cgo, imports = line.split("\t")
        if files and not cgo and "C" not in imports.split(","):
            yield path, folder, files.split(",")


def others_cut(tools, below, into):
    """The paths of the packages below a GOPATH, and a folder in which their declarations stand beside those of Go's library; it is made once."""
    tools.settings["GOPATH"] = below
    top = os.path.join(below, "src")
    told = subprocess.run([tools.go, "list", "-e", "-f", "{{.ImportPath}}", "./..."], capture_output=True, text=True, check=True, env=dict(tools.settings, CGO_ENABLED="0"), cwd=top).stdout.split()
    paths = [it for it in told if not {"internal", "vendor", "testdata"} & set(it.split("/"))]
    if not os.path.exists(into):
        tools.cut(into, "--platforms", PLATFORM, "--whole", ",".join(tools.listed() + paths))
    return paths


def opened(text):
    """The text of a file in which the paths of imports have another element for `internal` and none for `vendor`, so that any client may have them."""
    return INTERNAL.sub(rb'"\1inside\2"', text)


def opened_folder(folder, into):
    """The folder of declarations with such paths. A package that Go's library has below `vendor`, and that stands here by itself too, is the latter."""
    for at, _, names in os.walk(folder):
        below = os.path.relpath(at, folder).split(os.sep)
        if below[0] == "vendor":
            below = below[1:]
            if below and os.path.isdir(os.path.join(folder, *below)) and any(it.endswith(".go") for it in os.listdir(os.path.join(folder, *below))):
                continue
        place = os.path.join(into, *("inside" if it == "internal" else it for it in below))
        for name in names:
            os.makedirs(place, exist_ok=True)
            with open(os.path.join(at, name), "rb") as file:
                text = opened(file.read())
            with open(os.path.join(place, name), "wb") as file:
                file.write(text)
    return into


def changed(draw, text):
    """The text with one token of a body, or of what stands outside, replaced by another one of its kind in it, and which."""
    found = [it for it in TOKEN.finditer(text) if not it["skip"]]
    one = draw.choice(found)
    others = [it[0] for it in found if it.lastgroup == one.lastgroup and it[0] != one[0]]
    other = draw.choice(others) if others else one[0]
    return text[:one.start()] + other + text[one.end():], "%r is %r, line %d" % (one[0], other, text.count("\n", 0, one.start()) + 1)


def compare(words, asker, room, counts):
    """Compares each package of the library, or of others below a GOPATH, and then the copies."""
    tools = folders.Tools(argparse.Namespace(program=words.program, go=words.go, library=words.library, cutter=os.path.join(folders.TOP, "tools/stdcut")), room)
    if words.gopath:
        std, paths = words.library, others_cut(tools, words.gopath, words.library)
    else:
        (std, _), paths = tools.library(words.library), tools.listed()
    std = opened_folder(std, os.path.join(room, "opened"))
    module, again = os.path.join(room, "none"), Again(words.show)
    os.makedirs(module)
    with open(os.path.join(module, "go.mod"), "w", encoding="utf-8") as file:
        file.write("module none.example/none\n")
    packages = list(imports_of(words.go, paths, tools.settings))
    clients = [(path, folder, files, "") for path, folder, files in packages]
    draw, small = random.Random(words.seed), [it for it in packages if sum(os.path.getsize(os.path.join(it[1], name)) for name in it[2]) < words.bytes]
    for _ in range(words.tokens if small else 0):
        path, folder, files = draw.choice(small)
        clients.append((path, folder, files, draw.choice(files)))
    print("%d packages, %d copies of %d of them" % (len(packages), len(clients) - len(packages), len(small)), flush=True)

    def made(place, client, number):
        """Writes a client, and gives its title."""
        path, folder, files, spoiled = client
        os.makedirs(place)
        for name in files:
            with open(os.path.join(folder, name), "rb") as file:
                text = opened(file.read())
            if name == spoiled:
                text, told = changed(random.Random("%d %d" % (words.seed, number)), text.decode(errors="surrogateescape"))
                text = text.encode(errors="surrogateescape")
            with open(os.path.join(place, name), "wb") as file:
                file.write(text)
        if words.gopath:
            folders.renew(place)
        return "%s, where %s in %s" % (path, told, spoiled) if spoiled else path

    def share(at):
        found = []
        for start in range(at * AT_ONCE, len(clients), words.jobs * AT_ONCE):
            some = list(enumerate(clients[start:start + AT_ONCE], start))
            place, into = os.path.join(room, "client-%d" % at), os.path.join(room, "shuffled-%d" % at)
            titles = [made(os.path.join(place, str(number)), client, number) for number, client in some]
            asks = {"Seed": words.seed + start, "Clients": [{
                "New": module, "Std": std, "Client": os.path.join(place, str(number)), "Into": os.path.join(into, str(number)), "Platforms": PLATFORM} for number, _ in some]}
            told = list(answers(asker, asks))
            where = [each for number, one in enumerate(asks["Clients"]) for each in (one["Client"], *([one["Client"]] if number % words.again == 0 else []), one["Into"])]
            lines = vetted(words.program, room, [words_of(module, each, std, PLATFORM) for each in where if os.path.isdir(each)])
            for number, (title, asked, one) in enumerate(zip(titles, asks["Clients"], told)):
                first = lines.pop(0)
                if number % words.again == 0:
                    again.twice(title, first, lines.pop(0))
                if one.get("Again"):
                    again.shuffled(title, first, lines.pop(0), Moved(lambda name: read(asked, name), one["Again"]["Pieces"]))
                found += [(our, answer, title) for our, answer in itertools.zip_longest(first, one["Answers"])]
            shutil.rmtree(place)
            shutil.rmtree(into, ignore_errors=True)
        return found

    with concurrent.futures.ThreadPoolExecutor(words.jobs) as pool:
        for found in pool.map(share, range(words.jobs)):
            for our, answer, title in found:
                counts.compare(our, answer, title)
    counts.unexplained += again.tell()


def read(asked, name):
    """A file of a client or of the same one shuffled."""
    for folder in (asked["Client"], asked["Into"]):
        if os.path.exists(os.path.join(folder, name)):
            with open(os.path.join(folder, name), "rb") as file:
                return file.read()
    raise FileNotFoundError(name)
