"""How many packages a run checks: those of both trees on its platforms, but for those that are taken over. A reading of the rule over the files of made modules, for one worker.

A package is taken over from an earlier world where that has one of its path, with the same name and the same files by their bytes and in order, where each import that the files use is found on
both sides or on neither, where `int` has the same size, and where each import that is found is taken over from that world too. Earlier worlds are, for the old tree, its own on the platform
that was looked at before, and for the new tree the old tree's on this platform and its own on the one before. A platform that is alike an earlier one isn't looked at."""
import os
import re

from folders import PLATFORMS

TAGS = {name: set(name.split("-")) for name in PLATFORMS}
for _name, _more in ("android-arm64", "linux"), ("ios-arm64", "darwin"), ("illumos-amd64", "solaris"):
    TAGS[_name].add(_more)
SYSTEMS = {name.split("-")[0] for name in PLATFORMS} | {"solaris"}
MACHINES = {name.split("-")[1] for name in PLATFORMS}
NARROW = {"linux-386", "linux-arm", "windows-386"}
# kinds of which this reading doesn't know which imports are used
UNREAD = {"named_by_platform", "name_of_an_import_declared", "byte_changed"}
LINE = re.compile(rb"//go:build ([^\n]*)\n")


def is_named_for(name, tags):
    """Whether a platform allows the name of a file."""
    last = name.rpartition(b"/")[2][:-len(b".go")].decode().split("_")[1:]
    if len(last) > 1 and last[-1] in MACHINES and last[-2] in SYSTEMS:
        return last[-1] in tags and last[-2] in tags
    return not last or last[-1] not in SYSTEMS | MACHINES or last[-1] in tags


def is_chosen(name, text, tags):
    """Whether a platform chooses a file by its name and a build line of tags in a row, as `linux || !windows`."""
    line = LINE.match(text)
    terms = [term.strip() for term in line[1].decode().split("||")] if line else []
    return is_named_for(name, tags) and (not line or any((term.lstrip("!") in tags) != term.startswith("!") for term in terms))


class Tree:
    """A tree on a platform: its folders with the files that are chosen, in order."""

    def __init__(self, files, platform):
        self.folders = {}
        for name in sorted(files):
            text = files[name]
            if name.endswith(b".go") and is_chosen(name, text, TAGS[platform]) and not re.search(rb'^import "C"$', text, re.M):
                self.folders.setdefault(name.rpartition(b"/")[0].decode(), []).append(text)


def name_of(texts):
    """The name of the package of files."""
    return next((clause[1] for clause in (re.search(rb"^package (\w+)$", text, re.M) for text in texts) if clause), None)


def uses(texts, names):
    """The imports that files use, by their order, where packages have these names."""
    found = []
    for text in texts:
        bare = re.sub(rb"\{\n\treturn nil, nil\n\}", b"", text)
        for path in re.findall(rb'^import "([^"]+)"$', text, re.M):
            if re.search(rb"\b%s\." % (names.get(path.decode()) or path.rpartition(b"/")[2]), bare):
                found.append(path.decode())
    return found


class Packages:
    """The packages of a module's tree on a platform, with those of the standard library that they reach; it has none at a barred path or under one."""

    def __init__(self, module, files, std, platform, barred):
        self.narrow, self.all = platform in NARROW, {}
        own, others = Tree(files, platform), Tree(std, platform)
        others.folders = {path: texts for path, texts in others.folders.items() if not any((path + "/").startswith(one + "/") for one in barred)}
        for folder, texts in own.folders.items():
            self.all["%s/%s" % (module, folder) if folder else module] = False, texts
        self.names = {path: name_of(texts) for path, texts in others.folders.items()}
        self.names.update((path, name_of(texts)) for path, (_, texts) in self.all.items())
        waiting = list(self.all)
        while waiting:
            for path in uses(self.all[waiting.pop()][1], self.names):
                if path not in self.all and path in others.folders:
                    self.all[path] = True, others.folders[path]
                    waiting.append(path)

    def taken(self, earlier):
        """The paths of those that an earlier world has with all that they import."""
        if earlier is None or earlier.narrow != self.narrow:
            return set()
        found = {path for path, package in self.all.items() if earlier.all.get(path) == package
                 and all((name in self.all) == (name in earlier.all) for name in uses(package[1], self.names))}
        while True:
            lost = {path for path in found if any(name in self.all and name not in found for name in uses(self.all[path][1], self.names))}
            if not lost:
                return found
            found -= lost


def are_alike(trees, one, other):
    """Whether two platforms choose the same files of all trees, by their names and by their headers, and have one size of `int`."""
    return (one in NARROW) == (other in NARROW) and all(
        is_named_for(name, TAGS[one]) == is_named_for(name, TAGS[other]) and is_chosen(name, text, TAGS[one]) == is_chosen(name, text, TAGS[other])
        for tree in trees for name, text in tree.items() if name.endswith(b".go"))


def checks(module, old, new, std, platforms):
    """How many packages are checked, where no tree is refused; MODULE has the paths of both modules, and OLD is none where there is no old tree."""
    count, before_old, before_new = 0, None, None
    barred = module if old is not None else module[1:]
    for at, platform in enumerate(platforms):
        if any(are_alike([old or {}, new, std], earlier, platform) for earlier in platforms[:at]):
            continue
        first = None
        if old is not None:
            first = Packages(module[0], old, std, platform, barred)
            count += len(first.all) - len(first.taken(before_old))
            before_old = first
        second = Packages(module[1], new, std, platform, barred)
        count += len(second.all) - len(second.taken(first) | second.taken(before_new))
        before_new = second
    return count


# ---- archives

def is_plain(files):
    """Whether the files can stand in an archive as they are."""
    return all((text.endswith(b"\n") or not text) and b"\r" not in text and not re.search(rb"^-- ", text, re.M) and re.fullmatch(rb"[\w./-]+", name) and is_text(text) for name, text in files.items())


def is_text(data):
    try:
        data.decode()
    except UnicodeDecodeError:
        return False
    return True


def module_of(tree):
    return re.match(rb"module (\S+)\n", tree[b"go.mod"])[1].decode()


def case_of(kind, pair, judged, features):
    """The text of two cases with the counts of a pair over its platforms; nothing where this reading doesn't say them."""
    files = pair.files()
    if kind in UNREAD or judged.status not in (0, 1) or features.status or not is_plain(files):
        return None
    module = module_of(pair.old), module_of(pair.new)
    own = {name: text for name, text in files.items() if text or name.endswith(b"go.mod")}
    cases = []
    for mode, ended, count in (("judge", judged, checks(module, pair.old, pair.new, pair.std, pair.platforms)),
                               ("features", features, checks(module, None, pair.new, pair.std, pair.platforms))):
        words = [mode, "--new", "new", "--std", "std", "--platforms", ",".join(pair.platforms)] + (["--old", "old"] if mode == "judge" else [])
        text = "".join("-- %s --\n%s" % (name.decode(), body.decode()) for name, body in sorted(own.items()))
        cases.append("-- case %s, %s --\n-- words --\n%s\n%s-- output --\n%s-- status --\n%d\n-- counts --\nchecks %d\n" % (
            kind.replace("_", " "), mode, "\n".join(words), text, ended.out.decode(), ended.status, count))
    return "".join(cases)


def write(folder, cases, each=40):
    """Writes the cases into archives, so many in each."""
    os.makedirs(folder, exist_ok=True)
    for at in range(0, len(cases), each):
        with open(os.path.join(folder, "taken%03d.txtar" % (at // each)), "w", encoding="utf-8") as file:
            file.write("Packages that are checked, by conformance/checked.py.\n" + "".join(cases[at:at + each]))
