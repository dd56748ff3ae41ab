"""Pairs of trees for conformance/once: small modules over a few packages that others have, in which one thing differs between platforms or between the trees."""
import re

import drawn_packages
import drawn_runs
import sources

# platforms whose files end by these names, in pairs that exclude each other
SIDES = {"linux": ["linux-amd64", "linux-arm64", "linux-riscv64", "linux-s390x"], "windows": ["windows-amd64"], "darwin": ["darwin-amd64", "darwin-arm64"],
         "freebsd": ["freebsd-amd64"], "386": ["linux-386", "windows-386"], "arm64": ["linux-arm64", "darwin-arm64"], "amd64": ["linux-amd64", "windows-amd64", "freebsd-amd64"]}
OPPOSED = [("linux", "windows"), ("windows", "linux"), ("linux", "darwin"), ("darwin", "freebsd"), ("386", "amd64"), ("arm64", "amd64"), ("amd64", "386")]
NARROW, WIDE = ["linux-386", "linux-arm", "windows-386"], ["linux-amd64", "linux-arm64", "windows-amd64", "darwin-amd64", "freebsd-amd64"]
# declarations: @ is an own number, # a type of the package or of another one
FORMS = ["type T@ struct {\n\tA, B *#\n\tC []int\n}", "type T@ []#", "type I@ interface {\n\tM@(#) error\n}", "func F@(a #, b ...int) (*#, error) {\n\treturn nil, nil\n}", "var V@ map[string]#",
         "const C@ = 1<<3 + @", "const S@ = \"text @\"", "type A@ = #", "var W@ = []*#{}", "func (T) M@(x #) int", "type E@ struct {\n\tT\n\tX #\n}", "var X@, Y@ = len(\"text\"), [2]*#{}"]
LEFT_OUT = "const left@ = 0.5\n\nvar by@ = left@\n\nfunc with@(#, [2.0]int)"
NARROW_FORMS = ["const Most@ = ^uint(0)", "var Word@ [32 << (^uint(0) >> 63)]int", "const Bits@ = 32 << (^uintptr(0) >> 63)"]
UNREAD = [b"package p\n#\n", b"package p\n\nfunc (\n", b"//go:build (\n\npackage p\n", b"//go:build linux\n//go:build linux\n\npackage p\n", b"package another\n", b"package p\n\nvar x = '\n"]
UNTYPED = ["var Gone gone", "const C int = \"a\"", "var X = len", "type T2 struct {\n\tA, A int\n}", "func F0()\n\nfunc F0()", "const C = 1 << 200", "type T3 T4\n\ntype T4 T3"]


class Package:
    """A package of a made module: its folder, its name and its import path."""

    def __init__(self, folder, name, module):
        self.folder, self.name, self.path = folder, name, "%s/%s" % (module, folder) if folder else module
        self.imports = []


class Pair:
    """An old and a new tree with what they import from elsewhere, and platforms. The files of each are named below its root."""

    def __init__(self, old, new, std, platforms, packages=(), module="m"):
        self.old, self.new, self.std, self.platforms, self.packages, self.module = old, new, std, platforms, list(packages), module

    def files(self):
        """All files by their paths."""
        return {top + b"/" + name: text for top, tree in ((b"old", self.old), (b"new", self.new), (b"std", self.std)) for name, text in tree.items()}

    def trees(self):
        return self.old, self.new

    def some(self, draw):
        """One of the trees, or both."""
        return draw.choice([[self.old], [self.new], [self.old, self.new], [self.old, self.new]])

    def of(self, package, tree):
        """The names of the Go files of a package."""
        top = package.folder.encode() + b"/" if package.folder else b""
        return sorted(name for name in tree if name.startswith(top) and b"/" not in name[len(top):] and name.endswith(b".go"))

    def add(self, package, name, text, trees=None):
        """Gives a package a file more, in both trees or in some."""
        for tree in self.trees() if trees is None else trees:
            tree[("%s/%s" % (package.folder, name) if package.folder else name).encode()] = text if isinstance(text, bytes) else text.encode()


# ---- modules that are made

def text_of(package, over, decls):
    """A file of declarations, with the imports that these use."""
    body = "\n\n".join(decls)
    lines = ["import \"%s\"" % path for path, name in over.items() if re.search(r"\b%s\." % name, body)]
    return ("package %s\n\n" % package.name + "".join(line + "\n" for line in lines) + ("\n" if lines else "") + body + "\n").encode()


def declarations(draw, count, types, first, left):
    """So many declarations."""
    forms = [draw.choice(FORMS) for _ in range(count)] + ([LEFT_OUT] if left else [])
    return ["".join(draw.choice(types) if one == "#" else one for one in form).replace("@", str(first + at)) for at, form in enumerate(forms)]


def library():
    """What modules import from elsewhere."""
    return {b"lib/lib.go": b"package lib\n\ntype T struct {\n\tN int\n}\n\nfunc (T) Do(int) error\n\nconst N = 1\n", b"lib/deep/d.go": b"package deep\n\nimport \"lib\"\n\ntype T []lib.T\n",
            b"other/o.go": b"package other\n\nimport \"lib/deep\"\n\ntype T struct {\n\tA deep.T\n}\n", b"unused/u.go": b"package unused\n\nvar Gone gone\n"}


def made(draw, count=None, most=7):
    """A made module: the one tree twice, so far."""
    module, packages, tree = draw.choice(["m", "m", "example.com/made"]), [], {}
    many, base = count or draw.randrange(2, most), {"lib": "lib", "lib/deep": "deep", "other": "other"}
    for number in range(many):
        name = "p%d" % number
        folder = draw.choice([name, name, name, "in/" + name, "internal/" + name, "d%d/e/%s" % (number, name), "q%d" % number])
        package = Package("" if number == 1 and draw.randrange(4) == 0 else folder, name, module)
        earlier = draw.sample(packages, min(len(packages), draw.choice([0, 1, 1, 2])))
        over = {one.path: one.name for one in earlier}
        if draw.randrange(3) == 0:
            path = draw.choice(list(base))
            over[path] = base[path]
        package.imports = list(over)
        types = ["T"] + [name + ".T" for name in over.values()] * 2
        total = draw.randrange(1, 4)
        for at in range(total):
            decls = (["type T struct {\n\tN int\n}"] if at == 0 else []) + declarations(draw, draw.randrange(1, 4), types, at * 10, draw.randrange(5) == 0)
            if at == 0:
                # each import is used
                decls += ["var Uses%d %s.T" % (where, name) for where, name in enumerate(over.values())]
            tree[("%s/f%d.go" % (package.folder, at)).lstrip("/").encode()] = text_of(package, over, decls)
        packages.append(package)
    tree[b"go.mod"] = ("module %s\n" % module).encode()
    return Pair(dict(tree), dict(tree), library(), drawn_platforms(draw), packages, module)


def of_packages(draw):
    """The packages over which conformance/expressions draws, and one that imports them, as a module."""
    tree = {b"go.mod": b"module m\n"}
    packages = [Package(name, name, "m") for name in ("p", "q", "client")]
    for package, text in zip(packages, (drawn_packages.P, drawn_packages.Q, drawn_packages.C)):
        tree[("%s/%s.go" % (package.folder, package.name)).encode()] = text.lstrip().encode()
    packages[1].imports, packages[2].imports = ["m/p"], ["m/p", "m/q"]
    return Pair(dict(tree), dict(tree), library(), drawn_platforms(draw), packages)


def drawn_platforms(draw):
    """Some platforms in some order."""
    return draw.sample(drawn_runs.PLATFORMS, draw.choice([1, 2, 2, 3, 3, 4, 5, 6, 14]))


def told(old, new, std, platforms):
    """A pair of trees of which nothing but the files is known; nothing where there is no package."""
    module = re.search(rb"^module[ \t]+\"?([\w./-]+)", new.get(b"go.mod", b""), re.M)
    clauses = {}
    for tree in (old, new):
        for name, text in tree.items():
            clause = re.search(rb"^package (\w+)", text, re.M)
            if name.endswith(b".go") and clause and re.fullmatch(rb"[\w./-]+", name):
                clauses[name.rpartition(b"/")[0].decode()] = clause[1].decode()
    if not module or not clauses:
        return None
    path = module[1].decode()
    return Pair(dict(old), dict(new), dict(std), platforms, [Package(folder, name, path) for folder, name in sorted(clauses.items())], path)


# ---- what differs

def changed(draw, pair):
    """Changes a declaration of the new tree, takes one away or adds one, without an error for most."""
    package = draw.choice(pair.packages)
    names = pair.of(package, pair.new)
    if not names:
        return
    name = draw.choice(names)
    text, way = pair.new[name], draw.randrange(5)
    if way == 0:
        pair.new[name] = text + b"\nfunc More%d(T) int\n" % draw.randrange(1000)
    elif way == 1:
        pair.new[name] = text.replace(b"A, B *", b"A, B, D *", 1)
    elif way == 2:
        pair.new[name] = text.replace(b"[]int", b"[]string", 1)
    elif way == 3:
        pair.new[name] = re.sub(rb"const (C\d+) = 1<<3", rb"const \1 = 1<<4", text, count=1)
    else:
        pair.new[name] = re.sub(rb"\n\nvar V\d+ [^\n]*\n", rb"\n", text, count=1)


def alternating(draw, pair, sides=None):
    """Puts platforms into the list that choose files by one name and by another in turn; gives these names."""
    one, other = sides or draw.choice(OPPOSED)
    these, those = draw.sample(SIDES[one], len(SIDES[one])), draw.sample(SIDES[other], len(SIDES[other]))
    pair.platforms = [name for two in zip(these, those) for name in two] + these[len(those):] + those[len(these):]
    pair.platforms = list(dict.fromkeys(pair.platforms))[:draw.choice([2, 3, 4, 5])]
    return one, other


def platforms_alternate(draw, pair):
    one, other = alternating(draw, pair)
    for _ in range(draw.choice([1, 2])):
        package, trees = draw.choice(pair.packages), pair.some(draw)
        number = draw.randrange(100, 900)
        pair.add(package, "f_%s.go" % one, "package %s\n\nfunc By%d(T) int\n" % (package.name, number), trees)
        pair.add(package, "f_%s.go" % other, draw.choice(["package %s\n\nfunc By%d(*T) int\n", "package %s\n\nfunc Bye%d()\n", "package %s\n\nvar By%d = []T{}\n"]) % (package.name, number), trees)
    if draw.randrange(2):
        package = draw.choice(pair.packages)
        pair.add(package, "z_%s.go" % draw.choice(["arm64", "riscv64", "s390x"]), "package %s\n\nconst Own = 1\n" % package.name)


def sizes_alternate(draw, pair):
    narrow, wide = draw.sample(NARROW, 3), draw.sample(WIDE, 3)
    pair.platforms = [name for two in (zip(narrow, wide) if draw.randrange(2) else zip(wide, narrow)) for name in two][:draw.choice([2, 3, 4, 6])]
    for _ in range(draw.choice([0, 1, 2])):
        package = draw.choice(pair.packages)
        pair.add(package, "size.go", "package %s\n\n%s\n" % (package.name, draw.choice(NARROW_FORMS).replace("@", "")), pair.some(draw))


def renamed(pair, package, draw, suffix, trees):
    """Gives the files of a package a name that few platforms take, or a build line."""
    by_line = draw.randrange(2)
    for tree in trees:
        for name in pair.of(package, tree):
            text = tree.pop(name)
            if by_line:
                tree[name] = b"//go:build " + suffix.encode() + b"\n\n" + text
            else:
                tree[name[:-len(b".go")] + b"_" + suffix.encode() + b".go"] = text


def folder_without_files(draw, pair):
    one, _ = alternating(draw, pair)
    importing = {path for package in pair.packages for path in package.imports}
    alone = [package for package in pair.packages if package.path not in importing]
    renamed(pair, draw.choice(alone), draw, one, pair.some(draw))


def import_on_some(draw, pair):
    """A package that some platforms have alone is imported by a declaration that may be left out, or by one that may not."""
    one, _ = alternating(draw, pair)
    package, std = draw.choice(pair.packages), draw.randrange(3) == 0
    own = Package("only/on", "on", pair.module)
    path = "only/on" if std else own.path
    for tree in [pair.std] if std else pair.trees():
        tree[b"only/on/on_%s.go" % one.encode()] = b"package on\n\ntype T struct {\n\tN int\n}\n"
    seen = draw.choice(["hidden", "hidden", "hidden", "Seen"])
    pair.add(package, "uses.go", "package %s\n\nimport \"%s\"\n\nvar %s on.T\n" % (package.name, path, seen), pair.some(draw))
    if not std:
        pair.packages.append(own)


def import_in_one_tree(draw, pair):
    """The same file imports a package that one tree has alone."""
    package, own = draw.choice(pair.packages), Package("only", "only", pair.module)
    pair.add(package, "uses.go", "package %s\n\nimport \"%s\"\n\nvar %s only.T\n" % (package.name, own.path, draw.choice(["hidden", "hidden", "Seen"])))
    pair.add(own, "o.go", "package only\n\ntype T struct {\n\tN int\n}\n", [draw.choice([pair.old, pair.new, pair.new])])
    pair.packages.append(own)


def main_on_one(draw, pair):
    one, other = alternating(draw, pair)
    own = Package("tool", "tool", pair.module)
    pair.add(own, "t_%s.go" % one, "package main\n\ntype T struct {\n\tN int\n}\n\nfunc main() {}\n", pair.some(draw))
    pair.add(own, "t_%s.go" % other, "package tool\n\ntype T struct {\n\tN int\n}\n", pair.some(draw))
    pair.packages.append(own)


def named_by_platform(draw, pair):
    """A package has another name on some platforms, and is imported by its name."""
    one, other = alternating(draw, pair)
    own, package = Package("named", "first", pair.module), draw.choice(pair.packages)
    pair.add(own, "n_%s.go" % one, "package first\n\ntype T struct {\n\tN int\n}\n")
    pair.add(own, "n_%s.go" % other, "package second\n\ntype T struct {\n\tN int\n}\n", pair.some(draw))
    pair.add(package, "uses.go", "package %s\n\nimport \"%s\"\n\nvar %s %s.T\n" % (package.name, own.path, draw.choice(["hidden", "Seen"]), draw.choice(["first", "named"])), pair.some(draw))


def faulty(draw, pair, reading):
    """A file that is refused, for how it reads or for how it is typed, in a package that has it."""
    package = draw.choice(pair.packages)
    if reading:
        return package, draw.choice(UNREAD).replace(b"package p\n", b"package %s\n" % package.name.encode())
    return package, "package %s\n\n%s\n" % (package.name, draw.choice(UNTYPED))


def refused_later(draw, pair, reading):
    """A refusal on the second platform alone."""
    one, other = alternating(draw, pair)
    package, text = faulty(draw, pair, reading)
    if draw.randrange(6) == 0:
        pair.std[b"lib/z_%s.go" % other.encode()] = b"package lib\n#\n" if reading else b"package lib\n\nvar Gone gone\n"
    else:
        pair.add(package, "z_%s.go" % other, text, pair.some(draw))


def reading_refused_later(draw, pair):
    refused_later(draw, pair, True)


def typing_refused_later(draw, pair):
    refused_later(draw, pair, False)


def new_refused(draw, pair):
    """The old tree is typed, and the new one refused, on all platforms or on some."""
    package, text = faulty(draw, pair, draw.randrange(3) == 0)
    suffix = "_" + alternating(draw, pair)[1] if draw.randrange(2) else ""
    pair.add(package, "z%s.go" % suffix, text, [pair.new])


def cycle_on_one(draw, pair):
    _, other = alternating(draw, pair)
    one, two = Package("ring/a", "a", pair.module), Package("ring/b", "b", pair.module)
    pair.add(one, "a.go", "package a\n\nimport \"%s\"\n\ntype T struct {\n\tB *b.T\n}\n" % two.path)
    pair.add(two, "b.go", "package b\n\ntype T struct {\n\tN int\n}\n")
    pair.add(two, "b_%s.go" % other, "package b\n\nimport \"%s\"\n\nvar V *a.T\n" % one.path, pair.some(draw))
    pair.packages += [one, two]


def file_moved(draw, pair):
    """A file of the new tree stands in another folder, which may be that of another package."""
    package = draw.choice(pair.packages)
    name = draw.choice(pair.of(package, pair.new) or [None])
    if name:
        other = draw.choice(pair.packages + [Package("moved/to", package.name, pair.module)])
        pair.new[("%s/%s" % (other.folder, draw.choice(["moved.go", "f0.go"]))).lstrip("/").encode()] = pair.new[name] if draw.randrange(3) == 0 else pair.new.pop(name)


def file_renamed(draw, pair):
    """Files of the new tree have other names, and so perhaps another order."""
    package = draw.choice(pair.packages)
    names = pair.of(package, pair.new)
    for name in names[:draw.randrange(1, 3)]:
        place, _, last = name.rpartition(b"/")
        text = pair.new.pop(name)
        pair.new[(place + b"/" if place else b"") + draw.choice([b"a_" + last, b"zz_" + last, last.replace(b"f", b"g"), last.replace(b".go", b"0.go")])] = text


def files_swapped(draw, pair):
    """Two files of the new tree have each other's names."""
    names = [name for name in pair.new if name.endswith(b".go")]
    package = [one for one in pair.packages if len(pair.of(one, pair.new)) > 1]
    if package and draw.randrange(3):
        names = pair.of(draw.choice(package), pair.new)
    if len(names) > 1:
        one, other = draw.sample(names, 2)
        pair.new[one], pair.new[other] = pair.new[other], pair.new[one]


def byte_changed(draw, pair):
    """One byte of a file differs between the trees: in a comment, a blank, a number or a name."""
    names = [name for name in sorted(pair.new) if name.endswith(b".go")]
    name = draw.choice(names)
    text = bytearray(pair.new[name])
    way, places = draw.randrange(4), [at.start() for at in re.finditer(rb"[0-9]", bytes(text))]
    if way == 0 and places:
        text[draw.choice(places)] = ord(draw.choice("123"))
    elif way == 1:
        text[draw.randrange(len(text))] = draw.choice(b"aT1 \n")
    elif way == 2:
        text += b" "
    else:
        pair.old[name] = pair.old.get(name, bytes(text)) + b"// a note\n"
        text += b"// b note\n"
    pair.new[name] = bytes(text)


def another_module(draw, pair):
    """The new tree has another module path, and with it imports by the old one or by its own."""
    other = draw.choice(["other", "example.com/other", pair.module + "/v2", "lib"])
    pair.new[b"go.mod"] = b"module " + other.encode() + b"\n"
    if draw.randrange(4):
        for name, text in pair.new.items():
            pair.new[name] = re.sub(rb'"%s(/[\w./-]+)?"' % re.escape(pair.module.encode()), lambda it: b'"%s%s"' % (other.encode(), it[1] or b""), text)


def import_changed(draw, pair):
    """A package that others import, through others too, differs between the trees or between platforms."""
    chain, over = [], None
    for at in range(draw.randrange(3, 6)):
        own = Package("chain/c%d" % at, "c%d" % at, pair.module)
        pair.add(own, "c.go", "package c%d\n\n%stype T struct {\n\tN int\n%s}\n" % (at, "import \"%s\"\n\n" % over.path if over else "", "\tOf *%s.T\n" % over.name if over else ""))
        chain.append(own)
        over = own
    first = chain[draw.randrange(2)]
    if draw.randrange(2):
        one, _ = alternating(draw, pair)
        pair.add(first, "d_%s.go" % one, "package %s\n\nfunc More(T)\n" % first.name, pair.some(draw))
    else:
        pair.add(first, "d.go", "package %s\n\nfunc More(T)\n" % first.name, [draw.choice(pair.trees())])
    pair.packages += chain


def equal_trees(draw, pair):
    pair.new = dict(pair.old)
    if draw.randrange(2):
        platforms_alternate(draw, pair)
        pair.new = dict(pair.old)


def first_of_many(draw, pair):
    """Of many packages the first one differs, which some of the others need."""
    many = made(draw, draw.randrange(25, 45))
    pair.old, pair.new, pair.packages, pair.module = many.old, many.new, many.packages, many.module
    pair.add(pair.packages[0], "more.go", "package %s\n\nfunc More(T)\n" % pair.packages[0].name, [draw.choice(pair.trees())])


def library_by_platform(draw, pair):
    """What is imported from elsewhere differs between platforms."""
    one, other = alternating(draw, pair)
    pair.std[b"lib/l_%s.go" % one.encode()] = b"package lib\n\nconst Own = 1\n"
    if draw.randrange(2):
        pair.std[b"lib/deep/d_%s.go" % other.encode()] = b"package deep\n\nfunc More(T)\n"
    package = draw.choice(pair.packages)
    pair.add(package, "uses.go", "package %s\n\nimport \"other\"\n\nvar Of other.T\n" % package.name, pair.some(draw))


def left_out_elsewhere(draw, pair):
    """What is left out stands in files that have other names on the new side, or differ by platforms."""
    package = draw.choice(pair.packages)
    pair.add(package, "left.go", "package %s\n\nconst half = 0.5\n\nvar byHalf = half\n" % package.name, [pair.old])
    pair.add(package, draw.choice(["left.go", "lift.go", "aleft.go"]), "package %s\n\nconst half = 0.5\n\nvar byHalf = half\n" % package.name, [pair.new])
    if draw.randrange(2):
        one, _ = alternating(draw, pair)
        pair.add(package, "g_%s.go" % one, "package %s\n\ntype hidden [2.0]int\n" % package.name)


def build_lines_changed(draw, pair):
    """The same declarations are chosen by other platforms on the new side."""
    one, other = alternating(draw, pair)
    package = draw.choice(pair.packages)
    pair.add(package, "lines.go", "//go:build %s\n\npackage %s\n\nconst Line = 1\n" % (one, package.name), [pair.old])
    pair.add(package, "lines.go", "//go:build %s\n\npackage %s\n\nconst Line = 1\n" % (draw.choice([other, "!" + one, one + " || " + other]), package.name), [pair.new])


def imports_c(draw, pair):
    """A file that imports "C" is in no package, on some platforms or in one tree."""
    one, _ = alternating(draw, pair)
    package = draw.choice(pair.packages)
    pair.add(package, "c_%s.go" % one, "package %s\n\nimport \"C\"\n\nvar X C.int\n" % package.name, pair.some(draw))
    pair.add(package, "d.go", "package %s\n\n%svar Of int\n" % (package.name, draw.choice(["", "import \"C\"\n\n"])), pair.some(draw))


def name_of_an_import_declared(draw, pair):
    """Another file declares the name of an import, in one tree or on some platforms, so that the import isn't used there."""
    one, _ = alternating(draw, pair)
    package = draw.choice(pair.packages)
    pair.add(package, "uses.go", "package %s\n\nimport \"lib\"\n\nvar %s = lib.N\n" % (package.name, draw.choice(["Of", "of"])))
    pair.add(package, draw.choice(["b.go", "b_%s.go" % one]), "package %s\n\nvar lib struct {\n\tN int\n}\n" % package.name, pair.some(draw))


KINDS = [platforms_alternate, sizes_alternate, folder_without_files, import_on_some, import_in_one_tree, main_on_one, named_by_platform, reading_refused_later, typing_refused_later,
         new_refused, cycle_on_one, file_moved, file_renamed, files_swapped, byte_changed, another_module, import_changed, equal_trees, first_of_many, library_by_platform,
         left_out_elsewhere, build_lines_changed, imports_c, name_of_an_import_declared]
# those for trees of which nothing but the files is known
OF_ANY = [kind for kind in KINDS if kind not in (platforms_alternate, equal_trees, first_of_many, name_of_an_import_declared)]
def spoiled(draw, pair):
    """Spoils a file of a tree."""
    tree = draw.choice(pair.trees())
    names = [name for name in sorted(tree) if name.endswith(b".go") and tree[name]]
    if names:
        name = draw.choice(names)
        tree[name] = sources.spoiled_bytes(draw, tree[name])
