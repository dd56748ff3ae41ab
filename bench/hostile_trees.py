"""The trees of bench/hostile: what a module can hold at most of one thing. Each is made for a share of the limits, 4, 2 or 1."""
import collections

import client_bodies

FILE, TREE, FILES, PACKAGES, FOLDERS, FROZEN, MAKES = 4 << 20, 64 << 20, 20000, 4096, 65536, 16 << 20, 2000

# a tree's files by the share, the mode in which it is read, and the statuses with which that may end
Tree = collections.namedtuple("Tree", "name files mode statuses")
TREES = []


def tree(name, mode="features", statuses=(0,)):
    """Makes a function that gives the files of a share a tree."""
    def made(files):
        TREES.append(Tree(name, files, mode, statuses))
        return files
    return made


def module(text):
    """The files of a module with one file."""
    return {"new/go.mod": "module m\n", "new/p/p.go": text}


def filled(limit, head, link, foot=lambda last: ""):
    """A text of about so many bytes: HEAD, links numbered from 1, and FOOT for the last number."""
    parts, left = [], limit - len(head) - 64
    while left > 0:
        parts.append(link(len(parts) + 1))
        left -= len(parts[-1])
    return head + "".join(parts) + foot(len(parts))


def one_file(name, head, link, foot=lambda last: "", statuses=(0,), limit=FILE, mode="features"):
    """A tree of one file."""
    tree(name, mode, statuses)(lambda share: module(filled(limit // share, "package p\n" + head, link, foot)))


def many_files(name, link, head=lambda file: "", statuses=(0,)):
    """A tree of sixteen files, of 4 MiB at most, in one package; a link is told the numbers of its file and its own."""
    tree(name, "features", statuses)(lambda share: {"new/go.mod": "module m\n", **{
        "new/p/f%d.go" % n: filled(FILE // share, "package p\n" + head(n), lambda m, n=n: link(n, m)) for n in range(16)}})


def doubled(form):
    """A type of 65,535 nodes or more by sixteen aliases, and two variables of it."""
    return "type a0 = int\n" + "".join("type a%d = " % n + form.replace("*", "a%d" % (n - 1)) + "\n" for n in range(1, 16)) + "var x, y a15\n"


# tokens and grammar
one_file("open parentheses", "const X = ", lambda n: "(" * 64, statuses=(3,), limit=4_000_000)
one_file("blank lines", "", lambda n: "\n" * 64)
one_file("one comment", "/*", lambda n: "*" * 64, lambda last: "/\n")
one_file("one string", 'const X = "', lambda n: "a" * 64, lambda last: '"\n', (0, 3))
one_file("one number", "const X = 1", lambda n: "0" * 64, statuses=(3,))
one_file("one name", "var ", lambda n: "a" * 64, lambda last: " int\n")
tree("lines before the package")(lambda share: module(filled(FILE // share, "", lambda n: "// a\n", lambda last: "package p\n")))
one_file("imports of a header", "", lambda n: 'import _ "x/%d"\n' % n)
tree("imports that aren't found, for what is left out")(lambda share: module("package p\n" + "".join('import a%d "x/%d"\n' % (n, n) for n in range(80000 // share)) + "".join(
    "var v%d = a%d.X\n" % (n, n) for n in range(80000 // share))))
tree("imports that aren't found, beside what is seen")(lambda share: {**module("package p\n" + "".join('import a%d "x/%d"\n' % (n, n) for n in range(40000 // share)) + 'import q "m/q"\n' + "".join(
    "var v%d = a%d.X\nvar V%d q.T\n" % (n, n, n) for n in range(40000 // share))), "new/q/q.go": "package q\ntype T int\n"})
tree("terms of a build line")(lambda share: module(filled(FILE // share, "//go:build linux", lambda n: "&&linux", lambda last: "\n\npackage p\n")))

# expressions
one_file("terms of a sum", "var a int\nvar X = a", lambda n: "+a")
one_file("terms of a constant sum", "const X = 1", lambda n: "+1")
one_file("selectors", "type T struct{ x *T }\nvar a T\nvar X = a", lambda n: ".x")
one_file("calls of results", "type F func() F\nvar f F\nvar X = f", lambda n: "()")
one_file("elements of a literal", "var X = []int{", lambda n: "1,", lambda last: "}\n")
one_file("keys of an array's literal", "var X = [...]int{", lambda n: "%d:1," % n, lambda last: "}\n")
one_file("keys of a map's literal", "var X = map[int]int{", lambda n: "%d:1," % n, lambda last: "}\n")
one_file("arguments", "func f(...int) int\nvar X = f(1", lambda n: ",1", lambda last: ")\n")
tree("keys of a struct's literal")(lambda share: module("package p\ntype T struct {\n" + "".join("f%d int\n" % n for n in range(96000 // share)) + "}\nvar X = T{\n" + "".join(
    "f%d: 1,\n" % n for n in range(96000 // share)) + "}\n"))

# declarations
one_file("constants of a group", "const (\nA = iota\n", lambda n: "a%d\n" % n, lambda last: ")\n")
tree("a long expression that constants repeat")(lambda share: module("package p\nconst (\nA = 1" + "+1" * (1000000 // share) + "\n" + "".join("a%d\n" % n for n in range(250000 // share)) + ")\n"))
one_file("constants of texts of 65,000 bytes", 'const s = "' + "x" * 65000 + '"\n', lambda n: "const s%d = s\n" % n)
tree("fields that have a tag in common")(lambda share: module("package p\ntype t struct { f0" + "".join(", f%d" % n for n in range(1, 90000 // share)) + " int `" + "x" * (2000000 // share) + "` }\n"))
one_file("constants of later ones", "", lambda n: "const c%d = c%d\n" % (n, n + 1), lambda last: "const c%d = 1\n" % (last + 1))
one_file("variables of one", "var a int\n", lambda n: "var v%d = a\n" % n)
one_file("declarations of the last", "", lambda n: "var v%d z\n" % n, lambda last: "type z int\n")
one_file("one name again and again", "", lambda n: "var a int\n", statuses=(3,))
one_file("nameless variables", "", lambda n: "var _ = 1\n")
one_file("aliases of later ones", "", lambda n: "type t%d = t%d\n" % (n, n + 1), lambda last: "type t%d = int\n" % (last + 1))
one_file("types of later ones", "", lambda n: "type t%d t%d\n" % (n, n + 1), lambda last: "type t%d int\n" % (last + 1))
one_file("embedded pointers", "type t0 struct{ F int }\n", lambda n: "type t%d struct{ *t%d }\n" % (n, n - 1), lambda last: "type Top struct{ t%d }\n" % last)
one_file("embedded interfaces", "type t0 interface{ M() }\n", lambda n: "type t%d interface{ t%d }\n" % (n, n - 1), lambda last: "type Top interface{ t%d }\n" % last)
tree("an interface that one embeds again and again", "features", (0,))(lambda share: module("package p\ntype I interface {" + "".join("m%d();" % n for n in range(49000 // share)) + "}\ntype J interface {" + "I;" * (900000 // share) + "}\n"))
tree("interfaces that each embed a large one", "features", (0, 6))(lambda share: module("package p\ntype I interface {" + "".join("m%d();" % n for n in range(16000 // share)) + "}\n" + "".join("type t%d interface { I }\n" % n for n in range(16000 // share))))
# a type of more than 100,000 nodes is refused
one_file("fields", "type X struct {\n", lambda n: "F%d int\n" % n, lambda last: "}\n", (0, 3))
one_file("methods of an interface", "type X interface {\n", lambda n: "M%d()\n" % n, lambda last: "}\n", (0, 3))
one_file("methods of a type", "type X int\n", lambda n: "func (X) M%d()\n" % n)
one_file("parameters", "func X(", lambda n: "a%d int," % n, lambda last: ")\n", (0, 3))
one_file("results of a call", "func f() (int", lambda n: ",int", lambda last: ")\nfunc g(...int) int\nvar X = g(f())\n", (0, 3))
one_file("a type of 65,535 nodes in each line", doubled("func(*) *"), lambda n: "var v%d a15\n" % n)
one_file("comparisons at a type of 65,535 nodes", doubled("struct{ F, G * }"), lambda n: "var v%d = x == y\n" % n)
one_file("conversions to a type of 65,535 nodes", doubled("struct{ F, G * }"), lambda n: "var v%d = a15(x)\n" % n)
one_file("parameters and results of a type of 32,767 nodes", doubled("func(*) *"), lambda n: "func f%d(a14) a14\n" % n)
one_file("elements of a type of 65,535 nodes", doubled("struct{ F, G * }"), lambda n: "var v%d = []a15{x}[0]\n" % n)
for form in "*{}", "[]{}", "[2]{}", "map[int]{}", "chan {}", "func({})", "struct{{ F {} }}", "interface{{ M({}) }}":
    one_file("a type of 32,767 nodes below " + form.format("T").replace("{ ", "{").replace(" }", "}"), doubled("func(*) *"), lambda n, form=form: "var v%d %s\n" % (n, form.format("a14")))
one_file("constants that are left out", "const f = 0.5\n", lambda n: "const c%d = f\n" % n)
tree("interfaces that all embed each other", "features", (3,))(lambda share: module("package p\n" + "".join(
    "type i%d interface {%s}\n" % (n, ";".join("i%d" % m for m in range(840 // share) if m != n)) for n in range(840 // share))))
tree("2,000 interfaces that all embed each other", "features", (3,))(lambda share: {"new/go.mod": "module m\n", **{"new/p/f%d.go" % f: "package p\n" + "".join(
    "type i%d interface {%s}\n" % (n, ";".join("i%d" % m for m in range(2000 // share) if m != n)) for n in range(2000 // share) if n % 8 == f) for f in range(8)}})
tree("promoted methods of a chain", "features", (0, 6))(lambda share: module("package p\ntype T0 struct{}\nfunc (T0) M0()\n" + "".join(
    "type T%d struct{ T%d }\nfunc (T%d) M%d()\n" % (n, n - 1, n, n) for n in range(1, 4000 // share))))
tree("selected methods of a type")(lambda share: module("package p\ntype T int\nvar t T\n" + "".join(
    "func (T) M%d()\nvar v%d = t.M%d\n" % (n, n, n) for n in range(96000 // share))))

# files and packages
tree("files of one folder")(lambda share: {"new/go.mod": "module m\n", **{"new/p/f%d.go" % n: "package p\nconst C%d = 1\n" % n for n in range(FILES // share)}})
tree("files of as many folders", "features", (0, 3))(lambda share: {"new/go.mod": "module m\n", **{"new/d%d/f.go" % n: "package p\n" for n in range(FILES // share)}})
tree("folders", "features", (0,))(lambda share: {"new/go.mod": "module m\n", **{"new/d%d/README" % n: "" for n in range(FOLDERS // share - 1)}})
tree("packages in a row")(lambda share: {"new/go.mod": "module m\n", "new/p0/a.go": "package p0\ntype T int\n", **{
    "new/p%d/a.go" % n: 'package p%d\nimport "m/p%d"\ntype T struct{ A p%d.T }\n' % (n, n - 1, n - 1) for n in range(1, PACKAGES // share)}})
tree("packages in a circle", "features", (3,))(lambda share: {"new/go.mod": "module m\n", **{
    "new/p%d/a.go" % n: 'package p%d\nimport "m/p%d"\ntype T struct{ A *p%d.T }\n' % (n, (n + 1) % (PACKAGES // share), (n + 1) % (PACKAGES // share))
    for n in range(PACKAGES // share)}})
tree("packages that import all before")(lambda share: {"new/go.mod": "module m\n", **{
    "new/p%d/a.go" % n: "package p%d\n" % n + "".join('import "m/p%d"\n' % m for m in range(n)) + "".join(
        "var X%d p%d.T\n" % (m, m) for m in range(n)) + "type T int\n" for n in range(1500 // share)}})
tree("a chain of 400,000 constants")(lambda share: {"new/go.mod": "module m\n", **{"new/p/f%d.go" % f: "package p\n" + "".join(
    "const c%d = %s\n" % (n, "c%d" % (n + 1) if n + 1 < 400000 // share else "1") for n in range(f, 400000 // share, 16)) for f in range(16)}})
many_files("64 MiB of constants", lambda n, m: "const c%d_%d = 1\n" % (n, m))
many_files("64 MiB of structs", lambda n, m: "type T%d_%d struct{ A, B int; C []string }\n" % (n, m))
many_files("64 MiB of functions", lambda n, m: "func F%d_%d(a, b int) (c string, d error) { return }\n" % (n, m))
many_files("64 MiB of comments", lambda n, m: "// a line\n")
many_files("64 MiB of selectors", lambda n, m: ".x", lambda n: ("type T struct{ x *T }\nvar a T\n" if n == 0 else "") + "var X%d = a" % n, (0, 6))

# frozen lines and judgements
EMPTY = {"new/go.mod": "module m\n"}
tree("a frozen line of 16 MiB", "frozen", (1,))(lambda share: {**EMPTY, "api.txt": "pkg p, const " + "a" * (FROZEN // share - 16) + "\n"})
tree("frozen lines", "frozen", (1,))(lambda share: {**EMPTY, "api.txt": filled(FROZEN // share, "", lambda n: "pkg p, var v%d\n" % n)})
tree("comments of a frozen file", "frozen")(lambda share: {**EMPTY, "api.txt": "#\n" * (FROZEN // share // 2)})


def pair(old, new):
    return {"old/go.mod": "module m\n", "new/go.mod": "module m\n", "old/p/p.go": old, "new/p/p.go": new}


tree("types that all lose a field", "judge", (1,))(lambda share: pair(
    filled(FILE // share, "package p\n", lambda n: "type T%d struct{ A, B int }\n" % n), filled(FILE // share, "package p\n", lambda n: "type T%d struct{ A, C int }\n" % n)))
tree("types that all become one", "judge", (1,))(lambda share: pair(
    filled(FILE // share, "package p\n", lambda n: "type T%d struct{ A int }\n" % n), filled(FILE // share, "package p\ntype t struct{ A int }\n", lambda n: "type T%d = t\n" % n)))
tree("interfaces and types that implement them all", "judge", (0,))(lambda share: pair(*2 * [
    "package p\n" + "".join("type I%d interface{ m() }\ntype T%d struct{}\nfunc (T%d) m()\n" % (n, n, n) for n in range(1000 // share))]))
tree("a type with methods that an interface lists", "judge", (0,))(lambda share: pair(*2 * [
    "package p\ntype I interface{ u()\n" + "".join("M%d()\n" % n for n in range(4000 // share)) + "}\ntype T int\nfunc (T) u()\n" + "".join("func (T) M%d()\n" % n for n in range(4000 // share))]))


# clients, whose bodies `vet` reads
def client(text):
    """The files of a client with one file."""
    return {**client_bodies.MODULE, "client/c.go": text}


for kind, (make, most) in client_bodies.KINDS.items():
    kind == "platforms" or tree("a client of " + kind, "vet")(lambda share, make=make, most=most: {**client_bodies.MODULE, **make(most // share)})


def one_client(name, head, link, foot, statuses=(0,), limit=FILE):
    """A tree whose client is one file of so many bytes with one function."""
    tree("a client of " + name, "vet", statuses)(lambda share: client(filled((limit - len(link(1))) // share, "package c\n" + head, link, foot)))


one_client("blocks in one another, again and again", "func f(x int) {\n", lambda n: "{" * 200 + "x++" + "}" * 200 + "\n", lambda last: "}\n")
one_client("open braces", "func f() ", lambda n: "{" * 64, lambda last: "\n", (3,), 4_000_000)
one_client("labels", "func f() {\n", lambda n: "l%d: goto l%d\n" % (n, n), lambda last: "}\n")
one_client("jumps to a later label", "func f() {\n", lambda n: "goto l\n", lambda last: "l:\n}\n")
one_client("names in nested scopes", "func f(x int) {\n", lambda n: "{ x := x + %d; _ = x }\n" % n, lambda last: "}\n")
one_client("values of a statement", "func f(x int) {\nvar y int\n", lambda n: "x, y = y, x\n", lambda last: "}\n")
one_client("names of one declaration", "func f() { var ", lambda n: "a%d, " % n, lambda last: "z int; _ = z }\n")
one_client("cases of communications", "func f(c chan int) { select {\n", lambda n: "case x := <-c: _ = x + %d\n" % n, lambda last: "} }\n")
one_client("literals in one another, again and again", "func f(x int) {\n", lambda n: "func() {" * 60 + "x++" + "}()" * 60 + "\n", lambda last: "}\n")
one_client("a type of 65,535 nodes in each line", doubled("func(*) *") + "func f() {\n", lambda n: "var v%d a15; _ = v%d\n" % (n, n), lambda last: "}\n", limit=FILE // 16)
one_client("comparisons at a type of 65,535 nodes", doubled("struct{ F, G * }") + "func f() {\n", lambda n: "_ = x == y\n", lambda last: "}\n", limit=FILE // 64)
