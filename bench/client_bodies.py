"""Clients with large bodies, for the scripts that measure `vet`: each is a function of a size, and the module beside it."""

DEEP = 250
MODULE = {"new/go.mod": "module m\n", "new/p/p.go": "package p\n\ntype T struct{ A int }\n\nfunc (T) M(int) T\n\nfunc F(int) T\n"}


def one_body(lines):
    return {"client/c.go": "package c\n\nimport \"m/p\"\n\nvar v = p.F(0)\n\nfunc f(x int) int {\n" + "".join(line + "\n" for line in lines) + "return x\n}\n"}


def bytes_of(size):
    """A body of so many bytes, of mixed statements."""
    forms = ["x = v.M(x).A + {n}", "if y{n} := x; y{n} > 1 {{ x += y{n} }}", "z{n} := p.F(x)", "x = z{n}.A", "for i := 0; i < x; i++ {{ x -= i }}", "switch x {{ case 1, 2: x++; default: x-- }}"]
    lines, length, number = [], 0, 0
    while length < size:
        for form in forms:
            lines.append(form.format(n=number))
            length += len(lines[-1]) + 1
        number += 1
    return one_body(lines)


def statements(count):
    return one_body(["x = x*3 + v.A"] * count)


def variables(count):
    return one_body(["y%d := x" % number for number in range(count)] + ["x = " + " + ".join("y%d" % number for number in range(0, count, count // 50 or 1))])


def nested(count):
    """Blocks in one another, as deeply as the limit on height lets them, again and again in a body."""
    lines = []
    for _ in range(count):
        lines += ["{"] * DEEP + ["x++"] + ["}"] * DEEP
    return one_body(lines)


def else_ifs(count):
    """The same of `else if`."""
    return one_body(["if x > 1 { x++ } " + " ".join("else if x > %d { x-- }" % at for at in range(DEEP)) for _ in range(count)])


def deep_literals(count):
    """The same of function literals, each of which is three high."""
    return one_body(["func() {" * (DEEP // 3) + "x++" + "}()" * (DEEP // 3) for _ in range(count)])


def literals(count):
    return one_body(["func(y int) int { x += y; return y }(%d)" % number for number in range(count)])


def cases(count):
    return one_body(["switch x {"] + ["case %d: x++" % number for number in range(count)] + ["}"])


def type_cases(count):
    files = one_body(["switch interface{}(x).(type) {"] + ["case [%d]int: x++" % number for number in range(count)] + ["}"])
    return files


def functions(count):
    return {"client/c.go": "package c\n\nimport \"m/p\"\n\n" + "".join("func f%d(x p.T) int { y := x.M(%d); return y.A + f%d(y) }\n" % (number, number, (number + 1) % count) for number in range(count))}


def files(count):
    """A client of many files over a module of twice as many packages."""
    found = {"new/q%d/q.go" % number: "package q%d\n\ntype T struct{ A int }\n\nfunc F(T) int\n" % number for number in range(2 * count)}
    for number in range(count):
        found["client/c%d.go" % number] = "package c\n\nimport (\n\t\"m/q%d\"\n\t\"m/q%d\"\n)\n\nfunc f%d() int { var x q%d.T; return q%d.F(x) + q%d.F(q%d.T{}) }\n" % (
            2 * number, 2 * number + 1, number, 2 * number, 2 * number, 2 * number + 1, 2 * number + 1)
    return found


KINDS = {
    "bytes": (bytes_of, (4 << 20) - 1024), "statements": (statements, 100000), "variables": (variables, 100000), "blocks": (nested, 160),
    "else-if": (else_ifs, 400), "deep-literals": (deep_literals, 400), "literals": (literals, 20000), "cases": (cases, 100000),
    "type-cases": (type_cases, 100000), "functions": (functions, 20000), "files": (files, 1000), "platforms": (statements, 20000),
}
