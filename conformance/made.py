"""Sources made for conformance/syntax: forms that spoiled copies seldom reach, with no answer of their own."""

HEAD = "package p\n"

# What Go's parser and the gate take differently, and near it what both take or refuse.
LINES = """
import . "a"
import _ "a"
import ""
import `a b`
import ("a"; b "c")
import (;)
const A
const A int
const (A = iota; B; C int)
const (A = 1; B)
const A, B = 1
var a
var a int = 1
var a, b
type a = b
type a
type a[b any] c
type a[b *[]c] d
type a[b *c] d
type a[b (c)] d
type a[b] c
type a []b
type a [...]b
type a [2]b
type a b[c]
type a struct { b; *c; d.e; *f.g; h, i j "k"; l "m" }
type a struct { (b) }
type a struct { *(b) }
type a struct { **b }
type a struct { []b }
type a struct { b[c] }
type a struct { b [c]d }
type a struct { ; }
type a struct { b "c" "d" }
type a interface { b(); c; d.e }
type a interface { (b) }
type a interface { *b }
type a interface { b | c }
type a interface { ~b }
type a interface { b[c] }
type a interface { b, c() }
type a interface { b[c any]() }
type a func(b, c d) (e, f)
type a func(b, c d.e)
type a func(b c, d)
type a func(b.c, d)
type a func(b, c ...d)
type a func(b ...c)
type a func(b ...c, d e)
type a func(...b)
type a func(...b, c)
type a func() (...b)
type a func() (b)
type a func(b,)
type a func(,)
type a func(b c,)
type a func() func() b
type a chan<- <-chan b
type a <-chan <-chan b
type a <-chan chan<- b
type a chan (<-chan b)
type a map[b]map[c]d
type a ((b))
type a *(b)
func a()
func a() {}
func a() { if { [ ( ) ] } else ; case }
func a() { ( }
func a() { ( ] }
func a() } {
func a[b any]() {}
func (a b) c() {}
func (b) c() {}
func (a, b c) d() {}
func (a b, c d) e() {}
func () a() {}
func (...a) b() {}
func (a ...b) c() {}
func (a b,) c() {}
func (a b[c]) d() {}
func (a *b) c() (d, e) { return }
func a() (b) {}
func a() b {}
func a() struct { b c } {}
func a() func() b {}
func a() []func() b {}
func a
func ()
func a();
func a() b c
var a = b.(c)
var a = b.(type)
var a = b[c:d:e]
var a = b[c::e]
var a = b[:d:]
var a = b[:]
var a = b[]
var a = b[c, d]
var a = b[c,]
var a = b[[]c]
var a = b[<-chan c]
var a = b(c, d...)
var a = b(c..., d)
var a = b(c...,)
var a = b(...)
var a = b(,)
var a = b([]c, 1)
var a = b(<-chan c)
var a = b(<-chan c, d)
var a = b(d, <-chan c)
var a = b(<-chan c...)
var a = (<-chan c)(d)
var a = ((<-chan c))(d)
var a = <-chan c(d)
var a = <-chan c
var a = <-(chan c)(d)
var a = <-<-b
var a = *<-chan c
var a = (*<-chan c)(d)
var a = chan b(c)
var a = (chan<- b)(c)
var a = []b
var a = []b(c)
var a = []b[c]
var a = []b[1]
var a = []b[c]{}
var a = []b{1, 2: 3, {4}, 5: {6},}
var a = [...]b{}
var a = [...]b
var a = [...]b(c)
var a = ([...]b)(c)
var a = [2]b{}
var a = map[b]c{{}: {}}
var a = map[b]func() c{d: e}
var a = []func(){b, func() {}}
var a = []*func(){b}
var a = [2][]func() func(){b}
var a = func() {}
var a = func() func() { return 1 }
var a = func() []func() { b }
var a = func(b func()) { c }(d)
var a = func() struct { b c } { d }
var a = func()
var a = func() b(c)
var a = struct{}{}
var a = struct { b c }{d}
var a = interface{}{}
var a = interface{}(b)
var a = b{}
var a = b.c{}
var a = b.c.d{}
var a = b().c{}
var a = b[c]{}
var a = (b){}
var a = (b{})
var a = &b{c: d}
var a = b{,}
var a = b{c:}
var a = {}
var a = b{c}{d}
var a = b{c}[d].e(f)
var a = ~b
var a = b ~ c
var a = b &^ c << d && e || !f == -g
var a = b && []c
var a = -[]c
var a = []b.c
var a = []b.(c)
var a = []b{}.c
var a = map[b]c.d[e]
var a = 08
var a = 0x
var a = 1_
var a = 0b12
var a = 1e
var a = 0x.p1
var a = '\\400'
var a = "\\q"
var a = 'ab'
var a = b; var c = d
var a = b,
var a = b c
var (a = b)
var ()
var (a = b; ; c = d)
;
label: var a = b
if a {}
package q
type (a b; c = d)
type a b )
type a struct { b c ) }
type a interface { b() ) }
""".strip().split("\n")

# (before, repeated before the inner, the inner, repeated behind it, behind)
NESTS = [
    ("var a = ", "(", "b", ")", ""), ("var a = ", "!", "b", "", ""), ("var a = ", "*", "b", "", ""), ("type a ", "*", "b", "", ""),
    ("type a ", "[]", "b", "", ""), ("type a ", "(", "b", ")", ""), ("type a ", "chan ", "b", "", ""), ("type a ", "map[b]", "b", "", ""),
    ("type a ", "map[", "b", "]b", ""), ("var a = ", "b(", "c", ")", ""), ("var a = ", "b[", "c", "]", ""), ("var a = ", "b.(*[]", "c", ")", ""),
    ("var a = b", "", "", "()", ""), ("var a = b", "", "", ".c", ""), ("var a = b", "", "", "+b*b", ""), ("var a = ", "b+(", "c", ")+b", ""),
    ("type a ", "struct { b ", "c", " }", ""), ("type a ", "interface { b(", "c", ") }", ""), ("type a ", "func(", "b", ")", ""),
    ("type a ", "func() ", "b", "", ""), ("var a = []b", "{", "c", "}", ""), ("var a = ", "b{c: ", "d", "}", ""), ("var a = ", "[...]b{", "c", "}", ""),
    ("func a(b ", "[]", "c", "", ")"), ("func (a ", "*", "b", "", ") c()"), ("func a() {", "(", "b", ")", "}"), ("var a = func() {", "{", "b", "}", "}"),
]

# Statements, alone in a function.
STATEMENTS = """

;
;;
{}
{;}
{ ; }
x
x; y
x; y;
x y
x,
x, y
x.y
x()
x().y[z]
(x)
[]x
[]x{}
[]x(y)
[]x[y](z)
[]*x[y](z)
map[x]y[z](a)
x([]y[z])
x([]func() y[z])
struct{}{}
chan x
func() {}
func() {}()
func() { func() { func() {} } }
func() int
x{}
x{y: z, {}}
*x = y
<-x
<-x = y
<-chan x(y)
!x
1
"a"
x <- y
x <- <-y
x, y <- z
x <- y, z
x <- []y
x++
x--
x, y++
++x
x = y
x, y = z
x, y = z, a
x = y, z
x = y = z
x == y
[]x = y
x = []y
x := y
x, y := z
x.y := z
(x) := y
_ := x
x, y.z := a
1 := x
x := []y
x += y
x -= y
x *= y
x /= y
x %= y
x &= y
x |= y
x ^= y
x <<= y
x >>= y
x &^= y
x, y += z
x += y, z
x, y += z, a
x =+ y
const x = 1
const x
const x int
const (x = iota; y; z)
const ()
const x, y int = 1, 2
var x
var x int
var x, y = z
var x int = y
var x []y = z
var (x int; y = z)
var ()
type x int
type x = y
type (x int)
type ()
import "x"
func x() {}
x: y
x: y: z
x:
x:;
x: {}
x: for {}
x.y: z
(x): y
x: var y int
{ x: }
x: case y:
go x
go x()
go (x())
go x().y
go func() {}()
go []x(y)
go []x
go x; y
go
defer x
defer x()
defer (x)()
defer (x())
defer func() { x }()
return
return x
return x, y
return func() { return }
return []x
return x,
break
break x
break x y
break 1
continue
continue x
goto
goto x
goto 1
fallthrough
fallthrough x
if x {}
if x { y } else { z }
if x {} else if y {} else {}
if x {} else if y {} else if z {}
if x {} else y
if x {} else
if {}
if ; x {}
if x; y {}
if x := y; z {}
if x, y := z; a {}
if x = y; z {}
if x++; y {}
if x <- y; z {}
if x := y {}
if x; {}
if ; {}
if ;; {}
if x; y; z {}
if var x = y; z {}
if x{} {}
if (x{}) {}
if x == y{} {}
if x == (y{}) {}
if []x{} {}
if [...]x{} {}
if x([]y{z{}}) {}
if x[y{}] {}
if &x{} {}
if func() bool { return x{} }() {}
if func() { if x{} {} }() {}
if struct{}{} == x {}
if map[x]y{} == z {}
if interface{}(x) {}
if x, y {}
if []x {}
if x {} y
if x { y }; else { z }
if (x := y); z {}
switch {}
switch x {}
switch x { case y: }
switch x { case y, z: a; b }
switch x { case y: z; default: a; case b: }
switch x { default: default: }
switch x { case: }
switch x { case y }
switch x { case y: fallthrough; case z: }
switch x { case y: {}; case z: ; }
switch x { case []y: }
switch x { case y := z: }
switch x { y }
switch x { case y: z: }
switch x { case y: z: case a: }
switch ; {}
switch ;; {}
switch ; x {}
switch x; {}
switch x; y {}
switch x := y; {}
switch x := y; z {}
switch x := y {}
switch x, y {}
switch x{} {}
switch (x{}) {}
switch x.y {}
switch x() {}
switch []x{} {}
switch []x {}
switch x; y; z {}
switch x.(type) {}
switch x := y.(type) {}
switch x = y.(type) {}
switch x, y := z.(type) {}
switch x, y := z.(type), a {}
switch x.y := z.(type) {}
switch _ := x.(type) {}
switch (x.(type)) {}
switch x := (y.(type)); z {}
switch *x.(type) {}
switch -x.(type) {}
switch x.(type) + y {}
switch x.(type).y {}
switch y + x.(type) {}
switch x[y].z().(type) {}
switch (x + y).(type) {}
switch x{}.(type) {}
switch []x{}.(type) {}
switch func() {}.(type) {}
switch x; y.(type) {}
switch x := y; z.(type) {}
switch x := y; z := a.(type) {}
switch ; x := y.(type) {}
switch x.(type); y {}
switch x.(type); {}
switch x.(type) { case int, nil: y; case *z.a, []b, func(c) d: default: }
switch x.(type) { case y(z): }
switch x.(type) { case 1: }
switch x.(type) { case y + z: }
switch x.(type) { case y[z]: }
switch x.(type) { case (y): }
switch x.(type) { case []y{}: }
switch x.(type) { case struct{ y z }, interface{ a() }, map[b]c, chan d, <-chan e, chan<- f: }
switch x.(type) { case: }
switch x.(type) { case y: fallthrough }
x.(type)
x = y.(type)
x := y.(type)
x(y.(type))
x.(y).(type)
select {}
select { case <-x: }
select { case (<-x): ; case ((<-y)): }
select { case x <- y: z; default: a }
select { case x = <-y: case z, a = <-b: case c := <-d: case e, f := <-g: }
select { case x := (<-y): }
select { case x, y, z := <-a: }
select { case x, y, z = <-a: }
select { case x, y := <-z, <-a: }
select { case x: }
select { case x(): }
select { case x + <-y: }
select { case <-x + y: }
select { case -<-x: }
select { case x := y: }
select { case x = y: }
select { case x.y = <-z: case a[b], c.d = <-e: }
select { case x.y := <-z: }
select { case x += <-y: }
select { case x++: }
select { case <-x, <-y: }
select { case <-x.(y): case <-(z): case <-a(): case <-<-b: }
select { case <-chan x(y): }
select { case x{} <- y{}: }
select { case x := <-y{}: }
select { case []x <- y: }
select { case var x = <-y: }
select { case: }
select { default: default: }
select { case <-x: y: }
select x {}
select { x }
for {}
for x {}
for x.y() {}
for ; ; {}
for ;; x++ {}
for ; x; {}
for x; ; {}
for x := 0; x < y; x++ {}
for x, y := 0, 1; ; x, y = y, x {}
for x = y; z; a() {}
for x <- y; z; <-a {}
for ; ; x := y {}
for x; y {}
for x; {}
for ; {}
for x := y {}
for x++ {}
for ; x := y; {}
for x{} {}
for (x{}) {}
for ; x{}; {}
for ; ; x{} {}
for x := y{}; ; {}
for x := []y{}; ; {}
for var x = 0; ; {}
for x, y {}
for []x {}
for range x {}
for range x{} {}
for range (x{}) {}
for range []x{y{}} {}
for range func() { x{} } {}
for range {}
for range x, y {}
for range []x {}
for x = range y {}
for x, y = range z {}
for x.y, z[a] = range b {}
for *x = range y {}
for x, y, z = range a {}
for x := range y {}
for x, y := range z {}
for x, y, z := range a {}
for x, y, z, a := range b {}
for x.y := range z {}
for x, y.z := range a {}
for x += range y {}
for x == range y {}
for x := range y; z {}
for ; x := range y; {}
for x range y {}
for _, _ = range x {}
for x := range <-y {}
for x := range chan y {}
x := range y
x = range y
else {}
case x:
default:
range x
...x
x...
x(y...)
)
}
]
}; func g() {
}; var x = func() { y }; func g() {
""".split("\n")

STATEMENT_NESTS = [
    ("", "{", "", "}", ""), ("", "{", "a()", "}", ""), ("", "if a {", "", "}", ""), ("", "if a {} else ", "{}", "", ""), ("", "for {", "b", "}", ""), ("", "a: ", "b", "", ""),
    ("", "switch { case a: ", "b", "}", ""), ("", "switch a.(type) { case b: ", "c", "}", ""), ("", "select { case <-a: ", "b", "}", ""), ("", "func() {", "", "}()", ""),
    ("a = ", "func() { return ", "b", "}", ""), ("", "for range a {", "return", "}", ""), ("", "for a := range b {", "c", "}", ""), ("", "select { default: ", "goto a", "}", ""),
    ("return ", "(", "a", ")", ""), ("a <- ", "!", "b", "", ""), ("a[", "b(", "c", ")", "]++"), ("const a = ", "(", "b", ")", ""), ("var a ", "[]", "b", "", ""),
    ("switch ", "(", "a", ")", " {}"), ("switch ", "(", "a", ")", ".(type) {}"), ("switch a.(type) { case ", "[]", "b", "", ": }"), ("select { case ", "(", "<-a", ")", ": }"),
    ("select { case a = ", "(", "<-b", ")", ": }"), ("for a := range ", "(", "b", ")", " {}"), ("for ; ; ", "(", "b", ")", " {}"), ("defer ", "a(", "b()", ")", ""),
    ("go func() {", "{", "break a", "}", "}()"), ("if a := func() { ", "if b {", "c", "}", "}; a {}"), ("a, ", "*", "b", "", " = c"), ("switch { case ", "(", "a", ")", ": }"),
    ("for { func() { a(func() { ", "{", "continue", "}", "}) }() }"), ("var a = func() ", "[]", "b", "", " { c }"), ("a := b{", "{", "c", "}", "}"), ("a(func(b ", "[]", "c", "", ") {})"),
]


def bodies():
    """Each source of a body as its title and its bytes."""
    for line in STATEMENTS:
        for before, behind in (("{ ", " }"), ("{\n", "\n}"), ("{ a; ", "; b }"), ("{ return func() { ", " } }")):
            yield before + line, (HEAD + "func f() " + before + line + behind + "\n").encode()
        yield "var = func() { %s }" % line, (HEAD + "var v = func() { " + line + " }\n").encode()
    for before, opened, inner, closed, behind in STATEMENT_NESTS:
        for count in [1, 2, 3] + list(range(60, 70)) + list(range(80, 90)) + list(range(122, 132)) + list(range(248, 262)) + [400]:
            text = HEAD + "func f() { " + before + opened * count + inner + closed * count + behind + " }\n"
            yield "%s, %d times %s %s" % (before, count, opened, closed), text.encode()


def sources():
    """Each source as its title and its bytes."""
    for line in LINES:
        yield line, (HEAD + line + "\n").encode()
        yield line + ", no newline", (HEAD + line).encode()
    for text in ("", "package", "package p", "package _\n", "package p;", "package p, q\n", "\ufeffpackage p\n", "package p\n\ufeff\n", "// \ufeff\npackage p\n",
                 "package p\n\0", "package p\nvar a = `\ufeff`\n", "//line a:0\npackage p\n", "package func\n", "package p var a b\n"):
        yield repr(text), text.encode()
    for before, opened, inner, closed, behind in NESTS:
        for count in [1, 2] + list(range(60, 70)) + list(range(80, 90)) + list(range(124, 132)) + list(range(250, 262)) + [400, 1000]:
            text = HEAD + before + opened * count + inner + closed * count + behind + "\n"
            yield "%s, %d times %s %s" % (before, count, opened, closed), text.encode()
