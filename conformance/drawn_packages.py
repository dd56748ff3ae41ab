"""The packages over which conformance/expressions and conformance/statements draw: two of a module, and a client of them."""

P = r"""
package p

const (
	A = 3
	Huge = 1 << 100
	Minus = -7
	Small int8 = 100
	Letter = 'x'
	Word = "word"
	Yes = true
	Typed Num = 12
	Label Text = "label"
	Most = 1<<63 - 1
	Byte uint8 = 255
	None = 0
	Sure Truth = true
	hidden = 5
)

type Num int
type Text string
type Truth bool
type Ratio float64
type Wave complex128
type Tiny int8
type Bytes []byte
type Runes []rune
type Point struct { X, Y int }
type Inner struct { Z uint8; secret string }
func (*Inner) Set(n uint8) {}
func (Inner) Get() uint8 { return 0 }
func (Inner) lower() {}
type Mixed struct { Name string; Point; *Inner; hidden int; Tags map[string]int; Pipe chan int; Call func(int) (string, error); Any interface{} }
func (Mixed) Sum(n ...int) int { return 0 }
type Open struct { Name string; At Point; List []Num }
type Shape interface { Area() int; Name() string }
type Sealed interface { Shape; sealed() }
type Square struct { Side int }
func (Square) Area() int { return 0 }
func (*Square) Name() string { return "" }
func (Square) sealed() {}
type Fault struct{}
func (*Fault) Error() string { return "" }
type Three [3]int
type AtThree *[3]int
type List []Num
type Dict map[Text]Point
type Flow chan Num
type In <-chan int
type Out chan<- string
type Act func(int, ...string) (int, error)
type Loop struct { Next *Loop; Value int }
type Left struct { V int }
type Right struct { V string }
type Both struct { Left; Right }
type At *Inner
func (l List) Len() int { return 0 }
func (l *List) Push(n Num) {}
func (a Act) Run() error { return nil }

var (
	VNum Num
	VText Text
	VTruth Truth
	VRatio Ratio
	VPoint Point
	VMixed Mixed
	PMixed *Mixed
	VShape Shape
	VSealed Sealed
	VSquare Square
	VThree Three
	VAtThree AtThree
	VList List
	VDict Dict
	VFlow Flow
	VIn In
	VOut Out
	VAct Act
	VLoop *Loop
	VBoth Both
	VBytes Bytes
	VAny interface{}
	unseen int
)

func One() int { return 0 }
func Two() (int, error) { return 0, nil }
func Done() {}
func Vary(n int, rest ...string) Text { return "" }
func Take(s Shape) bool { return false }
func Make() Mixed { return Mixed{} }
func Points() [2]Point { return [2]Point{} }
func Twice(n int, e error) Num { return 0 }
func unexported() int { return 0 }
"""

Q = r"""
package q
import "m/p"

const Far uint64 = 1 << 63
const Five Num = 5

type Num p.Num
type Inner struct { X int; secret string }
func (Inner) Value(n int) string { return "" }
func (*Inner) Change() {}
type Wrap struct { Inner; p.Mixed; own int }
type Sealed interface { sealed() }
type Own struct { p.Square }
func (Own) sealed() {}
type Point p.Point
type Keys map[p.Point][]Num
type Any interface{}
type hidden struct { Seen int }
func (hidden) Visible() bool { return false }

var VWrap Wrap
var PWrap *Wrap
var VOwn Own
var VSealed Sealed
var VKeys Keys
var Secret hidden
var hiddenVar int

func New(p.Point) (q *Inner) { return nil }
func Pair() (p.Num, string) { return 0, "" }
func Give() hidden { return hidden{} }
"""

C = r"""
package client
import (p "m/p"; "m/q")

const (
	c0 = iota + 4
	c1
	cBig = 1 << 40
	cRune = 'r'
	cText = "text"
	cBool = c0 < c1
	cInt int = 9
	cTiny int8 = -128
	cUint uint = 1
	cByte byte = 'b'
	cOwn Own = 6
	cLabel p.Text = "l"
)

type Own uint16
func (Own) Plus(o Own) Own { return 0 }
type Str string
type Node struct { Left, Right *Node; Key Own; p.Point; tag string }
func (*Node) Walk(f func(*Node) bool) bool { return false }
func (Node) Depth() int { return 0 }
type Er interface { Error() string }
type Funcs []func(int) int
type Grid [2][3]int8
type Alias = p.Point
type Copied p.Point
type Embeds struct { p.Shape; *Node }
type Chans struct { In <-chan int; Out chan<- int; Both chan int }

var (
	vInt int
	vInt8 int8
	vInt32 int32
	vInt64 int64
	vUint uint
	vUint8 uint8
	vUint64 uint64
	vUintptr uintptr
	vFloat32 float32
	vFloat64 float64
	vComplex complex128
	vString string
	vBool bool
	vErr error
	vAny any
	vOwn Own
	vStr Str
	vNode Node
	pNode *Node
	vEr Er
	vFuncs Funcs
	vGrid Grid
	vAlias Alias
	vCopied Copied
	vEmbeds Embeds
	vChans Chans
	vBytes []byte
	vRunes []rune
	vInts []int
	vNodes []*Node
	vPoints []p.Point
	vArray [3]int
	pArray *[2]p.Point
	vMap map[string]int
	vKeyed map[p.Point]*Node
	vSend chan<- int
	vReceive <-chan p.Num
	vFunc func(int) int
	vVary func(...interface{}) string
	vTwo func() (int, string)
	vStruct struct { X, Y int }
	vPP **Node
	vShapes map[Str][]p.Shape
)

func fInt(n int) int { return n }
func fTwo() (int, string) { return 0, "" }
func fNone(p.Point) {}
func fVary(s string, n ...int) []int { return nil }
func fNode() *Node { return nil }
func fValue() Node { return Node{} }
func fArray() [3]int { return [3]int{} }
func fErr() error { return nil }
func fBoth(n int, s string) bool { return false }
"""

PLACES = r"""
func place0() { here }

const (
	_ = iota
	_
	_
	place1 = len([1]func(){func() { here }})
)

func place2(vInt string, p2 *p.Mixed) {
	const cInt = 3
	const local Own = 2
	var vNode []Node
	var len int
	{
		var vString int
		const c0 = "zero"
		var q p.Square
		var inner *Embeds
		here
	}
}
"""
