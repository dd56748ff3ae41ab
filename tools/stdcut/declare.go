// Declarations as text: what they are made of, and what of them had to be left out.
package main

import (
	"go/constant"
	"go/token"
	"go/types"
	"sort"
	"strconv"
	"strings"

	"apigate/internal/trees"
)

// Bounds of apigate's constants: those of numbers of 128 bits, and the length of a text.
var (
	leastNumber = constant.UnaryOp(token.SUB, constant.Shift(constant.MakeInt64(1), token.SHL, 127), 0)
	mostNumber  = constant.BinaryOp(constant.Shift(constant.MakeInt64(1), token.SHL, 127), token.SUB, constant.MakeInt64(1))
)

const mostText = 65536

// A declaration is how an object of a package is written.
type declaration struct {
	object   types.Object
	text     string                // without its keyword, so that it may stand in a group
	methods  []string              // those of a defined type
	mentions map[types.Object]bool // what the text names
	lacks    map[types.Object]bool // the dropped objects that it can't name
	lost     []string              // its methods that are dropped, and fields that are replaced
	pointers bool                  // whether a type stands for unsafe.Pointer in it
	why      string                // why it can't be written at all, or nothing
}

// declare writes an object under what is dropped already.
func (c *cut) declare(object types.Object, names map[*types.Package]string) *declaration {
	d := &declaration{object: object, mentions: map[types.Object]bool{}, lacks: map[types.Object]bool{}}
	if d.why = c.unfit(object); d.why != "" {
		return d
	}
	s := c.speller(d, names)
	switch object := object.(type) {
	case *types.Const:
		d.text, d.why = object.Name()+s.constantType(object)+" = "+valueOf(object), worthless(object)
	case *types.Var:
		d.text = object.Name() + " " + s.text(object.Type())
	case *types.Func:
		d.text = object.Name() + s.signature(object.Type().(*types.Signature))
	case *types.TypeName:
		if object.IsAlias() {
			d.text = object.Name() + " = " + s.text(object.Type())
		} else {
			c.define(d, object.Type().(*types.Named), s, names)
		}
	}
	if d.why == "" {
		d.why = s.why
	}
	if d.pointers = d.pointers || s.pointers; d.pointers {
		d.lost = append(d.lost, "replaced unsafe.Pointer by "+c.pointerName(object.Pkg())+" in what isn't exported of "+nameOf(object))
	}
	return d
}

// pointerName is the name of the type that stands for unsafe.Pointer in what a package doesn't export.
func (c *cut) pointerName(pack *types.Package) string {
	name := "unsafePointer"
	for pack.Scope().Lookup(name) != nil {
		name += "_"
	}
	return name
}

func (c *cut) speller(d *declaration, names map[*types.Package]string) *speller {
	return &speller{cut: c, here: d.object.Pkg(), names: names, mentions: d.mentions, lacks: d.lacks}
}

// unfit says why nothing of an object's package can stand in the folder, or why the object has no form there.
func (c *cut) unfit(object types.Object) string {
	path := object.Pkg().Path()
	for _, element := range strings.Split(path, "/") {
		if !trees.IsWalked(element) {
			return "a path that apigate doesn't read"
		}
	}
	for _, one := range c.trees {
		if trees.IsUnder(path, one.Module) {
			return "a path under that of a module"
		}
	}
	if object, is := object.(*types.TypeName); is {
		if named, is := object.Type().(*types.Named); is && !object.IsAlias() && named.TypeParams().Len() > 0 {
			return "type parameters"
		}
	}
	return ""
}

// constantType writes the type of a typed constant.
func (s *speller) constantType(object *types.Const) string {
	if basic, is := object.Type().(*types.Basic); is && basic.Info()&types.IsUntyped != 0 {
		return ""
	}
	return " " + s.text(object.Type())
}

// worthless says why a constant has no value in apigate's profile.
func worthless(object *types.Const) string {
	basic, is := object.Type().Underlying().(*types.Basic)
	switch {
	case !is || object.Val().Kind() == constant.Unknown:
		return "a value that isn't known"
	case basic.Info()&types.IsFloat != 0:
		return "a floating constant"
	case basic.Info()&types.IsComplex != 0:
		return "a complex constant"
	case object.Val().Kind() == constant.String && len(constant.StringVal(object.Val())) > mostText:
		return "a text of more than 65536 bytes"
	case object.Val().Kind() == constant.Int && (constant.Compare(object.Val(), token.LSS, leastNumber) || constant.Compare(object.Val(), token.GTR, mostNumber)):
		return "a number past 128 bits"
	}
	return ""
}

// valueOf writes the value of a constant so that it has the kind of the constant.
func valueOf(object *types.Const) string {
	value := object.Val()
	switch value.Kind() {
	case constant.String:
		return strconv.QuoteToASCII(constant.StringVal(value))
	case constant.Int:
		if basic, is := object.Type().(*types.Basic); is && basic.Kind() == types.UntypedRune {
			return runeOf(value)
		}
		if constant.Compare(value, token.EQL, leastNumber) {
			return constant.BinaryOp(value, token.ADD, constant.MakeInt64(1)).ExactString() + " - 1"
		}
	}
	return value.ExactString()
}

// runeOf writes a number as an untyped rune: a literal where there is one.
func runeOf(value constant.Value) string {
	if number, is := constant.Int64Val(value); is && 0 <= number && number <= 0x10ffff && (number < 0xd800 || 0xdfff < number) {
		return strconv.QuoteRuneToASCII(rune(number))
	}
	return `'\x00' + ` + value.ExactString()
}

// define writes a defined type with its methods.
func (c *cut) define(d *declaration, named *types.Named, s *speller, names map[*types.Package]string) {
	object := named.Obj()
	d.text = object.Name() + " "
	switch under := named.Underlying().(type) {
	case *types.Struct:
		if s.keepsFields(under) {
			c.defineBy(d, s, "an unexported field of another package")
		} else {
			c.fields(d, named, under, s, names)
		}
	case *types.Interface:
		if parts := s.elements(under); len(parts) == 0 {
			d.text += "interface{}"
		} else {
			d.text += "interface {\n" + strings.Join(parts, "\n") + "\n}"
		}
	default:
		d.text += s.text(under)
	}
	for i := 0; i < named.NumMethods(); i++ {
		c.method(d, named.Method(i), names)
	}
	sort.Strings(d.methods)
}

// defineBy writes a type by the name on its right side.
func (c *cut) defineBy(d *declaration, s *speller, why string) {
	if right, is := c.written(d.object).(*types.Named); is {
		d.text += s.text(right)
	} else {
		d.why = why
	}
}

func (s *speller) keepsFields(t *types.Struct) bool {
	for i := 0; i < t.NumFields(); i++ {
		if s.isForeign(t.Field(i)) {
			return true
		}
	}
	return false
}

// fields writes the fields of a struct. One that can't be written, and isn't embedded, gives way to a field that can be compared
// exactly where it can.
func (c *cut) fields(d *declaration, named *types.Named, t *types.Struct, s *speller, names map[*types.Package]string) {
	texts := make([]string, t.NumFields())
	for i := range texts {
		field, own := t.Field(i), c.speller(d, names)
		own.mentions = map[types.Object]bool{}
		if !field.Exported() && !field.Embedded() {
			own.pointer = c.pointerName(d.object.Pkg())
		}
		texts[i] = own.field(field, t.Tag(i))
		if own.why == "" {
			d.pointers = d.pointers || own.pointers
			for object := range own.mentions {
				d.mentions[object] = true
			}
			continue
		}
		if field.Embedded() {
			s.cannot(own.why)
			continue
		}
		stand := s.standIn(field)
		texts[i] = unusedName(field, named, t) + " " + stand
		d.lost = append(d.lost, "replaced "+nameOf(d.object)+"."+field.Name()+" by "+stand+": "+own.why)
	}
	if len(texts) == 0 {
		d.text += "struct{}"
		return
	}
	d.text += "struct {\n" + strings.Join(texts, "\n") + "\n}"
}

// standIn is a type that can be compared exactly where a field's type can.
func (s *speller) standIn(field *types.Var) string {
	if types.Comparable(field.Type()) {
		return s.universe("uintptr")
	}
	return "func()"
}

// unusedName is the name of a field, or an unexported one for it that neither a field nor a method has.
func unusedName(field *types.Var, named *types.Named, t *types.Struct) string {
	if !field.Exported() {
		return field.Name()
	}
	name := "was" + field.Name()
	for isMember(name, named, t) {
		name += "_"
	}
	return name
}

func isMember(name string, named *types.Named, t *types.Struct) bool {
	for i := 0; i < t.NumFields(); i++ {
		if t.Field(i).Name() == name {
			return true
		}
	}
	for i := 0; i < named.NumMethods(); i++ {
		if named.Method(i).Name() == name {
			return true
		}
	}
	return false
}

// method writes a method, or notes that it is dropped.
func (c *cut) method(d *declaration, method *types.Func, names map[*types.Package]string) {
	own := c.speller(d, names)
	own.mentions = map[types.Object]bool{}
	signature, star := method.Type().(*types.Signature), ""
	if _, is := signature.Recv().Type().(*types.Pointer); is {
		star = "*"
	}
	if !method.Exported() {
		own.pointer = c.pointerName(d.object.Pkg())
	}
	text := "func (" + star + d.object.Name() + ") " + method.Name() + own.signature(signature)
	if own.why != "" {
		d.lost = append(d.lost, "dropped "+nameOf(d.object)+"."+method.Name()+": "+own.why)
		return
	}
	d.methods, d.pointers = append(d.methods, text), d.pointers || own.pointers
	for object := range own.mentions {
		d.mentions[object] = true
	}
}
