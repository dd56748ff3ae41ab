// Feature lines of Go's packages, written from Go's package go/types by the rules of its cmd/api.
package featurelines

import (
	"fmt"
	"go/constant"
	"go/types"
	"sort"
	"strconv"
	"strings"
	"unicode/utf8"
)

// quoted is a string whole and in ASCII.
func quoted(text string) string {
	out := `"`
	for len(text) > 0 {
		r, size := utf8.DecodeRuneInString(text)
		if r == utf8.RuneError && size == 1 {
			out += fmt.Sprintf(`\x%02x`, text[0])
		} else {
			escaped := strconv.QuoteToASCII(string(r))
			out += escaped[1 : len(escaped)-1]
		}
		text = text[size:]
	}
	return out + `"`
}

// writer writes types as they stand in a package.
type writer struct{ here *types.Package }

func (w writer) all(list *types.Tuple, variadic bool) string {
	var texts []string
	for i := 0; i < list.Len(); i++ {
		if t := list.At(i).Type(); variadic && i == list.Len()-1 {
			texts = append(texts, "..."+w.text(t.(*types.Slice).Elem()))
		} else {
			texts = append(texts, w.text(t))
		}
	}
	return strings.Join(texts, ", ")
}

func (w writer) signature(t *types.Signature) string {
	text := "(" + w.all(t.Params(), t.Variadic()) + ")"
	switch t.Results().Len() {
	case 0:
		return text
	case 1:
		return text + " " + w.all(t.Results(), false)
	}
	return text + " (" + w.all(t.Results(), false) + ")"
}

func methodNames(t *types.Interface) (names []string) {
	for i := 0; i < t.NumMethods(); i++ {
		names = append(names, t.Method(i).Name())
	}
	sort.Strings(names)
	return names
}

func (w writer) text(t types.Type) string {
	switch t := t.(type) {
	case *types.Basic:
		if t.Info()&types.IsUntyped != 0 {
			return map[types.BasicKind]string{types.UntypedBool: "ideal-bool", types.UntypedInt: "ideal-int", types.UntypedRune: "ideal-char", types.UntypedString: "ideal-string"}[t.Kind()]
		}
		return types.Typ[t.Kind()].Name()
	case *types.Named:
		if pack := t.Obj().Pkg(); pack != nil && pack != w.here {
			return pack.Name() + "." + t.Obj().Name()
		}
		return t.Obj().Name()
	case *types.Pointer:
		return "*" + w.text(t.Elem())
	case *types.Slice:
		return "[]" + w.text(t.Elem())
	case *types.Array:
		return fmt.Sprintf("[%d]%s", t.Len(), w.text(t.Elem()))
	case *types.Map:
		return "map[" + w.text(t.Key()) + "]" + w.text(t.Elem())
	case *types.Chan:
		return map[types.ChanDir]string{types.SendRecv: "chan ", types.SendOnly: "chan<- ", types.RecvOnly: "<-chan "}[t.Dir()] + w.text(t.Elem())
	case *types.Signature:
		return "func" + w.signature(t)
	case *types.Struct:
		return "struct"
	case *types.Interface:
		if t.NumMethods() == 0 {
			return "interface{}"
		}
		return "interface{ " + strings.Join(methodNames(t), ", ") + " }"
	}
	panic(t.String())
}

// ofStruct are the lines of the fields of a struct.
func (w writer) ofStruct(start string, t *types.Struct) []string {
	lines := []string{start}
	for i := 0; i < t.NumFields(); i++ {
		if field := t.Field(i); field.Exported() && field.Embedded() {
			lines = append(lines, start+", embedded "+w.text(field.Type()))
		} else if field.Exported() {
			lines = append(lines, start+", "+field.Name()+" "+w.text(field.Type()))
		}
	}
	return lines
}

// ofInterface are the lines of an interface.
func (w writer) ofInterface(start string, t *types.Interface) []string {
	var lines []string
	whole := true
	for i := 0; i < t.NumMethods(); i++ {
		if method := t.Method(i); method.Exported() {
			lines = append(lines, start+", "+method.Name()+w.signature(method.Type().(*types.Signature)))
		} else {
			whole = false
		}
	}
	if !whole {
		return append(lines, start+", unexported methods")
	}
	if len(lines) == 0 {
		return []string{start + " {}"}
	}
	return append(lines, start+" { "+strings.Join(methodNames(t), ", ")+" }")
}

// ofMethods are the lines of the methods of a type, and of those that only its pointer has.
func (w writer) ofMethods(name string, t types.Type) []string {
	var lines []string
	seen := map[string]bool{}
	for _, one := range []struct {
		star string
		t    types.Type
	}{{"", t}, {"*", types.NewPointer(t)}} {
		set := types.NewMethodSet(one.t)
		for i := 0; i < set.Len(); i++ {
			if method := set.At(i); method.Obj().Exported() && !seen[method.Obj().Name()] {
				seen[method.Obj().Name()] = true
				lines = append(lines, "method ("+one.star+name+") "+method.Obj().Name()+w.signature(method.Type().(*types.Signature)))
			}
		}
	}
	return lines
}

func Lines(here *types.Package, object types.Object) []string {
	w := writer{here}
	name := object.Name()
	switch object := object.(type) {
	case *types.Const:
		text := object.Val().ExactString()
		if object.Val().Kind() == constant.String {
			text = quoted(constant.StringVal(object.Val()))
		}
		return []string{"const " + name + " = " + text, "const " + name + " " + w.text(object.Type())}
	case *types.Var:
		return []string{"var " + name + " " + w.text(object.Type())}
	case *types.Func:
		return []string{"func " + name + w.signature(object.Type().(*types.Signature))}
	case *types.TypeName:
		if object.IsAlias() {
			return []string{"type " + name + " = " + w.text(object.Type())}
		}
		switch t := object.Type().Underlying().(type) {
		case *types.Interface:
			return w.ofInterface("type "+name+" interface", t)
		case *types.Struct:
			return append(w.ofStruct("type "+name+" struct", t), w.ofMethods(name, object.Type())...)
		default:
			return append([]string{"type " + name + " " + w.text(t)}, w.ofMethods(name, object.Type())...)
		}
	}
	panic(name)
}
