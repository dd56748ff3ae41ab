// Types of Go's package go/types in the form that the library worlds reads: prefix notation.
package worlds

import (
	"encoding/hex"
	"fmt"
	"go/ast"
	"go/types"
	"sort"
)

// Selector is the word for a name that a package declares.
func Selector(pack *types.Package, name string) string {
	if ast.IsExported(name) || pack == nil {
		return name
	}
	return pack.Path() + "." + name
}

// Ordered are methods by name and then by package.
func Ordered(methods []*types.Func) []*types.Func {
	key := func(f *types.Func) [2]string {
		if f.Exported() {
			return [2]string{f.Name(), ""}
		}
		return [2]string{f.Name(), f.Pkg().Path()}
	}
	sort.Slice(methods, func(i, j int) bool {
		a, b := key(methods[i]), key(methods[j])
		return a[0] < b[0] || a[0] == b[0] && a[1] < b[1]
	})
	return methods
}

func Name(t *types.Named) string {
	if t.Obj().Pkg() == nil {
		return t.Obj().Name()
	}
	return t.Obj().Pkg().Path() + "." + t.Obj().Name()
}

func tuple(t *types.Tuple) string {
	text := ""
	for i := 0; i < t.Len(); i++ {
		text += " " + Term(t.At(i).Type())
	}
	return text
}

func signature(t *types.Signature) string {
	word := "func"
	if t.Variadic() {
		word = "variadic"
	}
	return fmt.Sprintf("%s:%d:%d%s%s", word, t.Params().Len(), t.Results().Len(), tuple(t.Params()), tuple(t.Results()))
}

// Term is the type in prefix notation.
func Term(t types.Type) string {
	switch t := t.(type) {
	case *types.Basic:
		return types.Typ[t.Kind()].Name()
	case *types.Named:
		return Name(t)
	case *types.Pointer:
		return "pointer " + Term(t.Elem())
	case *types.Slice:
		return "slice " + Term(t.Elem())
	case *types.Array:
		return fmt.Sprintf("array:%d %s", t.Len(), Term(t.Elem()))
	case *types.Map:
		return "map " + Term(t.Key()) + " " + Term(t.Elem())
	case *types.Chan:
		return map[types.ChanDir]string{types.SendRecv: "chan ", types.SendOnly: "send ", types.RecvOnly: "receive "}[t.Dir()] + Term(t.Elem())
	case *types.Signature:
		return signature(t)
	case *types.Struct:
		text := fmt.Sprintf("struct:%d", t.NumFields())
		for i := 0; i < t.NumFields(); i++ {
			field, word := t.Field(i), "field"
			if field.Embedded() {
				word = "embedded"
			}
			text += fmt.Sprintf(" %s:%s:%s %s", word, Selector(field.Pkg(), field.Name()), hex.EncodeToString([]byte(t.Tag(i))), Term(field.Type()))
		}
		return text
	case *types.Interface:
		var methods []*types.Func
		for i := 0; i < t.NumMethods(); i++ {
			methods = append(methods, t.Method(i))
		}
		text := fmt.Sprintf("interface:%d", len(methods))
		for _, method := range Ordered(methods) {
			text += " method:" + Selector(method.Pkg(), method.Name()) + " " + Term(method.Type())
		}
		return text
	}
	panic(t.String())
}

func OnPointer(f *types.Func) bool {
	_, is := f.Type().(*types.Signature).Recv().Type().(*types.Pointer)
	return is
}

// Definition is the line of a defined type.
func Definition(t *types.Named) string {
	text := "type " + Name(t) + " " + Term(t.Underlying())
	var methods []*types.Func
	for i := 0; i < t.NumMethods(); i++ {
		methods = append(methods, t.Method(i))
	}
	for _, method := range Ordered(methods) {
		word := "on-value:"
		if OnPointer(method) {
			word = "on-pointer:"
		}
		text += " " + word + Selector(method.Pkg(), method.Name()) + " " + Term(method.Type())
	}
	return text
}

// Packages are those that an import may name.
type Packages map[string]*types.Package

func (p Packages) Import(path string) (*types.Package, error) {
	if pack := p[path]; pack != nil {
		return pack, nil
	}
	return nil, fmt.Errorf("no package %s", path)
}
