// Types as breaks write them: each defined type behind its path, parameters without names, an interface with its methods.
package main

import (
	"fmt"
	"go/types"
	"sort"
	"strings"
)

func textOf(t types.Type) string {
	switch t := t.(type) {
	case *types.Basic:
		if t.Info()&types.IsUntyped != 0 {
			return "ideal-" + map[types.BasicKind]string{
				types.UntypedBool: "bool", types.UntypedInt: "int", types.UntypedRune: "char", types.UntypedString: "string", types.UntypedFloat: "float",
			}[t.Kind()]
		}
		return types.Typ[t.Kind()].Name()
	case *types.Named:
		if t.Obj().Pkg() == nil {
			return t.Obj().Name()
		}
		return t.Obj().Pkg().Path() + "." + t.Obj().Name()
	case *types.Pointer:
		return "*" + textOf(t.Elem())
	case *types.Slice:
		return "[]" + textOf(t.Elem())
	case *types.Array:
		return fmt.Sprintf("[%d]%s", t.Len(), textOf(t.Elem()))
	case *types.Map:
		return "map[" + textOf(t.Key()) + "]" + textOf(t.Elem())
	case *types.Chan:
		within := textOf(t.Elem())
		if inner, is := t.Elem().(*types.Chan); is && t.Dir() != types.SendOnly && inner.Dir() == types.RecvOnly {
			within = "(" + within + ")"
		}
		return map[types.ChanDir]string{types.SendRecv: "chan ", types.SendOnly: "chan<- ", types.RecvOnly: "<-chan "}[t.Dir()] + within
	case *types.Signature:
		return "func" + signatureText(t)
	case *types.Struct:
		var fields []string
		for i := 0; i < t.NumFields(); i++ {
			field := t.Field(i)
			text := field.Name() + " " + textOf(field.Type())
			if field.Embedded() {
				text = textOf(field.Type())
			}
			fields = append(fields, text)
		}
		if len(fields) == 0 {
			return "struct{}"
		}
		return "struct{ " + strings.Join(fields, "; ") + " }"
	case *types.Interface:
		var methods []string
		for i := 0; i < t.NumMethods(); i++ {
			methods = append(methods, t.Method(i).Name()+signatureText(t.Method(i).Type().(*types.Signature)))
		}
		sort.Strings(methods)
		if len(methods) == 0 {
			return "interface{}"
		}
		return "interface{ " + strings.Join(methods, "; ") + " }"
	}
	return t.String()
}

func signatureText(t *types.Signature) string {
	results := tupleText(t.Results(), false)
	switch {
	case t.Results().Len() == 0:
		results = ""
	case t.Results().Len() == 1:
		results = " " + textOf(t.Results().At(0).Type())
	default:
		results = " " + results
	}
	return tupleText(t.Params(), t.Variadic()) + results
}

func tupleText(list *types.Tuple, variadic bool) string {
	var texts []string
	for i := 0; i < list.Len(); i++ {
		text := textOf(list.At(i).Type())
		if slice, is := list.At(i).Type().(*types.Slice); is && variadic && i == list.Len()-1 {
			text = "..." + textOf(slice.Elem())
		}
		texts = append(texts, text)
	}
	return "(" + strings.Join(texts, ", ") + ")"
}
