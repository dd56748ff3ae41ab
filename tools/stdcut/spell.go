// Types as text in one package: what they name, and why a type can't be written there.
package main

import (
	"fmt"
	"go/types"
	"sort"
	"strconv"
	"strings"

	"apigate/internal/trees"
)

// A speller writes types in one package.
type speller struct {
	cut      *cut
	here     *types.Package
	names    map[*types.Package]string // the names of imports; without them a package's own name is written
	mentions map[types.Object]bool     // the objects of packages that the text names
	lacks    map[types.Object]bool     // those that it can't name since they are dropped
	why      string                    // why it can't be written, or nothing
	pointer  string                    // the name that stands for unsafe.Pointer, in what isn't exported
	pointers bool                      // whether it was written
}

func (s *speller) cannot(why string) string {
	if s.why == "" {
		s.why = why
	}
	return "?"
}

// by tells whose fault a reason is.
func by(why string, object types.Object) string {
	if strings.Contains(why, ", by ") {
		return why
	}
	return why + ", by " + nameOf(object)
}

// object writes the name of a type of some package.
func (s *speller) object(object types.Object) string {
	pack := object.Pkg()
	if pack == nil {
		return s.universe(object.Name())
	}
	if why := s.cut.dropped[object]; why != "" {
		s.lacks[object] = true
		return s.cannot(by(why, object))
	}
	if pack == s.here {
		s.mentions[object] = true
		return object.Name()
	}
	if why := barred(s.here.Path(), object); why != "" {
		if object = s.cut.aliasHere(s.here, object); object == nil {
			return s.cannot(why)
		}
		pack = object.Pkg()
	}
	s.mentions[object] = true
	if name := s.names[pack]; name != "" {
		return name + "." + object.Name()
	}
	return pack.Name() + "." + object.Name()
}

// barred says why a package of the standard library's folder may not name a type of another, or nothing.
func barred(from string, object types.Object) string {
	if !object.Exported() {
		return "an unexported name of another package, " + nameOf(object)
	}
	elements := strings.Split(object.Pkg().Path(), "/")
	for i := len(elements) - 1; i >= 0; i-- {
		if elements[i] != "internal" {
			continue
		}
		if top := strings.Join(elements[:i], "/"); top != "" && !trees.IsUnder(from, top) {
			return "an internal package of others, " + object.Pkg().Path()
		}
		break
	}
	return ""
}

// universe writes a predeclared name, unless the package declares it itself.
func (s *speller) universe(name string) string {
	twins := map[string]string{"byte": "uint8", "uint8": "byte", "rune": "int32", "int32": "rune"}
	for _, one := range []string{name, twins[name]} {
		if one != "" && s.here.Scope().Lookup(one) == nil {
			return one
		}
	}
	return s.cannot("a predeclared name that its package declares, " + name)
}

func (s *speller) text(t types.Type) string {
	switch t := t.(type) {
	case *types.Basic:
		switch {
		case t.Kind() == types.UnsafePointer && s.pointer != "":
			s.pointers = true
			return s.pointer
		case t.Kind() == types.UnsafePointer:
			return s.cannot("unsafe.Pointer")
		case t.Kind() == types.Invalid || t.Info()&types.IsUntyped != 0:
			return s.cannot("a type that isn't known")
		}
		return s.universe(t.Name())
	case *types.Named:
		if t.TypeParams().Len() > 0 || t.TypeArgs().Len() > 0 {
			s.lacks[t.Origin().Obj()] = true
			return s.cannot(by("type parameters", t.Origin().Obj()))
		}
		if t.Obj().Name() == "comparable" && t.Obj().Pkg() == nil {
			return s.cannot("a constraint")
		}
		return s.object(t.Obj())
	case *types.Pointer:
		return "*" + s.text(t.Elem())
	case *types.Slice:
		return "[]" + s.text(t.Elem())
	case *types.Array:
		return fmt.Sprintf("[%d]%s", t.Len(), s.text(t.Elem()))
	case *types.Map:
		return "map[" + s.text(t.Key()) + "]" + s.text(t.Elem())
	case *types.Chan:
		return s.channel(t)
	case *types.Signature:
		return "func" + s.signature(t)
	case *types.Struct:
		return s.structure(t)
	case *types.Interface:
		parts := s.elements(t)
		if len(parts) == 0 {
			return "interface{}"
		}
		return "interface { " + strings.Join(parts, "; ") + " }"
	}
	return s.cannot("type parameters")
}

func (s *speller) channel(t *types.Chan) string {
	elem := s.text(t.Elem())
	switch inner, _ := t.Elem().(*types.Chan); {
	case t.Dir() == types.SendOnly:
		return "chan<- " + elem
	case t.Dir() == types.RecvOnly:
		return "<-chan " + elem
	case inner != nil && inner.Dir() == types.RecvOnly:
		return "chan (" + elem + ")"
	}
	return "chan " + elem
}

// signature writes parameters and results without their names.
func (s *speller) signature(t *types.Signature) string {
	if t.TypeParams().Len() > 0 {
		return s.cannot("type parameters")
	}
	params, results := s.all(t.Params()), s.all(t.Results())
	if t.Variadic() {
		last := t.Params().At(len(params) - 1).Type()
		slice, is := last.(*types.Slice)
		if !is {
			return s.cannot("a type that isn't known")
		}
		params[len(params)-1] = "..." + s.text(slice.Elem())
	}
	text := "(" + strings.Join(params, ", ") + ")"
	switch len(results) {
	case 0:
		return text
	case 1:
		return text + " " + results[0]
	}
	return text + " (" + strings.Join(results, ", ") + ")"
}

func (s *speller) all(list *types.Tuple) []string {
	texts := make([]string, list.Len())
	for i := range texts {
		texts[i] = s.text(list.At(i).Type())
	}
	return texts
}

// structure writes a struct type that isn't defined, of which no field may be replaced.
func (s *speller) structure(t *types.Struct) string {
	if t.NumFields() == 0 {
		return "struct{}"
	}
	texts := make([]string, t.NumFields())
	for i := range texts {
		if s.isForeign(t.Field(i)) {
			return s.cannot("an unexported field of another package, " + t.Field(i).Name())
		}
		texts[i] = s.field(t.Field(i), t.Tag(i))
	}
	return "struct { " + strings.Join(texts, "; ") + " }"
}

// isForeign says whether an object isn't exported and belongs to another package.
func (s *speller) isForeign(object types.Object) bool {
	return !object.Exported() && object.Pkg() != s.here
}

// field writes a field with its tag.
func (s *speller) field(field *types.Var, tag string) string {
	text := ""
	if field.Embedded() {
		text = s.embedded(field)
	} else {
		text = field.Name() + " " + s.text(field.Type())
	}
	switch {
	case tag == "":
		return text
	case strconv.CanBackquote(tag):
		return text + " `" + tag + "`"
	}
	return text + " " + strconv.QuoteToASCII(tag)
}

// embedded writes an embedded field by the name in its source, which is that of its type or of an alias.
func (s *speller) embedded(field *types.Var) string {
	name := s.cut.embeddedAs(field)
	if name == nil {
		return s.cannot("a type that isn't known")
	}
	if named, is := name.Type().(*types.Named); is && named.TypeParams().Len() > 0 {
		return s.text(field.Type())
	}
	_, star := field.Type().(*types.Pointer)
	if _, is := name.Type().(*types.Pointer); star && !is {
		return "*" + s.object(name)
	}
	return s.object(name)
}

// elements writes the methods of an interface in order. Methods that another package keeps to itself come by embedding.
func (s *speller) elements(t *types.Interface) []string {
	if !t.IsMethodSet() {
		s.cannot("a constraint")
	}
	var texts []string
	given := map[string]bool{}
	for i := 0; i < t.NumEmbeddeds(); i++ {
		named, is := t.EmbeddedType(i).(*types.Named)
		if !is {
			continue
		}
		if below, is := named.Underlying().(*types.Interface); is && s.keepsMore(below) {
			texts = append(texts, s.text(named))
			for j := 0; j < below.NumMethods(); j++ {
				given[below.Method(j).Id()] = true
			}
		}
	}
	for i := 0; i < t.NumMethods(); i++ {
		method := t.Method(i)
		switch {
		case given[method.Id()]:
		case s.isForeign(method):
			s.cannot("an unexported method of another package, " + method.Name())
		default:
			before := s.pointer
			if !method.Exported() {
				s.pointer = s.cut.pointerName(s.here)
			}
			texts = append(texts, method.Name()+s.signature(method.Type().(*types.Signature)))
			s.pointer = before
		}
	}
	sort.Strings(texts)
	return texts
}

// keepsMore says whether an interface has a method that can't be written in this package.
func (s *speller) keepsMore(t *types.Interface) bool {
	for i := 0; i < t.NumMethods(); i++ {
		if s.isForeign(t.Method(i)) {
			return true
		}
	}
	return false
}
