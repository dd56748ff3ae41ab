// Ways from exported objects to pairs of types that don't correspond, by the steps of the rules (docs/rules.md): both trees are walked side by
// side, through parts of types, exported fields and exported methods, also through embedded fields and types that aren't exported. A type that a
// public package declares and exports stands for itself.
package main

import (
	"fmt"
	"go/ast"
	"go/types"
	"sort"
	"strings"

	"apigate/internal/typed"
)

// mostWays are told of one break.
const mostWays = 24

// A meeting is where an old and a new type stand at the same place below an exported object.
type meeting struct {
	owner, way string
	old, new   types.Type
}

// A waysFinder has the meetings of two worlds: those of types that aren't alike, and those of types of the module.
type waysFinder struct {
	old, new *typed.World
	met      []meeting
	on       map[string]bool
	public   map[string]bool // the exported types of public packages, old and new
}

func newWaysFinder(old, new *typed.World) *waysFinder {
	f := &waysFinder{old: old, new: new, public: map[string]bool{}}
	for _, world := range []*typed.World{old, new} {
		for _, pack := range world.Packages {
			if pack.IsPublic() {
				for _, name := range pack.Types.Scope().Names() {
					if ast.IsExported(name) {
						f.public[pack.Path+"."+name] = true
					}
				}
			}
		}
	}
	for _, pack := range old.Packages {
		other := new.Package(pack.Path)
		if !pack.IsPublic() || other == nil {
			continue
		}
		for _, name := range pack.Types.Scope().Names() {
			from, to := pack.Types.Scope().Lookup(name), other.Types.Scope().Lookup(name)
			if ast.IsExported(name) && to != nil {
				f.fromObject(pack.Path+"."+name, from, to)
			}
		}
	}
	return f
}

// fromObject walks from one exported object.
func (f *waysFinder) fromObject(owner string, from, to types.Object) {
	f.on = map[string]bool{}
	w := walker{f, owner}
	if named, is := f.module(from.Type()); is && isType(from) {
		other, isOther := f.module(to.Type())
		f.met = append(f.met, meeting{owner, "", from.Type(), to.Type()})
		if isOther && textOf(named) == owner {
			w.named(named, other, "")
		} else if !isOther {
			w.pair(from.Type(), to.Type(), "")
		}
		return
	}
	w.pair(from.Type(), to.Type(), "")
}

func isType(object types.Object) bool { _, is := object.(*types.TypeName); return is }

// module is a defined type of one of the module's packages.
func (f *waysFinder) module(t types.Type) (*types.Named, bool) {
	named, is := t.(*types.Named)
	if !is || named.Obj().Pkg() == nil {
		return nil, false
	}
	path := named.Obj().Pkg().Path()
	return named, f.old.Package(path) != nil || f.new.Package(path) != nil
}

// A walker walks two types side by side below an owner.
type walker struct {
	*waysFinder
	owner string
}

func joined(way, step string) string {
	if way == "" {
		return step
	}
	return way + ", " + step
}

// pair compares two types at the outside, and goes on to their parts.
func (w walker) pair(old, new types.Type, way string) {
	from, isFrom := w.module(old)
	to, isTo := w.module(new)
	if isFrom || isTo {
		w.met = append(w.met, meeting{w.owner, way, old, new})
		if isFrom && isTo && !w.public[textOf(from)] {
			w.named(from, to, way)
		}
		return
	}
	if !w.parts(old, new, way) {
		w.met = append(w.met, meeting{w.owner, way, old, new})
	}
}

// named goes on from two types of the module to what is underneath them and to their exported methods.
func (w walker) named(old, new *types.Named, way string) {
	key := textOf(old) + " " + textOf(new)
	if w.on[key] {
		return
	}
	w.on[key] = true
	from, isStruct := old.Underlying().(*types.Struct)
	_, isOther := new.Underlying().(*types.Struct)
	if isStruct && isOther {
		for _, name := range selectable(from, map[types.Type]bool{}) {
			one, _, _ := types.LookupFieldOrMethod(old, true, old.Obj().Pkg(), name)
			other, _, _ := types.LookupFieldOrMethod(new, true, new.Obj().Pkg(), name)
			field, is := one.(*types.Var)
			if counterpart, isField := other.(*types.Var); is && isField {
				w.pair(field.Type(), counterpart.Type(), joined(way, "field "+name))
			}
		}
	} else if !types.IsInterface(old.Underlying()) || !types.IsInterface(new.Underlying()) {
		w.parts(old.Underlying(), new.Underlying(), joined(way, "what is underneath"))
	}
	w.methods(old, new, way)
}

// methods goes on to the exported methods that both types, or pointers to them, have.
func (w walker) methods(old, new *types.Named, way string) {
	set := types.NewMethodSet(types.NewPointer(old))
	if types.IsInterface(old) {
		set = types.NewMethodSet(old)
	}
	for i := 0; i < set.Len(); i++ {
		method, is := set.At(i).Obj().(*types.Func)
		if !is || !method.Exported() {
			continue
		}
		other, _, _ := types.LookupFieldOrMethod(new, true, new.Obj().Pkg(), method.Name())
		if counterpart, is := other.(*types.Func); is {
			title := "method " + method.Name()
			if textOf(old) == w.owner && way == "" {
				title = "by " + receiver(old, method) + "." + method.Name()
			}
			w.pair(method.Type(), counterpart.Type(), joined(way, title))
		}
	}
}

// receiver is how a method of a type is named.
func receiver(of *types.Named, method *types.Func) string {
	if at := method.Type().(*types.Signature).Recv(); at != nil {
		if _, is := at.Type().(*types.Pointer); is {
			return "(*" + of.Obj().Name() + ")"
		}
	}
	return of.Obj().Name()
}

// selectable are the names of the exported fields of a struct, also of those that it embeds.
func selectable(of *types.Struct, on map[types.Type]bool) (names []string) {
	if on[of] {
		return nil
	}
	on[of] = true
	for i := 0; i < of.NumFields(); i++ {
		field := of.Field(i)
		if field.Exported() {
			names = append(names, field.Name())
		}
		if field.Embedded() {
			t := field.Type()
			if pointer, is := t.(*types.Pointer); is {
				t = pointer.Elem()
			}
			if under, is := t.Underlying().(*types.Struct); is {
				names = append(names, selectable(under, on)...)
			}
		}
	}
	return names
}

// parts compares two types that are none of the module; where they are alike at the outside it goes on to their parts.
func (w walker) parts(old, new types.Type, way string) bool {
	switch from := old.(type) {
	case *types.Pointer:
		if to, is := new.(*types.Pointer); is {
			w.pair(from.Elem(), to.Elem(), way)
			return true
		}
	case *types.Slice:
		if to, is := new.(*types.Slice); is {
			w.pair(from.Elem(), to.Elem(), joined(way, "element"))
			return true
		}
	case *types.Array:
		if to, is := new.(*types.Array); is && from.Len() == to.Len() {
			w.pair(from.Elem(), to.Elem(), joined(way, "element"))
			return true
		}
	case *types.Map:
		if to, is := new.(*types.Map); is {
			w.pair(from.Key(), to.Key(), joined(way, "key"))
			w.pair(from.Elem(), to.Elem(), joined(way, "element"))
			return true
		}
	case *types.Chan:
		if to, is := new.(*types.Chan); is && from.Dir() == to.Dir() {
			w.pair(from.Elem(), to.Elem(), joined(way, "element"))
			return true
		}
	case *types.Signature:
		to, is := new.(*types.Signature)
		if !is || from.Variadic() != to.Variadic() || from.Params().Len() != to.Params().Len() || from.Results().Len() != to.Results().Len() {
			return false
		}
		w.tuple(from.Params(), to.Params(), way, "parameter")
		w.tuple(from.Results(), to.Results(), way, "result")
		return true
	case *types.Struct:
		return w.fields(from, new, way)
	case *types.Interface:
		return w.signatures(from, new, way)
	}
	return textOf(old) == textOf(new)
}

func (w walker) tuple(old, new *types.Tuple, way, word string) {
	for i := 0; i < old.Len(); i++ {
		w.pair(old.At(i).Type(), new.At(i).Type(), joined(way, fmt.Sprintf("%s %d", word, i+1)))
	}
}

// fields compares two structs that aren't underneath defined types.
func (w walker) fields(from *types.Struct, new types.Type, way string) bool {
	to, is := new.(*types.Struct)
	if !is || from.NumFields() != to.NumFields() {
		return false
	}
	for i := 0; i < from.NumFields(); i++ {
		if from.Field(i).Name() != to.Field(i).Name() || from.Field(i).Embedded() != to.Field(i).Embedded() || from.Tag(i) != to.Tag(i) {
			return false
		}
	}
	for i := 0; i < from.NumFields(); i++ {
		w.pair(from.Field(i).Type(), to.Field(i).Type(), joined(way, "field "+from.Field(i).Name()))
	}
	return true
}

// signatures compares two interfaces that aren't underneath defined types.
func (w walker) signatures(from *types.Interface, new types.Type, way string) bool {
	to, is := new.(*types.Interface)
	if !is || from.NumMethods() != to.NumMethods() {
		return false
	}
	for i := 0; i < from.NumMethods(); i++ {
		if from.Method(i).Name() != to.Method(i).Name() {
			return false
		}
	}
	for i := 0; i < from.NumMethods(); i++ {
		w.pair(from.Method(i).Type(), to.Method(i).Type(), joined(way, "method "+from.Method(i).Name()))
	}
	return true
}

// ways are the ways to what a break tells of.
func (f *waysFinder) ways(of broken) []string {
	var own, others []string
	for _, one := range f.met {
		if !f.isBroken(of, one) {
			continue
		}
		way := one.way
		if !strings.HasPrefix(way, "by ") && way != "" {
			way = "by " + way
		}
		if one.owner == of.Owner {
			if way == "" && of.Rule == "type" {
				way = "by its type"
			}
			if way != "" {
				own = append(own, way)
			}
			continue
		}
		others = append(others, strings.TrimSuffix("by "+one.owner+", "+strings.TrimPrefix(way, "by "), ", "))
	}
	found := own
	if len(found) == 0 && (of.Rule == "type" || of.Rule == "one-to-one") {
		found = others
	}
	if len(found) == 0 {
		return []string{"by its declaration"}
	}
	sort.Strings(found)
	found = unique(found)
	if len(found) > mostWays {
		found = append(found[:mostWays:mostWays], fmt.Sprintf("and by %d ways more", len(found)-mostWays))
	}
	return found
}

func unique(sorted []string) (found []string) {
	for i, one := range sorted {
		if i == 0 || one != sorted[i-1] {
			found = append(found, one)
		}
	}
	return found
}

// isBroken says whether a meeting is what a break tells of.
func (f *waysFinder) isBroken(of broken, one meeting) bool {
	old, new := textOf(one.old), textOf(one.new)
	if of.Rule == "type" || of.Rule == "one-to-one" {
		return of.Subject == old+" to "+new
	}
	from, isFrom := f.module(one.old)
	to, isTo := f.module(one.new)
	if one.owner != of.Owner || !isFrom || !isTo || f.public[old] {
		return of.Rule == "comparable" && one.owner == of.Owner && !isFrom && types.Comparable(one.old) && !types.Comparable(one.new)
	}
	switch of.Rule {
	case "underlying":
		return of.Subject == textOf(from.Underlying())+" to "+textOf(to.Underlying())
	case "comparable":
		return types.Comparable(from) && !types.Comparable(to)
	case "fields", "selectable":
		_, _, was := types.LookupFieldOrMethod(from, true, from.Obj().Pkg(), of.Subject)
		object, _, _ := types.LookupFieldOrMethod(from, true, from.Obj().Pkg(), of.Subject)
		other, _, is := types.LookupFieldOrMethod(to, true, to.Obj().Pkg(), of.Subject)
		_, wasField := object.(*types.Var)
		_, isField := other.(*types.Var)
		return wasField && (!isField || is != was || of.Rule == "fields")
	case "method-set", "interface-methods":
		object, _, _ := types.LookupFieldOrMethod(from, true, from.Obj().Pkg(), of.Subject)
		other, _, _ := types.LookupFieldOrMethod(to, true, to.Obj().Pkg(), of.Subject)
		_, was := object.(*types.Func)
		_, is := other.(*types.Func)
		return was != is || of.Rule == "method-set" && was
	case "implements":
		return true
	}
	return false
}
