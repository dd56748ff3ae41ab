// Clients that take one step outside of the profile alone, and what they do with what it gives.
package main

import (
	"fmt"
	"go/types"
	"sort"
	"strings"

	"apigate/internal/profile"
)

// The steps, as docs/clients.md has them.
const (
	unkeyed            = "a literal without field names"
	embeddedInStruct   = "a type embedded in a struct"
	embeddedInterface  = "an interface embedded in one"
	definedByName      = "a type defined by a name"
	assigned           = "a struct assigned"
	converted          = "a struct converted"
	pointerConverted   = "a pointer converted"
	interfaceConverted = "an interface converted"
)

// stepped makes clients that take one step outside of the profile, and keeps those that are typed against the old version and take no other.
func (u *unit) stepped(old, now *tree) {
	order := append([]*entry{}, u.order...)
	sort.SliceStable(order, func(i, j int) bool { return u.far(order[i].typ) < u.far(order[j].typ) })
	for _, e := range order {
		named, is := e.typ.(*types.Named)
		if !is || !e.named || named.Obj().Pkg() == nil || !u.isOwn(named) || u.far(e.typ) == never {
			continue
		}
		name := func(s *scope) string { return s.typ(named) }
		added := membersAdded(named, now)
		u.stepsOfEmbedding(named, name, added)
		switch under := named.Underlying().(type) {
		case *types.Struct:
			u.stepsOfStruct(named, under, name)
		case *types.Interface:
			u.stepsOfInterface(named, name, added)
		}
		u.stepsBetween(e)
	}
	u.typedAlone(old, func(found []string) bool { return len(found) == 1 })
}

// membersAdded are the exported names that selectors find in the new version of a type alone.
func membersAdded(named *types.Named, now *tree) (added []string) {
	pack, err := now.Import(named.Obj().Pkg().Path())
	if err != nil {
		return nil
	}
	object, is := pack.Scope().Lookup(named.Obj().Name()).(*types.TypeName)
	if !is {
		return nil
	}
	before := map[string]bool{}
	for _, name := range members(named) {
		before[name] = true
	}
	for _, name := range members(object.Type()) {
		if !before[name] {
			added = append(added, name)
		}
	}
	return added
}

// members are the exported names of a type's selectors, or of an interface's methods.
func members(t types.Type) (names []string) {
	if under, is := t.Underlying().(*types.Interface); is {
		for i := 0; i < under.NumMethods(); i++ {
			if under.Method(i).Exported() {
				names = append(names, under.Method(i).Name())
			}
		}
		return names
	}
	return selectors(t)
}

// taking makes a client that takes a step.
func (u *unit) taking(step string, write func(s *scope)) {
	u.step = step
	u.client(write)
	u.step = ""
}

func (u *unit) stepsOfStruct(named *types.Named, under *types.Struct, name func(s *scope) string) {
	values := func(s *scope) string {
		var all []string
		for i := 0; i < under.NumFields(); i++ {
			if !under.Field(i).Exported() {
				s.fail()
			}
			all = append(all, s.value(under.Field(i).Type()))
		}
		if len(all) == 0 {
			s.fail()
		}
		return "{" + strings.Join(all, ", ") + "}"
	}
	for _, format := range []string{"_ = @%", "_ = &@%", "_ = []@{%}", "_ = map[string]*@{\"\": %}"} {
		format := format
		u.taking(unkeyed, func(s *scope) {
			s.line("%s", strings.NewReplacer("@", name(s), "%", values(s)).Replace(format))
		})
	}
	u.taking(definedByName, func(s *scope) {
		s.decl("type D%d_ %s", s.number, name(s))
		s.line("_ = D%d_%s", s.number, values(s))
	})
	u.taking(definedByName, func(s *scope) {
		s.decl("type D%d_ %s", s.number, name(s))
		s.line("var v D%d_ = %s{}", s.number, s.typ(under))
		s.use("v")
	})
	u.taking(definedByName, func(s *scope) {
		s.decl("type D%d_ %s\n\ntype E%[1]d_ struct{ D%[1]d_ }", s.number, name(s))
		s.use("E%d_{}", s.number)
	})
	u.taking(assigned, func(s *scope) { s.line("var v %s = %s", s.typ(under), s.value(named)); s.use("v") })
	u.taking(assigned, func(s *scope) { s.line("var v %s = %s", name(s), s.param(s.typ(under))); s.use("v") })
	u.taking(assigned, func(s *scope) { s.use("%s == %s", s.value(named), s.param(s.typ(under))) })
	u.taking(assigned, func(s *scope) { s.use("append(%s, %s)", s.param("[]"+name(s)), s.param(s.typ(under))) })
	u.taking(converted, func(s *scope) { s.use("(%s)(%s)", s.typ(under), s.value(named)) })
	u.taking(converted, func(s *scope) {
		s.decl("type T%d_ %s", s.number, s.typ(under))
		s.use("T%d_(%s)", s.number, s.value(named))
	})
	u.taking(pointerConverted, func(s *scope) {
		s.decl("type T%d_ %s", s.number, s.typ(under))
		s.use("(*T%d_)(%s)", s.number, s.param("*"+name(s)))
	})
}

func (u *unit) stepsOfInterface(named *types.Named, name func(s *scope) string, added []string) {
	for _, method := range added {
		method := method
		u.taking(embeddedInterface, func(s *scope) {
			s.decl("type I%d_ interface {\n\t%s\n\t%s(int8, []int8)\n}", s.number, name(s), method)
		})
	}
	u.taking(embeddedInterface, func(s *scope) { s.decl("type I%d_ interface{ %s }", s.number, name(s)) })
	u.taking(embeddedInterface, func(s *scope) {
		s.decl("type I%d_ interface {\n\t%s\n\tG()\n}", s.number, name(s))
		s.line("var v %s = %s", name(s), s.param(s.global("I")))
		s.use("v")
	})
	u.taking(definedByName, func(s *scope) {
		s.decl("type D%d_ %s", s.number, name(s))
		s.line("var v %s = %s", name(s), s.param(s.global("D")))
		s.use("v")
	})
	u.taking(definedByName, func(s *scope) {
		s.decl("type D%d_ %s", s.number, name(s))
		s.line("var v %s = %s", s.global("D"), s.value(named))
		s.use("v")
	})
}

func (u *unit) stepsOfEmbedding(named *types.Named, name func(s *scope) string, added []string) {
	for _, star := range []string{"", "*"} {
		star := star
		for _, member := range added {
			member := member
			u.taking(embeddedInStruct, func(s *scope) {
				s.decl("type E%d_ struct{ %s int }\n\ntype T%[1]d_ struct {\n\t%[3]s%[4]s\n\tE%[1]d_\n}", s.number, member, star, name(s))
				s.use("%s.%s", s.param(s.global("T")), member)
			})
		}
		u.taking(embeddedInStruct, func(s *scope) {
			s.decl("type T%d_ struct{ %s%s }", s.number, star, name(s))
			s.use("T%d_{}", s.number)
		})
		for i, member := range members(named) {
			if i == 2 {
				break
			}
			member := member
			u.taking(embeddedInStruct, func(s *scope) {
				s.decl("type T%d_ struct{ %s%s }", s.number, star, name(s))
				s.use("%s.%s", s.param(s.global("T")), member)
			})
		}
	}
}

// stepsBetween are those from one type to others that the package leads to.
func (u *unit) stepsBetween(e *entry) {
	for _, other := range u.order {
		for _, way := range [][2]types.Type{{e.typ, other.typ}, {other.typ, e.typ}, {types.NewPointer(e.typ), types.NewPointer(other.typ)}} {
			from, to := way[0], way[1]
			if types.Identical(from, to) {
				continue
			}
			if profile.BarredAssignment(profile.ClientPath, from, to) != "-" {
				u.taking(assigned, func(s *scope) { s.line("var v %s = %s", s.typ(to), s.value(from)); s.use("v") })
			}
			step := converted
			switch _, pointer := from.(*types.Pointer); {
			case pointer:
				step = pointerConverted
			case types.IsInterface(from):
				step = interfaceConverted
			}
			if rule := profile.BarredConversion(profile.ClientPath, true, from, to); rule != "-" && rule != profile.Array {
				u.taking(step, func(s *scope) { s.use("%s", fmt.Sprintf("(%s)(%s)", s.typ(to), s.value(from))) })
			}
		}
	}
}
