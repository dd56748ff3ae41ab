// Clients whose values are made by chance out of several steps.
package main

import (
	"fmt"
	"go/types"
	"math/rand"
	"strings"

	"apigate/internal/profile"
)

// A producer is a selector that gives values of a type, or a method that returns one.
type producer struct {
	base     types.Type
	selector string
	call     *types.Signature
}

// A chooser makes clients by chance.
type chooser struct {
	*rand.Rand
	left      int     // how many clients are wanted
	share     float64 // how many of those that could be made are
	producers map[string][]producer
	lowers    map[string][]types.Type
}

const nested = 4

// randomly makes so many clients by chance.
func (u *unit) randomly(seed int64, count int) {
	if len(u.order) == 0 || count == 0 {
		return
	}
	c := &chooser{Rand: rand.New(rand.NewSource(seed)), left: count, share: 0.1, producers: map[string][]producer{}, lowers: map[string][]types.Type{}}
	for _, e := range u.order {
		for _, name := range selectors(e.typ) {
			object, _, _ := types.LookupFieldOrMethod(e.typ, true, nil, name)
			switch object := object.(type) {
			case *types.Var:
				c.produces(object.Type(), producer{e.typ, name, nil})
			case *types.Func:
				call := object.Type().(*types.Signature)
				bare := types.NewSignatureType(nil, nil, nil, call.Params(), call.Results(), call.Variadic())
				c.produces(bare, producer{e.typ, name, nil})
				if call.Results().Len() == 1 {
					c.produces(call.Results().At(0).Type(), producer{e.typ, name, bare})
				}
			}
		}
	}
	u.chooser, u.most = c, len(u.blocks)+count
	var near []*entry
	for _, e := range u.order {
		if u.far(e.typ) < never {
			near = append(near, e)
		}
	}
	for round := 0; round < 2*count && c.left > 0; round++ {
		e := u.order[c.Intn(len(u.order))]
		if len(near) > 0 && c.Intn(4) > 0 {
			e = near[c.Intn(len(near))]
		}
		in := mode(c.Intn(int(element)))
		u.useAll(held{e.typ, in, func(s *scope) string { return s.composed(e.typ, nested) }})
		for _, take := range e.takers {
			take := take
			u.client(func(s *scope) { take(s, s.composed(s.lower(e.typ), nested)) })
		}
	}
	u.chooser = nil
}

func (c *chooser) produces(t types.Type, one producer) {
	key := ""
	func() {
		defer func() { recover() }()
		key = keyOf(t)
	}()
	c.producers[key] = append(c.producers[key], one)
}

// lower is a type whose values can be assigned to a type: the type itself, or by chance another one.
func (s *scope) lower(t types.Type) types.Type {
	key := keyOf(t)
	all, is := s.chooser.lowers[key]
	if !is {
		for _, e := range s.order {
			if types.AssignableTo(e.typ, t) {
				all = append(all, e.typ)
			}
		}
		s.chooser.lowers[key] = all
	}
	if len(all) == 0 || s.chooser.Intn(2) == 0 {
		return t
	}
	return all[s.chooser.Intn(len(all))]
}

// within puts parentheses around what doesn't begin a selector as it stands.
func within(expr string) string {
	if strings.ContainsAny(expr[:1], "*&<-+^!") || strings.Contains(expr, " ") {
		return "(" + expr + ")"
	}
	return expr
}

// composed is an expression of the type by so many steps.
func (s *scope) composed(t types.Type, depth int) string {
	c := s.chooser
	if depth <= 0 || c.Intn(8) == 0 {
		return s.simple(t)
	}
	below := func(t types.Type) string { return s.composed(t, depth-1-c.Intn(2)) }
	switch c.Intn(14) {
	case 0, 1, 2, 3:
		list := c.producers[keyOf(t)]
		if len(list) == 0 {
			break
		}
		one := list[c.Intn(len(list))]
		text := within(below(one.base)) + "." + one.selector
		if one.call != nil {
			text += "(" + strings.Join(s.composedAll(one.call, depth-1), ", ") + ")"
		}
		return text
	case 4:
		return "func() " + s.typ(t) + " { return " + below(s.lower(t)) + " }()"
	case 5:
		return "[]" + s.typ(t) + "{" + below(s.lower(t)) + "}[0]"
	case 6:
		return "map[string]" + s.typ(t) + "{\"\": " + below(s.lower(t)) + "}[\"\"]"
	case 7:
		return "(*&[...]" + s.typ(t) + "{" + below(s.lower(t)) + "})[0]"
	case 8:
		return "struct{ X " + s.typ(t) + " }{" + below(s.lower(t)) + "}.X"
	case 9:
		return s.literal(t, depth)
	case 10:
		for try := 0; try < 10; try++ {
			from := s.order[c.Intn(len(s.order))].typ
			if types.IsInterface(from) && (types.IsInterface(t) || profile.Implements(t, from)) {
				return within(below(from)) + ".(" + s.typ(t) + ")"
			}
			if types.ConvertibleTo(from, t) {
				return "(" + s.typ(t) + ")(" + below(from) + ")"
			}
		}
	case 11:
		if pointer, is := t.(*types.Pointer); is && c.Intn(2) == 0 {
			name := s.setup(below(pointer.Elem()))
			return "&" + name
		}
		return "*" + within(below(types.NewPointer(t)))
	case 12:
		if basic, is := t.Underlying().(*types.Basic); is {
			return s.operated(t, basic, depth)
		}
		return "<-func() chan " + s.typ(t) + " { panic(0) }()"
	case 13:
		name := s.fresh()
		s.line("var %s %s = %s", name, s.typ(t), below(s.lower(t)))
		return name
	}
	return s.simple(t)
}

// simple is a parameter, or a value that the package gives.
func (s *scope) simple(t types.Type) string {
	key := keyOf(t)
	e := s.entries[key]
	if e != nil && s.chooser.Intn(2) == 0 && len(e.recipes[plain]) > 0 && !s.taken[key] {
		return s.made(t)
	}
	if s.canWrite(t) {
		return s.param(s.typ(t))
	}
	return s.made(t)
}

func (s *scope) composedAll(t *types.Signature, depth int) (values []string) {
	for i := 0; i < t.Params().Len(); i++ {
		of := t.Params().At(i).Type()
		if t.Variadic() && i == t.Params().Len()-1 {
			if s.chooser.Intn(3) == 0 {
				return append(values, s.composed(of, depth-1)+"...")
			}
			of = of.(*types.Slice).Elem()
		}
		values = append(values, s.composed(s.lower(of), depth-1))
	}
	return values
}

// literal is a literal of the type, where it has one.
func (s *scope) literal(t types.Type, depth int) string {
	below := func(t types.Type) string { return s.composed(s.lower(t), depth-1) }
	address, of := "", t
	if pointer, is := t.(*types.Pointer); is {
		address, of = "&", pointer.Elem()
	}
	switch under := of.Underlying().(type) {
	case *types.Struct:
		var parts []string
		for i := 0; i < under.NumFields(); i++ {
			if field := under.Field(i); field.Exported() && s.chooser.Intn(3) > 0 {
				parts = append(parts, field.Name()+": "+below(field.Type()))
			}
		}
		return "(" + address + s.typ(of) + "{" + strings.Join(parts, ", ") + "})"
	case *types.Slice:
		return "(" + address + s.typ(of) + "{" + below(under.Elem()) + ", 2: " + below(under.Elem()) + "})"
	case *types.Array:
		return "(" + address + s.typ(of) + "{" + below(under.Elem()) + "})"
	case *types.Map:
		return "(" + address + s.typ(of) + "{" + below(under.Key()) + ": " + below(under.Elem()) + "})"
	case *types.Signature:
		return "(" + s.typ(under) + ")(func" + strings.TrimPrefix(s.typ(under), "func") + " { panic(0) })"
	}
	return s.simple(t)
}

// operated is the result of an operator.
func (s *scope) operated(t types.Type, basic *types.Basic, depth int) string {
	one := func(list ...string) string { return list[s.chooser.Intn(len(list))] }
	below := func() string { return within(s.composed(t, depth-1)) }
	switch info := basic.Info(); {
	case info&types.IsInteger != 0:
		return below() + " " + one("+", "-", "*", "/", "&", "|", "^", "&^", "<<", ">>") + " " + below()
	case info&types.IsFloat != 0, info&types.IsComplex != 0:
		return below() + " " + one("+", "-", "*", "/") + " " + below()
	case info&types.IsString != 0:
		return one(below()+" + "+below(), below()+"[1:]")
	case info&types.IsBoolean != 0:
		other := s.order[s.chooser.Intn(len(s.order))].typ
		if types.Comparable(other) {
			return fmt.Sprintf("(%s)(%s == %s)", s.typ(t), within(s.composed(other, depth-1)), within(s.composed(s.lower(other), depth-1)))
		}
		return below() + " " + one("&&", "||") + " " + below()
	}
	return s.simple(t)
}
