// Makes expressions by a seed: most of them of a type that was chosen before, and then some spoiled.
package generator

import (
	"fmt"
	"go/ast"
	"go/types"
	"math/rand"
	"strings"

	"apigate/internal/profile"
	"apigate/internal/worlds"
)

// made is an expression with how tightly it binds: 7 is an operand, 6 a prefix operator, 1 to 5 a chain.
type made struct {
	Text  string
	binds int
}

// Known is a name that may stand in an expression.
type Known struct {
	Name   string
	Object types.Object
}

// reach is a selector with the type that it is asked of.
type reach struct {
	base     types.Type
	selector string
	call     *types.Signature
}

type Generator struct {
	*rand.Rand
	Known     []Known
	pool      []types.Type
	selectors []string
	reached   map[string][]reach
	spoils    bool
	Depth     int
}

func (g *Generator) One(words ...string) string { return words[g.Intn(len(words))] }

func (g *Generator) Chance(percent int) bool { return g.Intn(100) < percent }

// Written is the type as a client writes it.
func Written(t types.Type) string {
	return types.TypeString(t, func(p *types.Package) string {
		if p.Path() == profile.ClientPath {
			return ""
		}
		return p.Name()
	})
}

// operand is the type in a place where parentheses may be needed.
func operand(t types.Type) string {
	switch t.(type) {
	case *types.Named, *types.Basic, *types.Slice, *types.Array, *types.Map:
		return Written(t)
	}
	return "(" + Written(t) + ")"
}

func (m made) Within(binds int) string {
	if m.binds < binds {
		return "(" + m.Text + ")"
	}
	return m.Text
}

// add notes what selectors reach in a type.
func (g *Generator) add(t types.Type, client *types.Package) {
	for _, selector := range g.selectors {
		object, _, _ := types.LookupFieldOrMethod(t, true, client, selector)
		switch object := object.(type) {
		case *types.Var:
			key := Written(object.Type())
			g.reached[key] = append(g.reached[key], reach{t, selector, nil})
		case *types.Func:
			call := object.Type().(*types.Signature)
			key := Written(types.NewSignatureType(nil, nil, nil, call.Params(), call.Results(), call.Variadic()))
			g.reached[key] = append(g.reached[key], reach{t, selector, nil})
			if call.Results().Len() == 1 {
				key := Written(call.Results().At(0).Type())
				g.reached[key] = append(g.reached[key], reach{t, selector, call})
			}
		}
	}
}

// NewGenerator knows the types of all packages, those of their objects, and some more.
func NewGenerator(seed int64, all worlds.Packages, client *types.Package) *Generator {
	g := &Generator{Rand: rand.New(rand.NewSource(seed)), reached: map[string][]reach{}}
	pool := map[string]bool{}
	selectors := map[string]bool{}
	note := func(t types.Type) {
		if t == nil || pool[Written(t)] {
			return
		}
		if basic, is := t.(*types.Basic); is && basic.Info()&types.IsUntyped != 0 {
			return
		}
		pool[Written(t)] = true
		g.pool = append(g.pool, t)
	}
	select_ := func(name string) {
		if !selectors[name] {
			selectors[name] = true
			g.selectors = append(g.selectors, name)
		}
	}
	for _, pack := range append(client.Imports(), client) {
		for _, name := range pack.Scope().Names() {
			object := pack.Scope().Lookup(name)
			if pack == client || object.Exported() {
				note(object.Type())
			}
			if named, is := object.Type().(*types.Named); is {
				for i := 0; i < named.NumMethods(); i++ {
					select_(named.Method(i).Name())
				}
			}
			if fields, is := object.Type().Underlying().(*types.Struct); is {
				for i := 0; i < fields.NumFields(); i++ {
					select_(fields.Field(i).Name())
				}
			}
			if methods, is := object.Type().Underlying().(*types.Interface); is {
				for i := 0; i < methods.NumMethods(); i++ {
					select_(methods.Method(i).Name())
				}
			}
		}
	}
	for _, basic := range types.Typ {
		if basic.Info()&types.IsConstType != 0 {
			note(basic)
		}
	}
	note(types.Universe.Lookup("error").Type())
	for _, t := range append([]types.Type{}, g.pool...) {
		if named, is := t.(*types.Named); is && !types.IsInterface(named) {
			note(types.NewPointer(named))
		}
	}
	for _, t := range g.pool {
		g.add(t, client)
	}
	return g
}

func IsKind(t types.Type, info types.BasicInfo) bool {
	basic, is := t.Underlying().(*types.Basic)
	return is && basic.Info()&info != 0
}

// literal is a constant that most types of numbers and texts hold.
func (g *Generator) literal(t types.Type) made {
	switch {
	case IsKind(t, types.IsBoolean):
		return made{g.One("true", "false", "true", "1 < 2"), 3}
	case IsKind(t, types.IsString):
		return made{g.One(`"a"`, `""`, "`raw`", `"\x00z"`, `"日"`), 7}
	case g.spoils && g.Chance(10):
		return made{g.One("1.5", "2i", "1e3", "0x1p4", "170141183460469231731687303715884105728", `'x'`, `-129`, `1 << 64`, "256", "1 << 31", "1 << 63"), 5}
	}
	return made{g.One("0", "1", "2", "3", "7", "'a'", "100", "0x7f", "0b11", "1_0"), 7}
}

// names are the values that are assignable to the type, or are constants that may be.
func (g *Generator) names(t types.Type) []Known {
	var found []Known
	for _, one := range g.Known {
		switch one.Object.(type) {
		case *types.Var, *types.Const, *types.Func:
			if types.AssignableTo(one.Object.Type(), t) {
				found = append(found, one)
			} else if basic, is := one.Object.Type().(*types.Basic); is && basic.Info()&types.IsUntyped != 0 {
				if IsKind(t, types.IsInteger) && basic.Info()&types.IsInteger != 0 || IsKind(t, types.IsString) && basic.Info()&types.IsString != 0 || IsKind(t, types.IsBoolean) && basic.Info()&types.IsBoolean != 0 {
					found = append(found, one)
				}
			}
		}
	}
	return found
}

// Least is an expression of the type that has no other below it.
func (g *Generator) Least(t types.Type) made {
	if found := g.names(t); len(found) > 0 && g.Chance(70) {
		return made{found[g.Intn(len(found))].Name, 7}
	}
	switch u := t.Underlying().(type) {
	case *types.Basic:
		if g.Chance(60) || u.Kind() == types.UntypedNil {
			return g.literal(t)
		}
		return made{operand(t) + "(" + g.literal(t).Text + ")", 7}
	case *types.Struct, *types.Array, *types.Slice, *types.Map:
		if _, is := u.(*types.Struct); !is && g.Chance(15) {
			break
		}
		return made{operand(t) + "{}", 7}
	case *types.Signature:
		if g.Chance(50) {
			return g.function(t, u)
		}
	}
	return made{g.One("nil", operand(t)+"(nil)", operand(t)+"(nil)", "*new("+Written(t)+")"), 6}
}

func (g *Generator) function(t types.Type, u *types.Signature) made {
	if _, is := t.(*types.Signature); is {
		return made{Written(t) + " { for {} }", 7}
	}
	return made{operand(t) + "(" + Written(u) + " { for {} })", 7}
}

// Some is a type of the pool for which a test holds, or any.
func (g *Generator) Some(holds func(types.Type) bool) types.Type {
	for i := 0; i < 60; i++ {
		if t := g.pool[g.Intn(len(g.pool))]; holds(t) {
			return t
		}
	}
	return g.pool[g.Intn(len(g.pool))]
}

// Any is a type of the pool, more often a number or a text.
func (g *Generator) Any() types.Type {
	if g.Chance(30) {
		return g.Some(func(t types.Type) bool { return IsKind(t, types.IsConstType) })
	}
	return g.pool[g.Intn(len(g.pool))]
}

func (g *Generator) integer() types.Type {
	if g.Chance(50) {
		return types.Typ[types.Int]
	}
	return g.Some(func(t types.Type) bool { return IsKind(t, types.IsInteger) })
}

// index is an index, most of them constant and small.
func (g *Generator) index(depth int) string {
	if g.Chance(50) {
		return g.One("0", "1", "2", "0", "1", "'\\x01'", "3", "uint8(1)")
	}
	return g.Expr(g.integer(), depth).Text
}

func (g *Generator) Arguments(call *types.Signature, depth int) string {
	var words []string
	dots := ""
	for i := 0; i < call.Params().Len(); i++ {
		t := call.Params().At(i).Type()
		if call.Variadic() && i == call.Params().Len()-1 {
			if g.Chance(35) {
				words = append(words, g.Expr(t, depth).Text)
				dots = "..."
				break
			}
			for n := g.Intn(3); n > 0; n-- {
				words = append(words, g.Expr(t.(*types.Slice).Elem(), depth).Text)
			}
			break
		}
		words = append(words, g.Expr(t, depth).Text)
	}
	if g.spoils && g.Chance(6) && len(words) > 0 {
		words = words[1:]
	}
	if g.spoils && g.Chance(5) {
		words = append(words, g.Expr(g.Any(), 0).Text)
	}
	if g.spoils && g.Chance(4) {
		dots = g.One("", "...")
	}
	if g.Chance(4) && dots == "" && len(words) > 0 {
		dots = ","
	}
	return "(" + strings.Join(words, ", ") + dots + ")"
}

// called is a call of a known function with this one result.
func (g *Generator) called(t types.Type, depth int) (made, bool) {
	var found []Known
	for _, one := range g.Known {
		if one.Object.Type() == nil {
			continue
		}
		call, is := one.Object.Type().Underlying().(*types.Signature)
		if _, isType := one.Object.(*types.TypeName); is && !isType && call.Results().Len() == 1 && types.Identical(call.Results().At(0).Type(), t) {
			found = append(found, one)
		}
	}
	if len(found) == 0 {
		return made{}, false
	}
	one := found[g.Intn(len(found))]
	return made{one.Name + g.Arguments(one.Object.Type().Underlying().(*types.Signature), depth-1), 7}, true
}

// selected is what a selector reaches, a method's value or its result, or a method expression.
func (g *Generator) selected(t types.Type, depth int) (made, bool) {
	found := g.reached[Written(t)]
	if len(found) == 0 {
		return made{}, false
	}
	one := found[g.Intn(len(found))]
	base := g.Expr(one.base, depth-1)
	text := base.Within(7) + "." + one.selector
	if one.call != nil {
		if g.Chance(15) {
			first := "(" + base.Text
			rest := g.Arguments(one.call, depth-1)
			if rest != "()" {
				first += ", "
			}
			return made{"(" + Written(one.base) + ")." + one.selector + first + rest[1:], 7}, true
		}
		text += g.Arguments(one.call, depth-1)
	}
	return made{text, 7}, true
}

func (g *Generator) struct_(t types.Type, u *types.Struct, depth int) made {
	var words []string
	keyed := g.Chance(60)
	for i := 0; i < u.NumFields(); i++ {
		if keyed && g.Chance(35) {
			continue
		}
		value := g.element(u.Field(i).Type(), depth-1, false)
		if keyed {
			value = u.Field(i).Name() + ": " + value
		}
		words = append(words, value)
	}
	if keyed {
		g.Shuffle(len(words), func(i, j int) { words[i], words[j] = words[j], words[i] })
	}
	return made{operand(t) + "{" + g.joined(words) + "}", 7}
}

func (g *Generator) joined(words []string) string {
	if g.spoils && g.Chance(5) && len(words) > 0 {
		words = append(words, words[g.Intn(len(words))])
	}
	if g.spoils && g.Chance(5) && len(words) > 0 {
		words = words[1:]
	}
	text := strings.Join(words, ", ")
	if g.Chance(5) && text != "" {
		text += ","
	}
	return text
}

// element is a value in a composite literal, whose type may be left out.
func (g *Generator) element(t types.Type, depth int, elided bool) string {
	value := g.Expr(t, depth).Text
	if elided && g.Chance(60) {
		if front := Written(t) + "{"; strings.HasPrefix(value, front) && strings.HasSuffix(value, "}") && strings.Count(value, "{") == 1 {
			return value[len(front)-1:]
		}
		if pointer, is := t.(*types.Pointer); is {
			if front := "&" + Written(pointer.Elem()) + "{"; strings.HasPrefix(value, front) && strings.HasSuffix(value, "}") && strings.Count(value, "{") == 1 {
				return value[len(front)-1:]
			}
		}
	}
	return value
}

func (g *Generator) composite(t types.Type, depth int) (made, bool) {
	var words []string
	front := operand(t)
	switch u := t.Underlying().(type) {
	case *types.Struct:
		return g.struct_(t, u, depth), true
	case *types.Array, *types.Slice:
		element, most := types.Type(nil), int64(3)
		if array, is := u.(*types.Array); is {
			element, most = array.Elem(), array.Len()
			if _, is := t.(*types.Array); is && g.Chance(40) {
				front = "[...]" + Written(element)
			}
		} else {
			element = u.(*types.Slice).Elem()
		}
		count := int64(0)
		if most > 0 {
			count = int64(g.Intn(int(most) + 1))
		}
		if g.spoils && g.Chance(10) {
			count++
		}
		for i := int64(0); i < count; i++ {
			value := g.element(element, depth-1, true)
			if g.Chance(20) {
				value = g.One("0", "1", "2", fmt.Sprint(i), "'\\x02'") + ": " + value
			}
			words = append(words, value)
		}
	case *types.Map:
		for n := g.Intn(3); n > 0; n-- {
			key := g.element(u.Key(), depth-1, true)
			words = append(words, key+": "+g.element(u.Elem(), depth-1, true))
		}
	default:
		return made{}, false
	}
	return made{front + "{" + g.joined(words) + "}", 7}, true
}

func (g *Generator) binary(t types.Type, depth int) (made, bool) {
	side := func() made { return g.Expr(t, depth-1) }
	join := func(op string, binds int, left, right made) (made, bool) {
		return made{left.Within(binds) + " " + op + " " + right.Within(binds+1), binds}, true
	}
	switch {
	case IsKind(t, types.IsBoolean):
		switch g.Intn(4) {
		case 0:
			return join("||", 1, side(), side())
		case 1:
			return join("&&", 2, side(), side())
		case 2:
			t = g.Some(func(t types.Type) bool { return IsKind(t, types.IsOrdered) })
			return join(g.One("<", "<=", ">", ">=", "==", "!="), 3, g.Expr(t, depth-1), g.Expr(t, depth-1))
		}
		t := g.Some(types.Comparable)
		left, right := g.Expr(t, depth-1), g.Expr(t, depth-1)
		if g.Chance(20) {
			right = made{"nil", 7}
		}
		if g.Chance(15) {
			right = g.Expr(g.Some(types.IsInterface), depth-1)
		}
		if g.Chance(20) {
			left, right = right, left
		}
		return join(g.One("==", "!="), 3, left, right)
	case IsKind(t, types.IsString):
		return join("+", 4, side(), side())
	case IsKind(t, types.IsInteger):
		switch g.Intn(5) {
		case 0:
			return join(g.One("<<", ">>"), 5, side(), g.Expr(g.integer(), depth-1))
		case 1, 2:
			return join(g.One("+", "-", "|", "^"), 4, side(), side())
		}
		return join(g.One("*", "/", "%", "&", "&^"), 5, side(), side())
	case IsKind(t, types.IsNumeric):
		if g.Chance(50) {
			return join(g.One("+", "-"), 4, side(), side())
		}
		return join(g.One("*", "/"), 5, side(), side())
	}
	return made{}, false
}

// builtin is a call of a builtin function with a result of the type.
func (g *Generator) builtin(t types.Type, depth int) (made, bool) {
	if types.Identical(t, types.Typ[types.Int]) {
		switch g.Intn(4) {
		case 0:
			u := g.Some(func(t types.Type) bool { _, is := t.Underlying().(*types.Slice); return is })
			from := u
			if g.Chance(20) {
				from = types.Typ[types.String]
			}
			return made{"copy(" + g.Expr(u, depth-1).Text + ", " + g.Expr(from, depth-1).Text + ")", 7}, true
		}
		u := g.Some(func(t types.Type) bool {
			switch u := t.Underlying().(type) {
			case *types.Slice, *types.Array, *types.Chan, *types.Map:
				return true
			case *types.Basic:
				return u.Info()&types.IsString != 0
			case *types.Pointer:
				_, is := u.Elem().Underlying().(*types.Array)
				return is
			}
			return false
		})
		return made{g.One("len", "len", "cap") + "(" + g.Expr(u, depth-1).Text + ")", 7}, true
	}
	switch u := t.Underlying().(type) {
	case *types.Slice:
		if g.Chance(40) {
			return made{"make(" + Written(t) + ", " + g.index(depth-1) + g.One("", ", "+g.index(0)) + ")", 7}, true
		}
		rest := ""
		for n := g.Intn(3); n > 0; n-- {
			rest += ", " + g.Expr(u.Elem(), depth-1).Text
		}
		if g.Chance(40) {
			from := t
			if g.Chance(30) {
				from = types.Typ[types.String]
			}
			rest = ", " + g.Expr(from, depth-1).Text + "..."
		}
		return made{"append(" + g.Expr(t, depth-1).Text + rest + ")", 7}, true
	case *types.Map, *types.Chan:
		return made{"make(" + Written(t) + g.One("", "", ", "+g.index(0)) + ")", 7}, true
	case *types.Pointer:
		if _, is := t.(*types.Pointer); is {
			return made{"new(" + Written(u.Elem()) + ")", 7}, true
		}
	case *types.Interface:
		if u.NumMethods() == 0 {
			return made{"recover()", 7}, true
		}
	}
	return made{}, false
}

// held is an element of what holds values of the type.
func (g *Generator) held(t types.Type, depth int) (made, bool) {
	switch g.Intn(9) {
	case 0:
		return made{"*" + g.Expr(types.NewPointer(t), depth-1).Within(6), 6}, true
	case 1:
		ch := types.NewChan(types.ChanDir(g.Intn(3)), t)
		return made{"<-" + g.Expr(ch, depth-1).Within(7), 6}, true
	case 2:
		base := g.Expr(g.Some(types.IsInterface), depth-1)
		return made{base.Within(7) + ".(" + Written(t) + ")", 7}, true
	case 3:
		if types.Identical(t.Underlying(), types.Typ[types.Uint8]) {
			return made{g.Expr(types.Typ[types.String], depth-1).Within(7) + "[" + g.index(depth-1) + "]", 7}, true
		}
	case 4:
		key := g.Some(types.Comparable)
		return made{g.Expr(types.NewMap(key, t), depth-1).Within(7) + "[" + g.Expr(key, depth-1).Text + "]", 7}, true
	case 5:
		return made{g.Expr(types.NewSlice(t), depth-1).Within(7) + "[" + g.index(depth-1) + "]", 7}, true
	case 6:
		return made{g.Expr(types.NewArray(t, 3), depth-1).Within(7) + "[" + g.index(depth-1) + "]", 7}, true
	case 7:
		return made{g.Expr(types.NewPointer(types.NewArray(t, 2)), depth-1).Within(7) + "[" + g.index(depth-1) + "]", 7}, true
	}
	for i := 0; i < 20; i++ {
		one := g.Any()
		var element types.Type
		switch u := one.Underlying().(type) {
		case *types.Slice:
			element = u.Elem()
		case *types.Array:
			element = u.Elem()
		case *types.Map:
			element = u.Elem()
		}
		if element != nil && types.Identical(element, t) {
			index := g.index(depth - 1)
			if u, is := one.Underlying().(*types.Map); is {
				index = g.Expr(u.Key(), depth-1).Text
			}
			return made{g.Expr(one, depth-1).Within(7) + "[" + index + "]", 7}, true
		}
	}
	return made{}, false
}

// sliced is a slice expression of the type.
func (g *Generator) sliced(t types.Type, depth int) (made, bool) {
	base := t
	full := false
	switch u := t.Underlying().(type) {
	case *types.Slice:
		full = g.Chance(30)
		if _, is := t.(*types.Slice); is {
			switch g.Intn(3) {
			case 0:
				base = types.NewPointer(types.NewArray(u.Elem(), 3))
			case 1:
				base = types.NewArray(u.Elem(), 3)
			}
		}
	case *types.Basic:
		if u.Info()&types.IsString == 0 {
			return made{}, false
		}
		full = g.spoils && g.Chance(5)
	default:
		return made{}, false
	}
	bounds := g.One("", g.index(depth-1)) + ":" + g.One("", g.index(depth-1))
	if full {
		bounds = g.One("", g.index(0)) + ":" + g.index(depth-1) + ":" + g.One("2", "3", g.index(0))
	}
	return made{g.Expr(base, depth-1).Within(7) + "[" + bounds + "]", 7}, true
}

// Expr is an expression that should be usable as a value of the type.
func (g *Generator) Expr(t types.Type, depth int) made {
	if g.spoils && g.Chance(3) {
		t = g.Any()
	}
	if depth <= 0 || depth < g.Depth && g.Chance(12) {
		return g.Least(t)
	}
	for tries := 0; tries < 12; tries++ {
		found, is := made{}, false
		switch g.Intn(14) {
		case 0:
			found, is = made{"(" + g.Expr(t, depth-1).Text + ")", 7}, true
		case 1:
			from := g.Some(func(u types.Type) bool { return types.ConvertibleTo(u, t) })
			found, is = made{operand(t) + "(" + g.Expr(from, depth-1).Text + ")", 7}, true
		case 2, 3:
			found, is = g.called(t, depth)
		case 4, 5, 6:
			found, is = g.selected(t, depth)
		case 7:
			found, is = g.held(t, depth)
		case 8:
			found, is = g.composite(t, depth)
		case 9, 10:
			found, is = g.binary(t, depth)
		case 11:
			found, is = g.builtin(t, depth)
		case 12:
			found, is = g.sliced(t, depth)
		case 13:
			if pointer, points := t.(*types.Pointer); points {
				if value, is := g.composite(pointer.Elem(), depth); is && g.Chance(60) {
					return made{"&" + value.Within(6), 6}
				}
				found, is = made{"&" + g.Expr(pointer.Elem(), depth-1).Within(6), 6}, true
			} else if IsKind(t, types.IsNumeric) {
				found, is = made{g.One("-", "+", "^") + g.Expr(t, depth-1).Within(6), 6}, true
			} else if IsKind(t, types.IsBoolean) {
				found, is = made{"!" + g.Expr(t, depth-1).Within(6), 6}, true
			} else if types.IsInterface(t) {
				from := g.Some(func(u types.Type) bool { return types.AssignableTo(u, t) })
				found, is = g.Expr(from, depth), true
			} else if u, signs := t.(*types.Signature); signs {
				found, is = g.function(t, u), true
			}
		}
		if is {
			return found
		}
	}
	return g.Least(t)
}

// Constant is a calculation with constants alone.
func (g *Generator) Constant(depth int) made {
	if depth <= 0 {
		for i := 0; i < 40; i++ {
			if one := g.Known[g.Intn(len(g.Known))]; g.Chance(60) {
				if _, is := one.Object.(*types.Const); is {
					return made{one.Name, 7}
				}
			}
		}
		return made{g.One("0", "1", "2", "7", "'a'", "64", "1 << 62", "255", `"a"`, `"bc"`, "true", "1 << 100", "-1", "iota", "int8(-128)", "uint(3)", "p.Num(9)"), 4}
	}
	side := func() made { return g.Constant(depth - 1 - g.Intn(2)) }
	binds := map[string]int{"||": 1, "&&": 2, "==": 3, "!=": 3, "<": 3, "<=": 3, ">": 3, ">=": 3, "+": 4, "-": 4, "|": 4, "^": 4, "*": 5, "/": 5, "%": 5, "&": 5, "&^": 5, "<<": 5, ">>": 5}
	switch g.Intn(6) {
	case 0:
		return made{g.One("-", "+", "^", "!") + side().Within(6), 6}
	case 1:
		t := g.Some(func(t types.Type) bool { return IsKind(t, types.IsConstType) })
		return made{operand(t) + "(" + side().Text + ")", 7}
	case 2:
		return made{g.One("len", "") + "(" + side().Text + ")", 7}
	}
	op := Operators[g.Intn(len(Operators))]
	if g.Chance(60) {
		op = g.One("+", "-", "*", "/", "%", "<<", ">>", "==", "<")
	}
	return made{side().Within(binds[op]) + " " + op + " " + side().Within(binds[op]+1), binds[op]}
}

// Alone is a call that is no value by itself: one of a builtin function, or one with no result or several.
func (g *Generator) Alone(depth int) string {
	is := func(kind func(types.Type) bool) types.Type { return g.Some(kind) }
	switch g.Intn(6) {
	case 0:
		return "close(" + g.Expr(is(func(t types.Type) bool { _, is := t.Underlying().(*types.Chan); return is }), depth).Text + ")"
	case 1:
		t := is(func(t types.Type) bool { _, is := t.Underlying().(*types.Map); return is })
		if u, is := t.Underlying().(*types.Map); is {
			return "delete(" + g.Expr(t, depth).Text + ", " + g.Expr(u.Key(), depth).Text + ")"
		}
	case 2:
		return g.One("panic", "print", "println") + "(" + g.Expr(g.Any(), depth).Text + ")"
	case 3:
		return g.One("print", "println", "append", "copy", "new", "recover", "make", "cap") + "(" + g.Expr(g.Any(), depth).Text + ", " + g.Expr(g.Any(), depth).Text + ")"
	}
	var calls []Known
	for _, one := range g.Known {
		if call, is := one.Object.Type().(*types.Signature); is && call.Results().Len() != 1 {
			calls = append(calls, one)
		}
	}
	one := calls[g.Intn(len(calls))]
	text := one.Name + g.Arguments(one.Object.Type().(*types.Signature), depth)
	if g.Chance(50) {
		return g.Known[g.Intn(len(g.Known))].Name + "(" + text + g.One("", "", "...") + ")"
	}
	return text
}

// Next is the next expression.
func (g *Generator) Next(depth int) string {
	g.spoils, g.Depth = g.Chance(40), depth
	text := ""
	switch draw := g.Intn(100); {
	case draw < 12:
		text = g.Constant(depth).Text
	case draw < 18:
		text = g.Alone(depth - 1)
	default:
		text = g.Expr(g.Any(), depth-g.Intn(3)*g.Intn(2)).Text
	}
	if g.spoils && g.Chance(60) {
		text = g.Spoiled(text)
	}
	if g.Chance(1) {
		text = Written(g.Any())
	}
	return text
}

// Exported are the objects of an imported package that a client names.
func Exported(pack *types.Package) []Known {
	var all []Known
	for _, name := range pack.Scope().Names() {
		if ast.IsExported(name) {
			all = append(all, Known{pack.Name() + "." + name, pack.Scope().Lookup(name)})
		}
	}
	return all
}
