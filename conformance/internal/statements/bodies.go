package main

import (
	"fmt"
	"go/types"
	"strings"

	"apigate/conformance/internal/generator"
)

// A maker draws bodies of functions over what a client sees.
type maker struct {
	*generator.Generator
	outer  []generator.Known // what is visible at package level
	scopes [][]generator.Known
	count  int
}

// see makes what is visible now known to the expressions.
func (m *maker) see() {
	m.Known = nil
	hidden := map[string]bool{}
	for i := len(m.scopes) - 1; i >= 0; i-- {
		for _, one := range m.scopes[i] {
			if !hidden[one.Name] {
				m.Known = append(m.Known, one)
			}
			hidden[one.Name] = true
		}
	}
	for _, one := range m.outer {
		if !hidden[one.Name] {
			m.Known = append(m.Known, one)
		}
	}
}

func (m *maker) open() { m.scopes = append(m.scopes, nil) }

func (m *maker) close() { m.scopes = m.scopes[:len(m.scopes)-1]; m.see() }

// declare makes a new variable known in the innermost scope.
func (m *maker) declare(name string, t types.Type) {
	last := len(m.scopes) - 1
	m.scopes[last] = append(m.scopes[last], generator.Known{Name: name, Object: types.NewVar(0, nil, name, t)})
	m.see()
}

// fresh is a name that nothing has; now and then one that hides another.
func (m *maker) fresh() string {
	m.count++
	if m.Chance(8) {
		name := m.Known[m.Intn(len(m.Known))].Name
		if !strings.Contains(name, ".") && !m.isOwn(name) {
			return name
		}
	}
	return fmt.Sprintf("x%d", m.count)
}

// isOwn says whether the innermost scope has the name.
func (m *maker) isOwn(name string) bool {
	for _, one := range m.scopes[len(m.scopes)-1] {
		if one.Name == name {
			return true
		}
	}
	return false
}

func (m *maker) expr(t types.Type, depth int) string { return m.Expr(t, depth).Text }

// where is some type for which a test holds.
func (m *maker) where(holds func(types.Type) bool) types.Type { return m.Some(holds) }

// variable is a known variable whose type passes a test.
func (m *maker) variable(holds func(types.Type) bool) (generator.Known, bool) {
	for tries := 0; tries < 40; tries++ {
		one := m.Known[m.Intn(len(m.Known))]
		if _, is := one.Object.(*types.Var); is && holds(one.Object.Type()) {
			return one, true
		}
	}
	return generator.Known{}, false
}

func always(types.Type) bool { return true }

func isChan(direction types.ChanDir) func(types.Type) bool {
	return func(t types.Type) bool {
		u, is := t.Underlying().(*types.Chan)
		return is && (u.Dir() == types.SendRecv || u.Dir() == direction)
	}
}

func isNumber(t types.Type) bool { return generator.IsKind(t, types.IsNumeric) }

func isInterface(t types.Type) bool { return types.IsInterface(t) }

// block is a block of some statements, with its braces.
func (m *maker) block(depth int, results []types.Type) string {
	m.open()
	defer m.close()
	return "{\n" + m.list(depth, results) + "}"
}

func (m *maker) list(depth int, results []types.Type) string {
	var text strings.Builder
	for i := 1 + m.Intn(3); i > 0; i-- {
		text.WriteString(m.statement(depth, results) + "\n")
	}
	return text.String()
}

// statement is the next statement.
func (m *maker) statement(depth int, results []types.Type) string {
	if depth <= 1 || m.Chance(50) {
		return m.simple(depth, results)
	}
	return m.nested(depth-1, results)
}

// wrong is a statement that breaks a rule of its kind.
func (m *maker) wrong(depth int) string {
	at := m.Known[m.Intn(len(m.Known))].Name
	own := m.scopes[len(m.scopes)-1]
	if len(own) > 0 && m.Chance(60) {
		at = own[m.Intn(len(own))].Name
	}
	value := m.expr(m.Any(), depth-1)
	forms := []string{
		at + " := " + value, at + ", _ := " + value + ", " + value, "_ := " + value, "var " + at + " = " + value, "var " + at + " int", "const " + at + " = " + value,
		value + "++", at + "++", "_++", at + " = " + value, "_ = nil", "_ += 1", at + " += " + value, at + " <<= " + value, value + " = " + value, value + " <- " + value,
		"return " + value + ", " + value, "return " + value, "return", "go " + value, "defer " + value, "go (" + value + ")", value, "switch nil {\n}", "switch " + value + " {\ncase " + m.expr(m.Any(), depth-1) + ":\n}",
		"if " + value + " {\n}", "for " + value + " {\n}", "for " + at + ", " + at + " := range " + value + " {\n}", "for _, _, = range " + value + " {\n}", "for " + at + " = range " + value + " {\n}",
		"switch " + at + ".(type) {\ncase int, string, int:\n}", "switch x := " + value + ".(type) {\ncase " + generator.Written(m.Any()) + ", nil:\n\t_ = x\n}", "switch _ := " + value + ".(type) {\n}",
		"select {\ncase " + at + " <- " + value + ":\n}", "select {\ncase y, z := <-" + value + ":\n\t_, _ = y, z\n}", "for i := 0; i < 10; j := 1 {\n}", "func() {\n}", "append(" + value + ", " + value + ")", "len(" + value + ")",
		"int(" + value + ")", "<-" + value, "var x, y = " + value, "x, y := " + value, "x, y, z := " + value + ", " + value, "const x, y = 1", "var _ " + generator.Written(m.Any()) + " = " + value, "[]int{1}[0] = " + value,
		"fTwo() = " + value, "_, _ = fTwo(), 1", "a, a := 1, 2", "var a, a = 1, 2", "defer func() int { return " + value + " }()", "{\n" + value + "\n}", "lab: " + value,
	}
	return forms[m.Intn(len(forms))]
}

// simple is a statement without a block of its own.
func (m *maker) simple(depth int, results []types.Type) string {
	switch m.Intn(15) {
	case 0:
		return m.Alone(depth - 1)
	case 1:
		return "<-" + m.Expr(m.where(isChan(types.RecvOnly)), depth-1).Within(6)
	case 2:
		t := m.where(isChan(types.SendOnly))
		if u, is := t.Underlying().(*types.Chan); is {
			return m.Expr(t, depth-1).Within(1) + " <- " + m.expr(u.Elem(), depth-1)
		}
	case 3:
		if one, is := m.variable(isNumber); is {
			return one.Name + m.One("++", "--")
		}
	case 4, 5:
		if one, is := m.variable(always); is {
			return one.Name + " = " + m.expr(one.Object.Type(), depth-1)
		}
	case 6:
		if one, is := m.variable(isNumber); is {
			return one.Name + m.One(" += ", " -= ", " *= ") + m.expr(one.Object.Type(), depth-1)
		}
	case 7:
		return "_ = " + m.expr(m.Any(), depth-1)
	case 8, 9, 10:
		return m.define(depth)
	case 11:
		name, t := m.fresh(), m.Any()
		text := "var " + name + " " + generator.Written(t)
		if m.Chance(60) {
			text += " = " + m.expr(t, depth-1)
		}
		m.declare(name, t)
		return text
	case 12:
		return m.literal(depth)
	case 13:
		return m.One("go ", "defer ") + m.call(depth)
	case 14:
		if m.Chance(40) {
			return m.returns(depth, results)
		}
	}
	return "_ = " + m.expr(m.Any(), depth-1)
}

func (m *maker) returns(depth int, results []types.Type) string {
	var words []string
	for _, t := range results {
		words = append(words, m.expr(t, depth-1))
	}
	return strings.TrimSpace("return " + strings.Join(words, ", "))
}

// define is a short declaration of one or two variables, or of the results of a call.
func (m *maker) define(depth int) string {
	if m.Chance(15) {
		one, other := m.fresh(), m.fresh()
		if one == other {
			other += "y"
		}
		text := one + ", " + other + " := fTwo()"
		m.declare(one, types.Typ[types.Int])
		m.declare(other, types.Typ[types.String])
		return text
	}
	var names, values []string
	var kinds []types.Type
	for i := m.Intn(2); i >= 0; i-- {
		name, t := m.fresh(), m.Any()
		for _, other := range names {
			if other == name {
				name += "y"
			}
		}
		of := generator.Written(t)
		if strings.ContainsAny(of, "*<( ") {
			of = "(" + of + ")"
		}
		names, kinds = append(names, name), append(kinds, t)
		values = append(values, of+"("+m.expr(t, depth-1)+")")
	}
	for i, name := range names {
		m.declare(name, kinds[i])
	}
	return strings.Join(names, ", ") + " := " + strings.Join(values, ", ")
}

// call is a call for go and defer.
func (m *maker) call(depth int) string {
	if m.Chance(60) {
		return "func() " + m.block(depth-1, nil) + "()"
	}
	return m.Alone(depth - 1)
}

// literal is a function literal that a variable is given.
func (m *maker) literal(depth int) string {
	if depth <= 1 {
		return "_ = func() {}"
	}
	name, t := m.fresh(), m.Any()
	m.open()
	m.declare(name+"p", t)
	result := m.Any()
	text := fmt.Sprintf("_ = func(%sp %s) %s {\n%s%s\n}", name, generator.Written(t), generator.Written(result), m.list(depth-1, []types.Type{result}), m.returns(depth-1, []types.Type{result}))
	m.close()
	return text
}

// nested is a statement with blocks.
func (m *maker) nested(depth int, results []types.Type) string {
	boolean := m.where(func(t types.Type) bool { return generator.IsKind(t, types.IsBoolean) })
	m.open()
	defer m.close()
	init := func() string {
		if m.Chance(40) {
			return m.define(depth) + "; "
		}
		return ""
	}
	switch m.Intn(10) {
	case 0:
		return m.block(depth, results)
	case 1, 2:
		text := "if " + init() + m.Header(boolean, depth-1) + " " + m.block(depth, results)
		if m.Chance(50) {
			text += " else " + m.block(depth, results)
		}
		return text
	case 3:
		head := m.define(depth) + "; " + m.Header(boolean, depth-1) + "; "
		if one, is := m.variable(isNumber); is {
			head += one.Name + "++"
		}
		return "for " + head + " " + m.block(depth, results)
	case 4:
		if m.Chance(30) {
			return "for " + m.block(depth, results)
		}
		return "for " + m.Header(boolean, depth-1) + " " + m.block(depth, results)
	case 5:
		return m.ranged(depth, results)
	case 6:
		return m.switched(init(), depth, results)
	case 7:
		return m.typeSwitched(init(), depth, results)
	case 8:
		return m.selected(depth, results)
	}
	return fmt.Sprintf("l%d: ", m.Intn(1000)) + m.block(depth, results)
}

// Header is an expression that stands in front of a block.
func (m *maker) Header(t types.Type, depth int) string {
	text := m.expr(t, depth)
	if strings.Contains(text, "{") {
		return "(" + text + ")"
	}
	return text
}

func (m *maker) ranged(depth int, results []types.Type) string {
	t := m.where(func(t types.Type) bool {
		switch u := t.Underlying().(type) {
		case *types.Slice, *types.Map:
			return true
		case *types.Chan:
			return u.Dir() != types.SendOnly
		case *types.Basic:
			return u.Info()&types.IsString != 0
		}
		return false
	})
	var kinds []types.Type
	switch u := t.Underlying().(type) {
	case *types.Slice:
		kinds = []types.Type{types.Typ[types.Int], u.Elem()}
	case *types.Map:
		kinds = []types.Type{u.Key(), u.Elem()}
	case *types.Chan:
		kinds = []types.Type{u.Elem()}
	default:
		kinds = []types.Type{types.Typ[types.Int], types.Typ[types.Rune]}
	}
	kinds = kinds[:m.Intn(len(kinds)+1)]
	over := m.Header(t, depth-1)
	var names []string
	assigns := m.Chance(25)
	for _, kind := range kinds {
		name := "_"
		if assigns {
			if one, is := m.variable(func(t types.Type) bool { return types.AssignableTo(kind, t) }); is {
				name = one.Name
			}
		} else {
			m.count++
			name = fmt.Sprintf("x%d", m.count)
		}
		names = append(names, name)
	}
	text := "for "
	if len(names) > 0 {
		text += strings.Join(names, ", ")
		if assigns {
			text += " = "
		} else {
			text += " := "
			for i, name := range names {
				m.declare(name, kinds[i])
			}
		}
	}
	return text + "range " + over + " " + m.block(depth, results)
}

func (m *maker) switched(init string, depth int, results []types.Type) string {
	t := m.where(func(t types.Type) bool { return generator.IsKind(t, types.IsOrdered) })
	tag := m.Header(t, depth-1)
	if m.Chance(25) {
		t, tag = types.Typ[types.Bool], ""
	}
	text := "switch " + init + tag + " {\n"
	for i := m.Intn(3); i >= 0; i-- {
		values := m.expr(t, depth-1)
		if m.Chance(30) {
			values += ", " + m.expr(t, depth-1)
		}
		m.open()
		text += "case " + values + ":\n" + m.list(depth, results)
		m.close()
	}
	if m.Chance(40) {
		m.open()
		text += "default:\n" + m.list(depth, results)
		m.close()
	}
	return text + "}"
}

func (m *maker) typeSwitched(init string, depth int, results []types.Type) string {
	t := m.where(isInterface)
	of := m.Header(t, depth-1)
	if strings.ContainsAny(of, " *&!-+^") {
		of = "(" + of + ")"
	}
	m.count++
	name := fmt.Sprintf("x%d", m.count)
	text := "switch " + init
	if m.Chance(70) {
		text += name + " := "
	} else {
		name = ""
	}
	text += of + ".(type) {\n"
	seen := map[string]bool{}
	for i := m.Intn(3); i >= 0; i-- {
		listed := m.where(func(u types.Type) bool { return types.IsInterface(u) || types.AssignableTo(u, t) })
		word := generator.Written(listed)
		if seen[word] {
			continue
		}
		seen[word] = true
		m.open()
		switch {
		case m.Chance(15) && !seen["nil"]:
			seen["nil"] = true
			word, listed = word+", nil", t
		}
		if name != "" {
			m.declare(name, listed)
			text += "case " + word + ":\n_ = " + name + "\n" + m.list(depth, results)
		} else {
			text += "case " + word + ":\n" + m.list(depth, results)
		}
		m.close()
	}
	return text + "}"
}

func (m *maker) selected(depth int, results []types.Type) string {
	text := "select {\n"
	for i := m.Intn(3); i >= 0; i-- {
		m.open()
		t := m.where(isChan(types.RecvOnly))
		u, is := t.Underlying().(*types.Chan)
		from := "<-" + m.Expr(t, depth-1).Within(6)
		switch m.Intn(4) {
		case 0:
			text += "case " + from + ":\n"
		case 1:
			m.count++
			name := fmt.Sprintf("x%d", m.count)
			text += "case " + name + " := " + from + ":\n"
			if is {
				m.declare(name, u.Elem())
			}
			text += "_ = " + name + "\n"
		case 2:
			text += "case _, _ = " + from + ":\n"
		case 3:
			t := m.where(isChan(types.SendOnly))
			if u, is := t.Underlying().(*types.Chan); is {
				text += "case " + m.Expr(t, depth-1).Within(1) + " <- " + m.expr(u.Elem(), depth-1) + ":\n"
			} else {
				text += "default:\n"
			}
		}
		text += m.list(depth, results)
		m.close()
	}
	return text + "}"
}
