// Makes packages by a seed, most of whose declarations Go's type checker takes: those that it doesn't take are left out.
package main

import (
	"fmt"
	"go/ast"
	"go/parser"
	"go/token"
	"go/types"
	"math/rand"
	"strings"

	"apigate/conformance/internal/answers"
	"apigate/conformance/internal/generator"
	"apigate/internal/profile"
	"apigate/internal/worlds"
)

// A maker makes one package over others.
type maker struct {
	*rand.Rand
	path, name string
	over       worlds.Packages
	imports    []string // paths, in order
	names      []string // of the types
	decls      []string
	pack       *types.Package
	exprs      *generator.Generator
	count      int
}

var (
	namesOfFields  = []string{"X", "Y", "Name", "Next", "at", "left", "N", "_"}
	namesOfMethods = []string{"Get", "Set", "Len", "X", "Name", "next", "at", "Error"}
)

func (m *maker) one(words ...string) string { return words[m.Intn(len(words))] }

func (m *maker) chance(percent int) bool { return m.Intn(100) < percent }

// fresh is a new name, exported or not.
func (m *maker) fresh(start string) string {
	m.count++
	if m.chance(30) {
		start = strings.ToLower(start)
	}
	return fmt.Sprintf("%s%d", start, m.count)
}

// heading are the clause and the imports.
func (m *maker) heading() string {
	text := "package " + m.name + "\n"
	for _, path := range m.imports {
		text += "import \"" + path + "\"\n"
	}
	return text
}

// tried types the package with some declarations more, and gives the numbers of those of them that are in error or of a class of
// differences.
func (m *maker) tried(more []string) map[int]bool {
	text := m.heading()
	var ends []int
	for _, one := range append(append([]string{}, m.decls...), more...) {
		text += one + "\n"
		ends = append(ends, len(text))
	}
	set := token.NewFileSet()
	wrong := map[int]bool{}
	note := func(at int) {
		for i := range more {
			if at < ends[len(m.decls)+i] {
				wrong[i] = true
				return
			}
		}
	}
	file, err := parser.ParseFile(set, "p.go", text, parser.SkipObjectResolution)
	if err != nil {
		for i, one := range more {
			if _, _, err := answers.Parsed("package p\n" + one); err != nil {
				wrong[i] = true
			}
		}
		return wrong
	}
	info := &types.Info{Types: map[ast.Expr]types.TypeAndValue{}, Uses: map[*ast.Ident]types.Object{}, Defs: map[*ast.Ident]types.Object{}}
	settings := types.Config{
		Importer: m.over, IgnoreFuncBodies: true, Sizes: types.SizesFor("gc", "386"),
		Error: func(err error) { note(set.Position(err.(types.Error).Pos).Offset) },
	}
	if !m.check(set, file, settings, info) {
		for i := range more {
			wrong[i] = true
		}
	}
	if len(wrong) > 0 || m.chance(3) {
		return wrong
	}
	l := answers.ListingOf([]*ast.File{file})
	for at, d := range l.All {
		if len(l.Own(at, info, m.pack)) > 0 {
			note(set.Position(d.Place()).Offset)
		}
	}
	return wrong
}

// check types the package, and says whether Go's checker didn't fail by itself.
func (m *maker) check(set *token.FileSet, file *ast.File, settings types.Config, info *types.Info) (done bool) {
	defer func() { done = recover() == nil }()
	m.pack, _ = settings.Check(m.path, set, []*ast.File{file}, info)
	return true
}

// add adds those declarations that are right.
func (m *maker) add(more ...string) {
	for len(more) > 0 {
		wrong := m.tried(more)
		if len(wrong) == 0 {
			break
		}
		var kept []string
		for i, one := range more {
			if !wrong[i] {
				kept = append(kept, one)
			}
		}
		more = kept
	}
	m.decls = append(m.decls, more...)
}

// learn takes all that is declared into expressions.
func (m *maker) learn() {
	m.tried(nil)
	profile.ClientPath = m.path
	m.exprs = generator.NewGenerator(m.Int63(), m.over, m.pack)
	for _, imported := range m.pack.Imports() {
		m.exprs.Known = append(m.exprs.Known, generator.Exported(imported)...)
	}
	for _, name := range m.pack.Scope().Names() {
		if name != "_" && name != "init" {
			m.exprs.Known = append(m.exprs.Known, generator.Known{Name: name, Object: m.pack.Scope().Lookup(name)})
		}
	}
	m.exprs.Depth = 3
}

// typeName is a name of a type, of this package or another.
func (m *maker) typeName() string {
	switch m.Intn(8) {
	case 0, 1:
		return m.one("int", "string", "bool", "byte", "uint16", "int64", "float64", "error", "any", "rune", "complex64", "uintptr")
	case 2:
		if found := m.outer(func(object types.Object) bool { _, is := object.(*types.TypeName); return is }); found != "" {
			return found
		}
	}
	return m.names[m.Intn(len(m.names))]
}

// outer is a name of an imported package for which a test holds, or nothing.
func (m *maker) outer(holds func(types.Object) bool) string {
	if len(m.imports) == 0 {
		return ""
	}
	pack := m.over[m.imports[m.Intn(len(m.imports))]]
	for tries := 0; tries < 10; tries++ {
		names := pack.Scope().Names()
		if len(names) == 0 {
			break
		}
		if object := pack.Scope().Lookup(names[m.Intn(len(names))]); object.Exported() && holds(object) {
			return pack.Name() + "." + object.Name()
		}
	}
	return ""
}

// length is the length of an array.
func (m *maker) length() string {
	if m.exprs == nil || m.chance(50) {
		return m.one("0", "1", "2", "3", "1+2", "'\\x03'", `len("abc")`, "len([2]int{})", "1 << 2")
	}
	for tries := 0; tries < 10; tries++ {
		one := m.exprs.Known[m.Intn(len(m.exprs.Known))]
		switch object := one.Object.(type) {
		case *types.Const:
			if generator.IsKind(object.Type(), types.IsString) {
				return "len(" + one.Name + ")"
			}
			if generator.IsKind(object.Type(), types.IsInteger) {
				return one.Name + m.one("", "", " & 3", " % 4")
			}
		case *types.Var:
			if _, is := object.Type().Underlying().(*types.Array); is {
				return m.one("len", "cap") + "(" + one.Name + ")"
			}
		}
	}
	return "4"
}

// signature is what stands behind the name of a function.
func (m *maker) signature(depth int) string {
	var words []string
	names := m.chance(50)
	count := m.Intn(3)
	for i := 0; i < count; i++ {
		word := m.typeText(depth)
		if i == count-1 && m.chance(20) {
			word = "..." + word
		}
		if names {
			word = fmt.Sprintf("%s%d ", m.one("a", "b", "_"), i) + word
		}
		words = append(words, word)
	}
	text := "(" + strings.Join(words, ", ") + ")"
	switch m.Intn(5) {
	case 0, 1:
		return text + " " + m.typeText(depth)
	case 2:
		return text + " (" + m.typeText(depth) + ", " + m.one("error", "bool", m.typeText(depth)) + ")"
	case 3:
		return text + " (r " + m.typeText(depth) + ")"
	}
	return text
}

func (m *maker) structText(depth int) string {
	var fields []string
	for n := m.Intn(4); n > 0; n-- {
		switch m.Intn(6) {
		case 0:
			fields = append(fields, m.one("", "*")+m.typeName())
		case 1:
			fields = append(fields, m.one(namesOfFields...)+", "+m.one(namesOfFields...)+" "+m.typeText(depth))
		case 2:
			fields = append(fields, m.one(namesOfFields...)+" "+m.typeText(depth)+" `tag`")
		default:
			fields = append(fields, m.one(namesOfFields...)+" "+m.typeText(depth))
		}
	}
	return "struct { " + strings.Join(fields, "; ") + " }"
}

func (m *maker) interfaceText(depth int) string {
	var parts []string
	for n := m.Intn(4); n > 0; n-- {
		if m.chance(25) {
			parts = append(parts, m.typeName())
		} else {
			parts = append(parts, m.one(namesOfMethods...)+m.signature(depth))
		}
	}
	return "interface { " + strings.Join(parts, "; ") + " }"
}

func (m *maker) typeText(depth int) string {
	if depth <= 0 || m.chance(45) {
		return m.typeName()
	}
	inner := func() string { return m.typeText(depth - 1) }
	switch m.Intn(11) {
	case 0, 1:
		return "*" + inner()
	case 2, 3:
		return "[]" + inner()
	case 4:
		return "[" + m.length() + "]" + inner()
	case 5:
		return "map[" + inner() + "]" + inner()
	case 6:
		return m.one("chan ", "<-chan ", "chan<- ") + inner()
	case 7:
		return "func" + m.signature(depth-1)
	case 8, 9:
		return m.structText(depth - 1)
	}
	return m.interfaceText(depth - 1)
}

// types_ declares types that name each other, first all of their names.
func (m *maker) types_(count int) {
	first := len(m.decls)
	var names []string
	for i := 0; i < count; i++ {
		names = append(names, m.fresh("T"))
		m.decls = append(m.decls, "type "+names[i]+" struct{}")
	}
	m.names = append(m.names, names...)
	for i, name := range names {
		for tries := 0; tries < 4; tries++ {
			before := m.decls[first+i]
			text := m.typeText(3)
			if m.chance(50) {
				text = m.one(m.structText(2), m.structText(1), m.interfaceText(2), m.typeName())
			}
			m.decls[first+i] = "type " + name + m.one(" ", " ", " ", " = ") + text
			if m.isRight() {
				break
			}
			m.decls[first+i] = before
		}
	}
}

// isRight says whether all that is declared is right.
func (m *maker) isRight() bool {
	one := m.decls
	m.decls = nil
	wrong := m.tried(one)
	m.decls = one
	return len(wrong) == 0
}

func (m *maker) methods(count int) {
	var more []string
	for i := 0; i < count; i++ {
		receiver := m.one("", "t ", "_ ") + m.one("", "*", "", "*", "(", "*(") + m.names[m.Intn(len(m.names))]
		receiver += strings.Repeat(")", strings.Count(receiver, "("))
		more = append(more, "func ("+receiver+") "+m.one(m.one(namesOfMethods...), m.fresh("M"))+m.signature(2)+m.one("", " {}", " { for {} }"))
	}
	m.add(more...)
}

func (m *maker) functions(count int) {
	var more []string
	for i := 0; i < count; i++ {
		more = append(more, "func "+m.fresh("F")+m.signature(2)+m.one("", " {}", " { for {} }"))
	}
	if m.chance(10) {
		more = append(more, "func "+m.one("_", "init", "init")+"() {}")
	}
	m.add(more...)
}

// constantGroup are constants by iota.
func (m *maker) constantGroup() string {
	kind := ""
	if m.chance(50) {
		t := m.exprs.Some(func(t types.Type) bool { return generator.IsKind(t, types.IsInteger) })
		kind = " " + generator.Written(t)
	}
	text := "const (\n\t" + m.fresh("C") + kind + " = " + m.one("iota", "1 << iota", "iota + 1", "iota * 3", "-iota", "iota % 2", "'a' + iota", "len(\"ab\") + iota", "1 << (iota * 2) &^ 1") + "\n"
	for n := m.Intn(4); n > 0; n-- {
		switch m.Intn(8) {
		case 0:
			text += "\t_\n"
		case 1:
			text += "\t" + m.fresh("C") + " = " + m.exprs.Constant(1).Text + "\n"
		case 2:
			text += "\t" + m.fresh("C") + kind + " = iota\n"
		default:
			text += "\t" + m.fresh("C") + "\n"
		}
	}
	return text + ")"
}

func (m *maker) constants(count int) {
	var more []string
	for i := 0; i < count; i++ {
		switch m.Intn(5) {
		case 0:
			more = append(more, m.constantGroup())
		case 1:
			t := m.exprs.Some(func(t types.Type) bool { return generator.IsKind(t, types.IsInteger|types.IsString|types.IsBoolean) })
			more = append(more, "const "+m.fresh("C")+" "+generator.Written(t)+" = "+m.exprs.Least(t).Text)
		case 2:
			more = append(more, "const "+m.fresh("C")+", "+m.fresh("C")+" = "+m.exprs.Constant(1).Text+", "+m.exprs.Constant(1).Text)
		default:
			more = append(more, "const "+m.fresh("C")+" = "+m.exprs.Constant(1+m.Intn(2)).Text)
		}
	}
	m.add(more...)
}

// pair is a call of a function with two results, or two values.
func (m *maker) pair() string {
	for tries := 0; tries < 20; tries++ {
		one := m.exprs.Known[m.Intn(len(m.exprs.Known))]
		if _, is := one.Object.(*types.TypeName); is || one.Object.Type() == nil {
			continue
		}
		if call, is := one.Object.Type().Underlying().(*types.Signature); is && call.Results().Len() == 2 {
			return one.Name + m.exprs.Arguments(call, 1)
		}
	}
	return m.exprs.Expr(m.exprs.Any(), 1).Text + ", " + m.exprs.Expr(m.exprs.Any(), 1).Text
}

func (m *maker) variables(count int) {
	var more []string
	for i := 0; i < count; i++ {
		t := m.exprs.Any()
		value := func(depth int) string { return m.exprs.Expr(t, depth).Text }
		switch m.Intn(8) {
		case 0:
			more = append(more, "var "+m.fresh("V")+" "+m.typeText(2))
		case 1:
			more = append(more, "var "+m.fresh("V")+", "+m.fresh("V")+" "+generator.Written(t)+m.one("", " = "+value(1)+", "+value(1)))
		case 2:
			more = append(more, "var "+m.fresh("V")+", "+m.fresh("V")+" = "+m.pair())
		case 3:
			of := m.exprs.Some(func(t types.Type) bool { _, is := t.Underlying().(*types.Map); return is || types.IsInterface(t) })
			text := m.exprs.Expr(of, 1).Within(7)
			if u, is := of.Underlying().(*types.Map); is {
				text += "[" + m.exprs.Expr(u.Key(), 1).Text + "]"
			} else {
				text += ".(" + generator.Written(t) + ")"
			}
			more = append(more, "var "+m.fresh("V")+m.one("", ", "+m.fresh("V"))+" = "+text)
		case 4:
			more = append(more, "var "+m.fresh("V")+" "+generator.Written(t)+" = "+value(2))
		default:
			more = append(more, "var "+m.one(m.fresh("V"), m.fresh("V"), m.fresh("V"), "_")+" = "+value(m.Intn(4)))
		}
	}
	m.add(more...)
}

// make makes the declarations of the package.
func (m *maker) make() {
	m.types_(2 + m.Intn(4))
	m.methods(m.Intn(6))
	m.functions(m.Intn(3))
	m.learn()
	m.constants(m.Intn(6))
	m.variables(m.Intn(4))
	m.learn()
	m.types_(1 + m.Intn(3))
	m.methods(m.Intn(4))
	m.learn()
	m.variables(m.Intn(5))
	m.constants(m.Intn(3))
	m.functions(m.Intn(2))
	m.tried(nil)
	m.over[m.path] = m.pack
}
