//go:build apidiff

// Kinds of change of the names that packages declare.
package main

import (
	"fmt"
	"go/ast"
	"go/constant"
	"go/token"
	"go/types"
	"path"
	"strconv"
	"strings"
)

// A kind of change has a plain name; where a tree has no place for it, the kind named before makes one first.
type kind struct {
	name   string
	do     func(*mutator) bool
	before string
}

var objectKinds = []kind{
	{"function added", (*mutator).addFunction, ""},
	{"function removed", func(m *mutator) bool { return m.dropOne(isFunction) }, ""},
	{"function renamed", func(m *mutator) bool { return m.renameOne(isFunction) }, ""},
	{"function unexported", func(m *mutator) bool { return m.hideOne(isFunction) }, ""},
	{"function becomes a variable", (*mutator).functionToVariable, ""},
	{"variable becomes a function", (*mutator).variableToFunction, "variable added"},
	{"constant added", (*mutator).addConstant, ""},
	{"constant removed", func(m *mutator) bool { return m.dropOne(isConstant) }, "constant added"},
	{"constant's value changed", (*mutator).changeValue, "constant added"},
	{"constant loses its type", (*mutator).untypeConstant, "typed constant added"},
	{"typed constant added", (*mutator).addTypedConstant, ""},
	{"constant gets a type", (*mutator).typeConstant, "constant added"},
	{"constant's kind changed", (*mutator).changeKind, "constant added"},
	{"constant becomes a variable", (*mutator).constantToVariable, "constant added"},
	{"variable added", (*mutator).addVariable, ""},
	{"variable removed", func(m *mutator) bool { return m.dropOne(isVariable) }, "variable added"},
	{"variable's type changed", (*mutator).retypeVariable, "variable added"},
	{"variable's type inferred", (*mutator).inferVariable, "variable added"},
	{"variable renamed", func(m *mutator) bool { return m.renameOne(isVariable) }, "variable added"},
	{"type added", (*mutator).addType, ""},
	{"type removed with all that names it", (*mutator).dropType, ""},
	{"type renamed", func(m *mutator) bool { return m.renameOne(isDefined) }, ""},
	{"type renamed behind an alias", func(m *mutator) bool { return m.renameBehindAlias(m.fresh("Renamed")) }, ""},
	{"type unexported", func(m *mutator) bool { return m.hideOne(isDefined) }, ""},
	{"type unexported behind an alias", func(m *mutator) bool { return m.renameBehindAlias(m.fresh("renamed")) }, ""},
	{"unexported type renamed", (*mutator).renameHidden, "unexported type added"},
	{"unexported type added", (*mutator).addHidden, ""},
	{"unexported type exported", (*mutator).showHidden, "unexported type added"},
	{"unexported type becomes a basic one", (*mutator).hiddenToBasic, "unexported type added"},
	{"type becomes an alias of its form", (*mutator).typeToAlias, ""},
	{"type of a basic one becomes its alias", (*mutator).basicToAlias, "number added"},
	{"alias added", (*mutator).addAlias, ""},
	{"alias becomes a type", (*mutator).aliasToType, "alias added"},
	{"alias becomes a twin of its type", (*mutator).splitAlias, "alias added"},
	{"twin of a type added", (*mutator).addTwin, ""},
	{"twin becomes an alias of the other", (*mutator).mergeTwins, "twin of a type added"},
	{"name replaced by an alias of it", (*mutator).useAlias, "alias added"},
	{"type moves to another package behind an alias", func(m *mutator) bool { return m.moveType(false, false) }, "type added"},
	{"type moves to another package and name behind an alias", func(m *mutator) bool { return m.moveType(false, true) }, "type added"},
	{"type moves to an internal package behind an alias", func(m *mutator) bool { return m.moveType(true, m.chance(50)) }, "type added"},
	{"type of another package replaced by one of its name", (*mutator).sameName, ""},
}

func (m *mutator) dropOne(holds func(*declared) bool) bool {
	one := m.pick(func(one *declared) bool { return holds(one) && len(m.uses[one.object]) == 0 })
	if one == nil {
		return false
	}
	m.drop(one)
	return true
}

func (m *mutator) renameOne(holds func(*declared) bool) bool {
	one := m.pick(holds)
	return one != nil && m.rename(one, m.fresh(one.name.Name))
}

func (m *mutator) hideOne(holds func(*declared) bool) bool {
	one := m.pick(func(one *declared) bool { return holds(one) && one.name.IsExported() })
	return one != nil && !token.IsKeyword(lower(one.name.Name)) && types.Universe.Lookup(lower(one.name.Name)) == nil && m.rename(one, lower(one.name.Name))
}

func (m *mutator) addFunction() bool {
	one := m.file()
	m.add(one, "func "+m.fresh("Added")+m.signature(one, 1))
	return true
}

func (m *mutator) functionToVariable() bool {
	one := m.pick(isFunction)
	if one == nil {
		return false
	}
	decl := one.decl.(*ast.FuncDecl)
	m.replace(decl, "var "+decl.Name.Name+" func"+m.behindName(decl))
	return true
}

// behindName is what stands behind the name of a function.
func (m *mutator) behindName(decl *ast.FuncDecl) string {
	text := m.sourceOf(decl.Pos()).text
	return text[m.offset(decl.Type.Params.Pos()):m.offset(decl.Type.End())]
}

func (m *mutator) variableToFunction() bool {
	one := m.pick(isVariable)
	if one == nil {
		return false
	}
	spec := one.spec.(*ast.ValueSpec)
	text := "func " + one.name.Name + "() " + m.text(spec.Type)
	if form, is := spec.Type.(*ast.FuncType); is && m.chance(50) {
		text = "func " + one.name.Name + strings.TrimPrefix(m.text(form), "func")
	}
	m.drop(one)
	m.add(one.source, text)
	return true
}

// value is a constant of a kind, as it is written.
func (m *mutator) value(kind string) string {
	switch kind {
	case "string":
		return strconv.Quote(m.fresh("text"))
	case "rune":
		return fmt.Sprintf("%q", 'a'+rune(m.Intn(26)))
	case "bool":
		return m.one("true", "false")
	}
	return m.one("0", "-1", "7", "127", "255", "65535", "1 << 40", fmt.Sprint(m.Intn(1000)))
}

func (m *mutator) addConstant() bool {
	m.add(m.file(), "const "+m.fresh("Added")+" = "+m.value(m.one("string", "rune", "bool", "int")))
	return true
}

func (m *mutator) addTypedConstant() bool {
	one := m.file()
	kind := m.one("int", "string", "uint8", "bool", "int64", "rune")
	if one.pack.types.Scope().Lookup(kind) != nil {
		return false
	}
	name, value := m.fresh("Added"), m.value(strings.TrimPrefix(kind, "u"))
	if kind == "uint8" {
		value = fmt.Sprint(m.Intn(256))
	}
	if m.chance(50) {
		m.add(one, "type Of"+name+" "+kind+"\n\nconst "+name+" Of"+name+" = "+value)
	} else {
		m.add(one, "const "+name+" "+kind+" = "+value)
	}
	return true
}

// basicOf is the basic type underneath that of a constant.
func basicOf(one *declared) *types.Basic {
	found, _ := one.object.Type().Underlying().(*types.Basic)
	return found
}

func kindOf(basic *types.Basic) string {
	switch {
	case basic.Kind() == types.UntypedRune:
		return "rune"
	case basic.Info()&types.IsString != 0:
		return "string"
	case basic.Info()&types.IsBoolean != 0:
		return "bool"
	}
	return "int"
}

// hasValue tells whether a declared constant has a written value that can be replaced.
func hasValue(one *declared) bool {
	return isConstant(one) && len(one.spec.(*ast.ValueSpec).Values) == 1
}

func (m *mutator) changeValue() bool {
	one := m.pick(hasValue)
	if one == nil {
		return false
	}
	value := one.spec.(*ast.ValueSpec).Values[0]
	kind, text := kindOf(basicOf(one)), ""
	if kind == "int" && m.chance(60) {
		text = m.text(value) + m.one(" + 1", " ^ 1", " * 2", " | 64")
	} else if kind == "bool" {
		text = "!(" + m.text(value) + ")"
	} else {
		text = m.value(kind)
	}
	if text == m.text(value) {
		return false
	}
	m.replace(value, text)
	return true
}

func isTyped(one *declared) bool { return hasValue(one) && one.spec.(*ast.ValueSpec).Type != nil }

func (m *mutator) untypeConstant() bool {
	one := m.pick(isTyped)
	if one == nil {
		return false
	}
	m.replace(one.spec.(*ast.ValueSpec).Type, "")
	return true
}

func (m *mutator) typeConstant() bool {
	one := m.pick(func(one *declared) bool { return hasValue(one) && !isTyped(one) })
	if one == nil {
		return false
	}
	name := kindOf(basicOf(one))
	if one.source.pack.types.Scope().Lookup(name) != nil {
		return false
	}
	if m.chance(30) {
		own := m.fresh("Type")
		m.add(one.source, "type "+own+" "+name)
		name = own
	}
	m.put(one.name.End(), one.name.End(), " "+name)
	return true
}

func (m *mutator) changeKind() bool {
	one := m.pick(func(one *declared) bool { return hasValue(one) && !isTyped(one) })
	if one == nil {
		return false
	}
	value := one.spec.(*ast.ValueSpec).Values[0]
	text := m.value(m.one("string", "rune", "bool", "int"))
	if found := one.object.(*types.Const).Val(); found.Kind() == constant.Int && m.chance(60) {
		if number, fits := constant.Int64Val(found); fits && 0 < number && number < 0xd800 {
			text = strconv.QuoteRune(rune(number)) // the same value of another kind
			if basicOf(one).Kind() == types.UntypedRune {
				text = fmt.Sprint(number)
			}
		}
	}
	m.replace(value, text)
	return true
}

func (m *mutator) constantToVariable() bool {
	one := m.pick(func(one *declared) bool { return hasValue(one) && len(m.uses[one.object]) == 0 })
	if one == nil {
		return false
	}
	text := m.text(one.spec)
	m.drop(one)
	m.add(one.source, "var "+text)
	return true
}

func (m *mutator) addVariable() bool {
	one := m.file()
	m.add(one, "var "+m.fresh("Added")+" "+m.typeText(one, 1))
	return true
}

func (m *mutator) retypeVariable() bool {
	one := m.pick(isVariable)
	if one == nil {
		return false
	}
	written := one.spec.(*ast.ValueSpec).Type
	m.replace(written, m.other(one.source, m.text(written)))
	return true
}

func (m *mutator) inferVariable() bool {
	one := m.pick(isVariable)
	if one == nil || one.source.pack.types.Scope().Lookup("new") != nil {
		return false
	}
	written := one.spec.(*ast.ValueSpec).Type
	m.replace(written, "= *new("+m.text(written)+")")
	return true
}

// typeDeclared declares a type with what a type may have.
func (m *mutator) typeDeclared(one *source, name string) string {
	switch m.Intn(5) {
	case 0, 1:
		text := "type " + name + " struct {\n"
		for n := 1 + m.Intn(3); n > 0; n-- {
			text += "\t" + m.fresh(m.one("Field", "Field", "field")) + " " + m.typeText(one, 1) + "\n"
		}
		text += "}\n"
		for n := m.Intn(3); n > 0; n-- {
			text += "\nfunc (" + m.one("", "*") + name + ") " + m.fresh(m.one("Method", "Method", "method")) + m.signature(one, 1) + "\n"
		}
		return text
	case 2:
		return "type " + name + " interface {\n\t" + m.fresh("Method") + m.signature(one, 1) + "\n\t" + m.fresh(m.one("Method", "method")) + "()\n}\n"
	case 3:
		return "type " + name + " " + m.one("int", "string", "uint8") + "\n\nfunc (" + name + ") " + m.fresh("Method") + "() string\n"
	}
	return "type " + name + " " + m.typeText(one, 1) + "\n"
}

func (m *mutator) addType() bool {
	one := m.file()
	name := m.fresh("Added")
	m.add(one, m.typeDeclared(one, name))
	if m.chance(50) {
		m.add(one, "func New"+name+"() "+m.one("", "*", "[]")+name)
	}
	return true
}

// dropType drops a type, its methods, and each declaration that names it, or what is dropped so.
func (m *mutator) dropType() bool {
	top := m.pick(isDefined)
	if top == nil {
		return false
	}
	gone, left := map[*declared]bool{}, []*declared{top}
	for len(left) > 0 {
		one := left[0]
		left = left[1:]
		if gone[one] {
			continue
		}
		if len(gone) > 12 || one.spec != nil && !isType(one) && !alone(one) {
			return false
		}
		gone[one] = true
		for _, use := range m.uses[one.object] {
			for _, other := range m.all {
				var node ast.Node = other.decl
				if other.spec != nil {
					node = other.spec
				}
				if node.Pos() <= use.Pos() && use.Pos() < node.End() {
					left = append(left, other)
				}
			}
		}
	}
	specs := map[ast.Decl]int{}
	for one := range gone {
		specs[one.decl]++
	}
	for one := range gone {
		if group, is := one.decl.(*ast.GenDecl); is && specs[group] == len(group.Specs) {
			if one.spec == group.Specs[0] {
				m.replace(group, "")
			}
		} else {
			m.drop(one)
		}
	}
	return true
}

func (m *mutator) renameBehindAlias(name string) bool {
	one := m.pick(func(one *declared) bool { return isDefined(one) && one.name.IsExported() })
	if one == nil || !m.rename(one, name) {
		return false
	}
	m.add(one.source, "type "+one.name.Name+" = "+name)
	return true
}

func isHidden(one *declared) bool { return isDefined(one) && !one.name.IsExported() }

func (m *mutator) addHidden() bool {
	one := m.file()
	name := m.fresh("hidden")
	text := m.typeDeclared(one, name)
	if m.chance(50) {
		text = "type " + name + " " + m.one("int", "string", "bool", "uint16", "int8") + "\n"
	}
	m.add(one, text)
	m.add(one, m.one("func "+m.fresh("New")+"() "+m.one("", "", "*")+name, "var "+m.fresh("Var")+" "+name, "type "+m.fresh("Alias")+" = "+name,
		"type "+m.fresh("Holder")+" struct { "+name+" }", "type "+m.fresh("Holder")+" struct { Field "+m.one("", "*", "[]")+name+" }",
		"var "+m.fresh("Holder")+" struct { A int; "+name+" }"))
	return true
}

func (m *mutator) renameHidden() bool { return m.renameOne(isHidden) }

func (m *mutator) showHidden() bool {
	one := m.pick(isHidden)
	return one != nil && m.rename(one, upper(one.name.Name))
}

func (m *mutator) hiddenToBasic() bool {
	one := m.pick(func(one *declared) bool {
		_, is := one.object.Type().Underlying().(*types.Basic)
		return is && isHidden(one)
	})
	return one != nil && m.toUnderlying(one)
}

// toUnderlying writes what a type is defined over wherever the type is named, without its methods.
func (m *mutator) toUnderlying(one *declared) bool {
	text := m.text(form(one))
	methods := m.methods(one)
	for _, use := range m.uses[one.object] {
		inside := false
		for _, method := range methods {
			inside = inside || method.decl.Pos() <= use.Pos() && use.Pos() < method.decl.End()
		}
		if m.sourceOf(use.Pos()).pack != one.source.pack {
			return false
		}
		if !inside {
			m.replace(use, text)
		}
	}
	for _, method := range methods {
		m.replace(method.decl, "")
	}
	m.drop(one)
	return true
}

func (m *mutator) typeToAlias() bool {
	one := m.pick(isDefined)
	return one != nil && m.toAlias(one)
}

func (m *mutator) toAlias(one *declared) bool {
	for _, method := range m.methods(one) {
		m.replace(method.decl, "")
	}
	m.put(form(one).Pos(), form(one).Pos(), "= ")
	return true
}

func (m *mutator) basicToAlias() bool {
	one := m.pick(func(one *declared) bool {
		_, is := one.object.Type().Underlying().(*types.Basic)
		return is && isDefined(one) && (len(m.methods(one)) == 0 || m.chance(20))
	})
	return one != nil && m.toAlias(one)
}

func (m *mutator) addAlias() bool {
	one := m.pick(func(one *declared) bool { return isType(one) && one.name.IsExported() })
	if one == nil {
		return false
	}
	m.add(one.source, "type "+m.fresh("Alias")+" = "+one.name.Name)
	return true
}

func (m *mutator) aliasToType() bool {
	one := m.pick(isAlias)
	if one == nil {
		return false
	}
	spec := one.spec.(*ast.TypeSpec)
	m.put(spec.Assign, spec.Assign+1, " ")
	return true
}

// twin declares a copy of a type with its methods.
func (m *mutator) twin(one *declared, name string) string {
	text := "type " + name + " " + m.text(form(one)) + "\n"
	for _, method := range m.methods(one) {
		decl := method.decl.(*ast.FuncDecl)
		star := ""
		if _, is := decl.Recv.List[0].Type.(*ast.StarExpr); is {
			star = "*"
		}
		text += "\nfunc (" + star + name + ") " + decl.Name.Name + m.behindName(decl) + "\n"
	}
	return text
}

func (m *mutator) addTwin() bool {
	one := m.pick(func(one *declared) bool { return isDefined(one) && one.name.IsExported() })
	if one == nil {
		return false
	}
	m.add(one.source, m.twin(one, "Twin"+one.name.Name))
	return true
}

func (m *mutator) mergeTwins() bool {
	one := m.pick(func(one *declared) bool { return isDefined(one) && strings.HasPrefix(one.name.Name, "Twin") })
	if one == nil {
		return false
	}
	for _, method := range m.methods(one) {
		m.replace(method.decl, "")
	}
	m.replace(form(one), "= "+strings.TrimPrefix(one.name.Name, "Twin"))
	return true
}

func (m *mutator) splitAlias() bool {
	one := m.pick(func(one *declared) bool {
		if !isAlias(one) {
			return false
		}
		named, is := one.object.Type().(*types.Named)
		return is && named.Obj().Pkg() == one.source.pack.types
	})
	if one == nil {
		return false
	}
	meant := m.of(one.object.Type().(*types.Named).Obj())
	if meant == nil {
		return false
	}
	m.drop(one)
	m.add(meant.source, m.twin(meant, one.name.Name))
	return true
}

func (m *mutator) useAlias() bool {
	one := m.pick(func(one *declared) bool {
		named, is := one.object.Type().(*types.Named)
		return isAlias(one) && is && named.Obj().Pkg() == one.source.pack.types && len(m.uses[named.Obj()]) > 1
	})
	if one == nil {
		return false
	}
	meant := one.object.Type().(*types.Named).Obj()
	use, _ := some(m, m.uses[meant])
	spec := one.spec.(*ast.TypeSpec)
	if spec.Pos() <= use.Pos() && use.Pos() < spec.End() || m.sourceOf(use.Pos()).pack != one.source.pack {
		return false
	}
	m.replace(use, one.name.Name)
	return true
}

// moveType moves a type that needs nothing of its package, but itself, to a new one.
func (m *mutator) moveType(internal, renamed bool) bool {
	one := m.pick(func(one *declared) bool {
		if !isDefined(one) || !one.name.IsExported() {
			return false
		}
		nodes := []ast.Node{one.spec}
		for _, method := range m.methods(one) {
			nodes = append(nodes, method.decl)
		}
		own := m.ownNames(one.source.pack, nodes...)
		delete(own, one.object)
		return len(own) == 0
	})
	if one == nil {
		return false
	}
	folder, name := m.newFolder(""), one.name.Name
	if internal {
		folder = m.newFolder("internal")
	}
	if renamed {
		name = m.fresh("Moved")
	}
	nodes := []ast.Node{one.spec}
	text := "type " + name + " " + m.textWith(form(one), one.object, name) + "\n"
	for _, method := range m.methods(one) {
		nodes = append(nodes, method.decl)
		text += "\n" + m.textWith(method.decl, one.object, name) + "\n"
		m.replace(method.decl, "")
	}
	m.news.files[path.Join(folder, "moved.go")] = "package " + path.Base(folder) + "\n\n" + m.importsOf(nodes...) + "\n" + text
	m.put(one.source.file.Name.End(), one.source.file.Name.End(), "\nimport "+strconv.Quote(path.Join(m.tree.module, folder))+"\n")
	m.replace(form(one), "= "+path.Base(folder)+"."+name)
	return true
}

// textWith is the text of a node in which an object has another name.
func (m *mutator) textWith(node ast.Node, object types.Object, name string) string {
	start := m.offset(node.Pos())
	var edits []edit
	for _, use := range m.uses[object] {
		if node.Pos() <= use.Pos() && use.Pos() < node.End() {
			edits = append(edits, edit{m.offset(use.Pos()) - start, m.offset(use.End()) - start, name})
		}
	}
	text, _ := edited(m.text(node), edits)
	return text
}

// sameName declares, in a new package, a type with the name and form of one of another package, and takes it in one place.
func (m *mutator) sameName() bool {
	places := exprs(m, func(one *ast.SelectorExpr) bool {
		object, is := m.info.Uses[one.Sel].(*types.TypeName)
		return is && !object.IsAlias() && object.Pkg() != nil
	})
	place, is := some(m, places)
	if !is {
		return false
	}
	object := m.info.Uses[place.Sel].(*types.TypeName)
	folder := m.newFolder("")
	text := "int"
	if _, is := object.Type().Underlying().(*types.Interface); is {
		text = "interface{ Close() error }"
	}
	m.news.files[path.Join(folder, "same.go")] = "package " + path.Base(folder) + "\n\ntype " + object.Name() + " " + text + "\n"
	one := m.sourceOf(place.Pos())
	m.put(one.file.Name.End(), one.file.Name.End(), "\nimport "+strconv.Quote(path.Join(m.tree.module, folder))+"\n")
	m.replace(place.X, path.Base(folder))
	return true
}
