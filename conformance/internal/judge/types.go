//go:build apidiff

// Kinds of change of types and signatures wherever they stand.
package main

import (
	"go/ast"
	"go/types"
	"strings"
)

var typeKinds = []kind{
	{"parameter added", (*mutator).addParameter, ""},
	{"parameter removed", (*mutator).dropParameter, ""},
	{"parameter's type changed", func(m *mutator) bool { return m.retypeOne(parameters) }, ""},
	{"parameters in another order", (*mutator).reorderParameters, ""},
	{"parameters named", (*mutator).nameParameters, ""},
	{"result added", (*mutator).addResult, ""},
	{"result removed", (*mutator).dropResult, ""},
	{"result's type changed", func(m *mutator) bool { return m.retypeOne(results) }, ""},
	{"variadic parameter added", (*mutator).addVariadic, ""},
	{"slice parameter becomes variadic", (*mutator).toVariadic, "function added"},
	{"variadic parameter becomes a slice", (*mutator).toSlice, "variadic parameter added"},
	{"channel added", (*mutator).addChannel, ""},
	{"channel's direction changed", (*mutator).changeDirection, "channel added"},
	{"channel type loses its direction", (*mutator).dropDirection, "channel added"},
	{"number added", (*mutator).addNumber, ""},
	{"number widened", (*mutator).widen, "number added"},
	{"number narrowed", (*mutator).narrow, "number added"},
	{"basic type changed", (*mutator).changeBasic, ""},
	{"array added", (*mutator).addArray, ""},
	{"array's length changed", (*mutator).changeLength, "array added"},
	{"slice becomes an array", (*mutator).toArray, ""},
	{"map's key changed", (*mutator).changeKey, ""},
	{"type behind a pointer", (*mutator).point, ""},
	{"pointer gives way to its type", (*mutator).unpoint, ""},
	{"type changed anywhere", (*mutator).changeAny, ""},
	{"interface in place of a type", (*mutator).toInterface, ""},
	{"form of a type changed", (*mutator).changeForm, ""},
	{"struct without a name added", (*mutator).addUnnamed, ""},
	{"defined type over another of the package", (*mutator).overOther, ""},
}

// aSignature is the type of a function or method, or one anywhere.
func (m *mutator) aSignature(holds func(*ast.FuncType) bool) *ast.FuncType {
	if m.chance(70) {
		one := m.pick(func(one *declared) bool {
			decl, is := one.decl.(*ast.FuncDecl)
			return is && (holds == nil || holds(decl.Type))
		})
		if one != nil {
			return one.decl.(*ast.FuncDecl).Type
		}
	}
	found, _ := some(m, exprs(m, holds))
	return found
}

func parameters(form *ast.FuncType) *ast.FieldList { return form.Params }

func results(form *ast.FuncType) *ast.FieldList { return form.Results }

func hasParameters(form *ast.FuncType) bool { return len(form.Params.List) > 0 }

func hasResults(form *ast.FuncType) bool { return form.Results != nil && len(form.Results.List) > 0 }

func isVariadic(form *ast.FuncType) bool {
	if !hasParameters(form) {
		return false
	}
	_, is := form.Params.List[len(form.Params.List)-1].Type.(*ast.Ellipsis)
	return is
}

// unnamed tells whether none of a list has a name.
func unnamed(list *ast.FieldList) bool {
	for _, one := range list.List {
		if len(one.Names) > 0 {
			return false
		}
	}
	return true
}

// typesOf are the texts of a list's types, one for each name.
func (m *mutator) typesOf(list *ast.FieldList) (texts []string) {
	if list == nil {
		return nil
	}
	for _, one := range list.List {
		for n := 0; n == 0 || n < len(one.Names); n++ {
			texts = append(texts, m.text(one.Type))
		}
	}
	return texts
}

func (m *mutator) setParameters(form *ast.FuncType, texts []string) {
	m.replace(form.Params, "("+strings.Join(texts, ", ")+")")
}

func (m *mutator) setResults(form *ast.FuncType, texts []string) {
	text := " (" + strings.Join(texts, ", ") + ")"
	if form.Results == nil {
		m.put(form.Params.End(), form.Params.End(), text)
		return
	}
	m.replace(form.Results, text)
}

func (m *mutator) addParameter() bool {
	form := m.aSignature(nil)
	if form == nil {
		return false
	}
	texts := m.typesOf(form.Params)
	at := m.Intn(len(texts) + 1)
	if isVariadic(form) && at == len(texts) {
		at--
	}
	texts = append(texts[:at], append([]string{m.typeText(m.sourceOf(form.Pos()), 1)}, texts[at:]...)...)
	m.setParameters(form, texts)
	return true
}

func (m *mutator) dropParameter() bool {
	form := m.aSignature(hasParameters)
	if form == nil {
		return false
	}
	texts := m.typesOf(form.Params)
	at := m.Intn(len(texts))
	m.setParameters(form, append(texts[:at], texts[at+1:]...))
	return true
}

func (m *mutator) retypeOne(of func(*ast.FuncType) *ast.FieldList) bool {
	form := m.aSignature(func(form *ast.FuncType) bool { return of(form) != nil && len(of(form).List) > 0 })
	if form == nil {
		return false
	}
	field, _ := some(m, of(form).List)
	one := m.sourceOf(form.Pos())
	if ellipsis, is := field.Type.(*ast.Ellipsis); is {
		m.replace(ellipsis.Elt, m.other(one, m.text(ellipsis.Elt)))
		return true
	}
	m.replace(field.Type, m.other(one, m.text(field.Type)))
	return true
}

func (m *mutator) reorderParameters() bool {
	form := m.aSignature(func(form *ast.FuncType) bool { return len(form.Params.List) > 1 && !isVariadic(form) })
	return form != nil && m.swap([]*ast.FieldList{form.Params})
}

func (m *mutator) nameParameters() bool {
	form := m.aSignature(func(form *ast.FuncType) bool { return hasParameters(form) && unnamed(form.Params) })
	if form == nil {
		return false
	}
	for _, one := range form.Params.List {
		m.put(one.Pos(), one.Pos(), m.fresh("name")+" ")
	}
	return true
}

func (m *mutator) addResult() bool {
	form := m.aSignature(nil)
	if form == nil {
		return false
	}
	m.setResults(form, append(m.typesOf(form.Results), m.typeText(m.sourceOf(form.Pos()), 1)))
	return true
}

func (m *mutator) dropResult() bool {
	form := m.aSignature(hasResults)
	if form == nil {
		return false
	}
	texts := m.typesOf(form.Results)
	at := m.Intn(len(texts))
	m.setResults(form, append(texts[:at], texts[at+1:]...))
	return true
}

func (m *mutator) addVariadic() bool {
	form := m.aSignature(func(form *ast.FuncType) bool { return !isVariadic(form) })
	if form == nil {
		return false
	}
	m.setParameters(form, append(m.typesOf(form.Params), "..."+m.typeText(m.sourceOf(form.Pos()), 0)))
	return true
}

func endsWithSlice(form *ast.FuncType) bool {
	if !hasParameters(form) || !unnamed(form.Params) {
		return false
	}
	array, is := form.Params.List[len(form.Params.List)-1].Type.(*ast.ArrayType)
	return is && array.Len == nil
}

func (m *mutator) toVariadic() bool {
	form := m.aSignature(endsWithSlice)
	if form == nil {
		return false
	}
	array := form.Params.List[len(form.Params.List)-1].Type.(*ast.ArrayType)
	m.put(array.Pos(), array.Elt.Pos(), "...")
	return true
}

func (m *mutator) toSlice() bool {
	form := m.aSignature(isVariadic)
	if form == nil {
		return false
	}
	ellipsis := form.Params.List[len(form.Params.List)-1].Type.(*ast.Ellipsis)
	m.put(ellipsis.Pos(), ellipsis.Elt.Pos(), "[]")
	return true
}

func (m *mutator) addChannel() bool {
	one := m.file()
	name := m.fresh("Feed")
	form := m.one("chan ", "<-chan ", "chan<- ") + "(" + m.typeText(one, 0) + ")"
	m.add(one, m.one("type "+name+" "+form, "type "+name+" "+form, "func "+name+"() "+form, "type "+name+" struct { C "+form+" }"))
	return true
}

func (m *mutator) changeDirection() bool {
	found, is := some(m, exprs[*ast.ChanType](m, nil))
	if !is {
		return false
	}
	start := map[ast.ChanDir]string{ast.SEND | ast.RECV: "chan ", ast.SEND: "chan<- ", ast.RECV: "<-chan "}
	for {
		text := m.one("chan ", "<-chan ", "chan<- ")
		if text != start[found.Dir] {
			m.replace(found, text+"("+m.text(found.Value)+")")
			return true
		}
	}
}

func (m *mutator) dropDirection() bool {
	one := m.pick(func(one *declared) bool {
		return hasForm[*ast.ChanType](one) && form(one).(*ast.ChanType).Dir != ast.SEND|ast.RECV
	})
	if one == nil {
		return false
	}
	m.replace(form(one), "chan ("+m.text(form(one).(*ast.ChanType).Value)+")")
	return true
}

var wider = map[string][]string{
	"uint8": {"uint16", "uint32", "uint", "uint64"}, "uint16": {"uint32", "uint", "uint64"}, "uint32": {"uint", "uint64"}, "uint": {"uint64"},
	"int8": {"int16", "int32", "int", "int64"}, "int16": {"int32", "int", "int64"}, "int32": {"int", "int64"}, "int": {"int64"},
	"float32": {"float64"}, "complex64": {"complex128"},
}

func (m *mutator) addNumber() bool {
	one := m.file()
	name := m.fresh("Number")
	form := m.one("uint8", "uint16", "uint32", "uint", "int8", "int16", "int32", "int", "float32", "complex64", "string", "bool")
	text := "type " + name + " " + form
	if m.chance(40) {
		text += "\n\nfunc (" + name + ") String() string"
	}
	m.add(one, text+"\n\nfunc "+m.fresh("Next")+"("+name+") "+name)
	return true
}

func (m *mutator) widen() bool {
	one := m.pick(func(one *declared) bool { return hasForm[*ast.Ident](one) && wider[m.text(form(one))] != nil })
	if one == nil {
		return false
	}
	m.replace(form(one), m.one(wider[m.text(form(one))]...))
	return true
}

func (m *mutator) narrow() bool {
	narrower := func(text string) (found []string) {
		for from, all := range wider {
			for _, to := range all {
				if to == text {
					found = append(found, from)
				}
			}
		}
		return found
	}
	one := m.pick(func(one *declared) bool { return hasForm[*ast.Ident](one) && narrower(m.text(form(one))) != nil })
	if one == nil {
		return false
	}
	found := narrower(m.text(form(one)))
	least := found[0]
	for _, name := range found {
		if name < least {
			least = name
		}
	}
	m.replace(form(one), least)
	return true
}

func (m *mutator) changeBasic() bool {
	found, is := some(m, exprs(m, func(one *ast.Ident) bool {
		object, is := m.info.Uses[one].(*types.TypeName)
		return is && object.Parent() == types.Universe
	}))
	if !is {
		return false
	}
	text := m.basic(m.sourceOf(found.Pos()).pack)
	if text == found.Name {
		return false
	}
	m.replace(found, text)
	return true
}

func (m *mutator) addArray() bool {
	one := m.file()
	m.add(one, m.one("type ", "var ")+m.fresh("Table")+" [4]"+m.typeText(one, 0))
	return true
}

func (m *mutator) changeLength() bool {
	found, is := some(m, exprs(m, func(one *ast.ArrayType) bool { return one.Len != nil }))
	if !is {
		return false
	}
	m.replace(found.Len, m.one("1", "5", "6"))
	return true
}

func (m *mutator) toArray() bool {
	found, is := some(m, exprs(m, func(one *ast.ArrayType) bool { return one.Len == nil }))
	if !is {
		return false
	}
	m.put(found.Lbrack+1, found.Lbrack+1, m.one("2", "4"))
	return true
}

func (m *mutator) changeKey() bool {
	found, is := some(m, exprs[*ast.MapType](m, nil))
	if !is {
		return false
	}
	m.replace(found.Key, m.other(m.sourceOf(found.Pos()), m.text(found.Key)))
	return true
}

// types are the expressions that are types, of parameters, fields, variables and parts of types.
func (m *mutator) aType(holds func(ast.Expr) bool) ast.Expr {
	var found []ast.Expr
	note := func(expr ast.Expr) {
		if _, is := expr.(*ast.Ellipsis); expr != nil && !is && holds(expr) {
			found = append(found, expr)
		}
	}
	for _, one := range m.all {
		if !m.isShown(one) {
			continue
		}
		var top ast.Node = one.decl
		if one.spec != nil {
			top = one.spec
		}
		ast.Inspect(top, func(node ast.Node) bool {
			switch node := node.(type) {
			case *ast.FuncDecl:
				ast.Inspect(node.Type, func(inner ast.Node) bool {
					if field, is := inner.(*ast.Field); is {
						note(field.Type)
					}
					return true
				})
				return false
			case *ast.Field:
				if len(node.Names) > 0 {
					note(node.Type)
				}
			case *ast.ArrayType:
				note(node.Elt)
			case *ast.MapType:
				note(node.Value)
			case *ast.StarExpr:
				note(node.X)
			case *ast.ChanType:
				note(node.Value)
			case *ast.ValueSpec:
				if node.Type != nil {
					note(node.Type)
				}
			}
			return true
		})
	}
	expr, _ := some(m, found)
	return expr
}

func (m *mutator) point() bool {
	expr := m.aType(func(expr ast.Expr) bool { return m.info.Types[expr].IsType() })
	if expr == nil {
		return false
	}
	m.put(expr.Pos(), expr.Pos(), "*")
	return true
}

func (m *mutator) unpoint() bool {
	expr := m.aType(func(expr ast.Expr) bool {
		_, is := expr.(*ast.StarExpr)
		return is && m.info.Types[expr].IsType()
	})
	if expr == nil {
		return false
	}
	m.put(expr.Pos(), expr.Pos()+1, "")
	return true
}

func (m *mutator) changeAny() bool {
	expr := m.aType(func(expr ast.Expr) bool { return m.info.Types[expr].IsType() })
	if expr == nil {
		return false
	}
	m.replace(expr, "("+m.other(m.sourceOf(expr.Pos()), m.text(expr))+")")
	return true
}

// toInterface writes an interface in place of a type that implements it.
func (m *mutator) toInterface() bool {
	expr := m.aType(func(expr ast.Expr) bool {
		tv := m.info.Types[expr]
		return tv.IsType() && !types.IsInterface(tv.Type) && types.NewMethodSet(tv.Type).Len() > 0
	})
	if expr == nil {
		return false
	}
	one := m.sourceOf(expr.Pos())
	for _, name := range one.pack.types.Scope().Names() {
		object, is := one.pack.types.Scope().Lookup(name).(*types.TypeName)
		if !is {
			continue
		}
		if role, is := object.Type().Underlying().(*types.Interface); is && types.Implements(m.info.Types[expr].Type, role) {
			m.replace(expr, name)
			return true
		}
	}
	m.replace(expr, "interface{}")
	return true
}

func (m *mutator) changeForm() bool {
	one := m.pick(isDefined)
	if one == nil {
		return false
	}
	m.replace(form(one), m.other(one.source, m.text(form(one))))
	return true
}

func (m *mutator) addUnnamed() bool {
	one := m.file()
	form := "struct { A " + m.typeText(one, 0) + "; " + m.one("b int", "B string `x`", m.simple(one)) + " }"
	m.add(one, m.one("var "+m.fresh("Unnamed")+" ", "type "+m.fresh("Unnamed")+" = ", "func "+m.fresh("Unnamed")+"() ", "type "+m.fresh("Unnamed")+" []")+form)
	return true
}

func (m *mutator) overOther() bool {
	one := m.pick(isDefined)
	if one == nil {
		return false
	}
	m.add(one.source, "type "+m.fresh("Over")+" "+one.name.Name)
	return true
}
