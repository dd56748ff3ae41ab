//go:build apidiff

// Kinds of change of the members of types: fields, methods, and what interfaces have.
package main

import (
	"go/ast"
	"go/token"
	"go/types"
	"strings"
)

var memberKinds = []kind{
	{"field added", func(m *mutator) bool { return m.addField(m.fresh("Added"), false) }, ""},
	{"unexported field added", func(m *mutator) bool { return m.addField(m.fresh("added"), false) }, ""},
	{"field added that can't be compared", func(m *mutator) bool { return m.addField(m.fresh(m.one("Added", "added")), true) }, ""},
	{"field removed", (*mutator).dropField, ""},
	{"field renamed", func(m *mutator) bool { return m.renameField(func(name string) string { return m.fresh(name) }, true) }, ""},
	{"field's type changed", (*mutator).retypeField, ""},
	{"field unexported", func(m *mutator) bool { return m.renameField(lower, true) }, ""},
	{"field exported", func(m *mutator) bool { return m.renameField(upper, false) }, "unexported field added"},
	{"fields in another order", (*mutator).reorderFields, ""},
	{"tag of a field changed", (*mutator).changeTag, ""},
	{"field becomes embedded", (*mutator).embedField, "field of a type added"},
	{"field of a type added", (*mutator).addOwnField, ""},
	{"embedded field gets a name", (*mutator).nameField, "type embedded"},
	{"embedded by pointer", (*mutator).byPointer, "type embedded"},
	{"embedded by value", func(m *mutator) bool { return m.byValue(false) }, "type embedded by pointer"},
	{"unexported type embedded by value", func(m *mutator) bool { return m.byValue(true) }, "fields move into an unexported type embedded by pointer"},
	{"type embedded", func(m *mutator) bool { return m.embed("") }, ""},
	{"type embedded by pointer", func(m *mutator) bool { return m.embed("*") }, ""},
	{"embedded field removed", (*mutator).dropEmbedded, "type embedded"},
	{"fields move into an embedded type", func(m *mutator) bool { return m.moveFields("", m.one("Part", "part")) }, ""},
	{"fields move into a type embedded by pointer", func(m *mutator) bool { return m.moveFields("*", "Part") }, ""},
	{"fields move into an unexported type embedded by pointer", func(m *mutator) bool { return m.moveFields("*", "part") }, ""},
	{"fields of an embedded type written out", (*mutator).writeOut, "fields move into an embedded type"},
	{"type that is embedded in it replaced by a twin", (*mutator).embedTwin, "fields move into an embedded type"},
	{"method hides a promoted field", (*mutator).hideField, "fields move into an embedded type"},
	{"method added", func(m *mutator) bool { return m.addMethod("Added") }, ""},
	{"unexported method added", func(m *mutator) bool { return m.addMethod("added") }, ""},
	{"method removed", (*mutator).dropMethod, ""},
	{"method renamed", func(m *mutator) bool { return m.renameMethod(func(name string) string { return m.fresh(name) }) }, ""},
	{"method unexported", func(m *mutator) bool { return m.renameMethod(lower) }, ""},
	{"receiver becomes a pointer", (*mutator).receiverToPointer, "method of a value added"},
	{"receiver becomes a value", (*mutator).receiverToValue, ""},
	{"method of a value added", func(m *mutator) bool { return m.addMethod("Value") }, ""},
	{"methods move to an embedded type", (*mutator).moveMethods, ""},
	{"interface added with a type", (*mutator).addInterface, ""},
	{"interface method added", func(m *mutator) bool { return m.addInterfaceMethod(m.fresh("Added")) }, ""},
	{"interface method removed", (*mutator).dropInterfaceMethod, ""},
	{"interface method renamed", func(m *mutator) bool {
		return m.renameInterfaceMethod(func(name string) string { return m.fresh(name) })
	}, ""},
	{"interface method unexported", func(m *mutator) bool { return m.renameInterfaceMethod(lower) }, ""},
	{"interface methods in another order", (*mutator).reorderMethods, ""},
	{"interface sealed", (*mutator).seal, "interface added with a type"},
	{"interface loses its unexported methods", (*mutator).unseal, "interface sealed"},
	{"sealed interface gets a method", func(m *mutator) bool { return m.growSealed(false) }, "interface sealed"},
	{"sealed interface gets a method that its types have", func(m *mutator) bool { return m.growSealed(true) }, "interface sealed"},
	{"type leaves a sealed interface", (*mutator).leaveSealed, "interface sealed"},
	{"type in a sealed interface by its pointer alone", (*mutator).sealByPointer, "interface sealed"},
	{"interface embedded", (*mutator).embedInterface, ""},
	{"embedded interface removed", (*mutator).dropEmbeddedInterface, "interface embedded"},
	{"methods move into an embedded interface", (*mutator).moveInterfaceMethods, ""},
}

// structs are the types that are defined as structs with a field for which a test holds.
func (m *mutator) aStruct(holds func(*ast.Field) bool) (*declared, *ast.Field) {
	fields := func(one *declared) (found []*ast.Field) {
		if !hasForm[*ast.StructType](one) {
			return nil
		}
		for _, field := range form(one).(*ast.StructType).Fields.List {
			if len(field.Names) < 2 && holds(field) {
				found = append(found, field)
			}
		}
		return found
	}
	one := m.pick(func(one *declared) bool { return len(fields(one)) > 0 })
	if one == nil {
		return nil, nil
	}
	field, _ := some(m, fields(one))
	return one, field
}

func isNamed(field *ast.Field) bool { return len(field.Names) == 1 && field.Names[0].Name != "_" }

func isExportedField(field *ast.Field) bool { return isNamed(field) && field.Names[0].IsExported() }

func isEmbedded(field *ast.Field) bool { return len(field.Names) == 0 }

// anyField is an exported field of a defined struct, mostly, or one of a struct anywhere.
func (m *mutator) anyField(exported bool) *ast.Field {
	if m.chance(85) {
		_, field := m.aStruct(func(field *ast.Field) bool { return isNamed(field) && field.Names[0].IsExported() == exported })
		return field
	}
	var found []*ast.Field
	for _, one := range exprs[*ast.StructType](m, nil) {
		for _, field := range one.Fields.List {
			if isNamed(field) && field.Names[0].IsExported() == exported {
				found = append(found, field)
			}
		}
	}
	field, _ := some(m, found)
	return field
}

// intoStruct puts a line in front of a struct's fields or behind them.
func (m *mutator) intoStruct(form *ast.StructType, line string) {
	at := form.Fields.Opening + 1
	if m.chance(50) {
		at = form.Fields.Closing
	}
	m.put(at, at, "\n"+line+"\n")
}

func (m *mutator) addField(name string, incomparable bool) bool {
	var form *ast.StructType
	if one := m.pick(hasForm[*ast.StructType]); one != nil && m.chance(85) {
		form = one.spec.(*ast.TypeSpec).Type.(*ast.StructType)
	} else {
		form, _ = some(m, exprs[*ast.StructType](m, nil))
	}
	if form == nil {
		return false
	}
	text := m.one("int", "string", "bool", "*int", "error")
	if incomparable {
		text = m.one("func()", "[]int", "map[string]int", "[2][]int")
	} else if m.chance(20) {
		text = m.typeText(m.sourceOf(form.Pos()), 1)
	}
	m.intoStruct(form, name+" "+text)
	return true
}

func (m *mutator) dropField() bool {
	field := m.anyField(true)
	if field == nil {
		return false
	}
	m.replace(field, "")
	return true
}

func (m *mutator) renameField(as func(string) string, exported bool) bool {
	field := m.anyField(exported)
	if field == nil || token.IsKeyword(as(field.Names[0].Name)) {
		return false
	}
	m.replace(field.Names[0], as(field.Names[0].Name))
	return true
}

func (m *mutator) retypeField() bool {
	field := m.anyField(true)
	if field == nil {
		return false
	}
	m.replace(field.Type, m.other(m.sourceOf(field.Pos()), m.text(field.Type)))
	return true
}

func (m *mutator) reorderFields() bool {
	var found []*ast.FieldList
	for _, one := range exprs[*ast.StructType](m, nil) {
		if len(one.Fields.List) > 1 {
			found = append(found, one.Fields)
		}
	}
	return m.swap(found)
}

// swap takes two fields, parameters or methods of a list for each other.
func (m *mutator) swap(lists []*ast.FieldList) bool {
	list, is := some(m, lists)
	if !is {
		return false
	}
	order := m.Perm(len(list.List))
	one, other := list.List[order[0]], list.List[order[1]]
	if m.text(one) == m.text(other) {
		return false
	}
	text := m.text(one)
	m.replace(one, m.text(other))
	m.replace(other, text)
	return true
}

func (m *mutator) changeTag() bool {
	form, is := some(m, exprs(m, func(one *ast.StructType) bool { return len(one.Fields.List) > 0 }))
	if !is {
		return false
	}
	field, _ := some(m, form.Fields.List)
	if field.Tag != nil {
		m.replace(field.Tag, m.one("", "`json:\"x\"`"))
	} else {
		m.put(field.End(), field.End(), " `json:\"x\"`")
	}
	return true
}

// typeName tells the type's name that an expression is, perhaps behind a star.
func typeName(expr ast.Expr) string {
	if star, is := expr.(*ast.StarExpr); is {
		expr = star.X
	}
	switch expr := expr.(type) {
	case *ast.Ident:
		return expr.Name
	case *ast.SelectorExpr:
		return expr.Sel.Name
	}
	return ""
}

func (m *mutator) embedField() bool {
	_, field := m.aStruct(func(field *ast.Field) bool { return isExportedField(field) && typeName(field.Type) != "" })
	if field == nil {
		return false
	}
	m.put(field.Names[0].Pos(), field.Names[0].End(), "")
	return true
}

func (m *mutator) addOwnField() bool {
	one := m.pick(hasForm[*ast.StructType])
	other := m.pick(func(one *declared) bool { return isDefined(one) })
	if one == nil || one.source.pack != other.source.pack {
		return false
	}
	name := other.name.Name
	m.intoStruct(form(one).(*ast.StructType), m.one(name, m.fresh("Field"))+" "+m.one("", "*")+name)
	return true
}

func (m *mutator) nameField() bool {
	_, field := m.aStruct(isEmbedded)
	if field == nil {
		return false
	}
	m.put(field.Pos(), field.Pos(), m.one(typeName(field.Type), m.fresh("Named"))+" ")
	return true
}

func (m *mutator) byPointer() bool {
	_, field := m.aStruct(func(field *ast.Field) bool {
		_, is := field.Type.(*ast.StarExpr)
		return isEmbedded(field) && !is && !types.IsInterface(m.info.Types[field.Type].Type)
	})
	if field == nil {
		return false
	}
	m.put(field.Pos(), field.Pos(), "*")
	return true
}

func (m *mutator) byValue(unexported bool) bool {
	_, field := m.aStruct(func(field *ast.Field) bool {
		_, is := field.Type.(*ast.StarExpr)
		return isEmbedded(field) && is && !(unexported && token.IsExported(typeName(field.Type)))
	})
	if field == nil {
		return false
	}
	m.put(field.Pos(), field.Pos()+1, "")
	return true
}

func (m *mutator) embed(star string) bool {
	one := m.pick(hasForm[*ast.StructType])
	if one == nil {
		return false
	}
	var found []string
	for _, other := range m.all {
		if isDefined(other) && other != one && other.source.pack == one.source.pack && (star == "" || !types.IsInterface(other.object.Type())) {
			found = append(found, other.name.Name)
		}
	}
	name, is := some(m, found)
	if !is {
		return false
	}
	m.intoStruct(form(one).(*ast.StructType), star+name)
	return true
}

func (m *mutator) dropEmbedded() bool {
	_, field := m.aStruct(isEmbedded)
	if field == nil {
		return false
	}
	m.replace(field, "")
	return true
}

// moveFields moves some fields of a struct into a type of their own, which is embedded in their place.
func (m *mutator) moveFields(star, start string) bool {
	one := m.pick(func(one *declared) bool {
		return hasForm[*ast.StructType](one) && len(form(one).(*ast.StructType).Fields.List) > 1
	})
	if one == nil {
		return false
	}
	list := form(one).(*ast.StructType).Fields.List
	name, count := m.fresh(start), 1+m.Intn(len(list))
	text := "type " + name + " struct {\n"
	for _, field := range list[:count] {
		text += "\t" + m.text(field) + "\n"
		m.replace(field, "")
	}
	m.put(list[0].Pos(), list[0].Pos(), star+name+"\n")
	m.add(one.source, text+"}")
	return true
}

// embeddedStruct is a struct with an embedded field of a struct of its package, and what declares that.
func (m *mutator) embeddedStruct() (one, part *declared, field *ast.Field) {
	partOf := func(field *ast.Field) *declared {
		t := m.info.Types[field.Type].Type
		if pointer, is := t.(*types.Pointer); is {
			t = pointer.Elem()
		}
		if named, is := t.(*types.Named); is {
			if found := m.of(named.Obj()); found != nil && hasForm[*ast.StructType](found) {
				return found
			}
		}
		return nil
	}
	one, field = m.aStruct(func(field *ast.Field) bool { return isEmbedded(field) && partOf(field) != nil })
	if one == nil {
		return nil, nil, nil
	}
	if part = partOf(field); part.source.pack != one.source.pack {
		return nil, nil, nil
	}
	return one, part, field
}

func (m *mutator) writeOut() bool {
	one, part, field := m.embeddedStruct()
	if one == nil || one == part {
		return false
	}
	text := m.text(form(part).(*ast.StructType).Fields)
	m.replace(field, strings.TrimSuffix(strings.TrimPrefix(text, "{"), "}"))
	return true
}

func (m *mutator) embedTwin() bool {
	one, part, field := m.embeddedStruct()
	if one == nil {
		return false
	}
	name := m.fresh(part.name.Name)
	m.add(part.source, m.twin(part, name))
	star := ""
	if _, is := field.Type.(*ast.StarExpr); is {
		star = "*"
	}
	m.replace(field, star+name)
	return true
}

func (m *mutator) hideField() bool {
	one, part, _ := m.embeddedStruct()
	if one == nil {
		return false
	}
	for _, field := range form(part).(*ast.StructType).Fields.List {
		if isExportedField(field) {
			m.add(one.source, "func ("+m.one("", "*")+one.name.Name+") "+field.Names[0].Name+"() int")
			return true
		}
	}
	return false
}

// canHaveMethods tells whether methods may be declared for a type.
func (m *mutator) canHaveMethods(one *declared) bool {
	if !isDefined(one) {
		return false
	}
	switch one.object.Type().Underlying().(type) {
	case *types.Interface, *types.Pointer:
		return false
	}
	return true
}

func (m *mutator) addMethod(start string) bool {
	one := m.pick(m.canHaveMethods)
	if one == nil {
		return false
	}
	star := m.one("", "*")
	if start == "Value" {
		star = ""
	}
	m.add(one.source, "func ("+star+one.name.Name+") "+m.fresh(start)+m.signature(one.source, 1))
	return true
}

func (m *mutator) dropMethod() bool {
	one := m.pick(isMethod)
	if one == nil {
		return false
	}
	m.replace(one.decl, "")
	return true
}

func (m *mutator) renameMethod(as func(string) string) bool {
	one := m.pick(func(one *declared) bool { return isMethod(one) && one.name.IsExported() })
	if one == nil || token.IsKeyword(as(one.name.Name)) {
		return false
	}
	m.replace(one.name, as(one.name.Name))
	return true
}

func receiver(one *declared) ast.Expr { return one.decl.(*ast.FuncDecl).Recv.List[0].Type }

func hasPointer(one *declared) bool {
	_, is := receiver(one).(*ast.StarExpr)
	return is
}

func (m *mutator) receiverToPointer() bool {
	one := m.pick(func(one *declared) bool { return isMethod(one) && !hasPointer(one) })
	if one == nil {
		return false
	}
	m.put(receiver(one).Pos(), receiver(one).Pos(), "*")
	return true
}

func (m *mutator) receiverToValue() bool {
	one := m.pick(func(one *declared) bool { return isMethod(one) && hasPointer(one) })
	if one == nil {
		return false
	}
	m.put(receiver(one).Pos(), receiver(one).Pos()+1, "")
	return true
}

// moveMethods moves methods of a struct to a new type that it embeds.
func (m *mutator) moveMethods() bool {
	one := m.pick(func(one *declared) bool { return hasForm[*ast.StructType](one) && len(m.methods(one)) > 0 })
	if one == nil {
		return false
	}
	name := m.fresh(m.one("Base", "base"))
	for _, method := range m.methods(one) {
		if m.chance(70) {
			m.replace(receiver(method), strings.TrimSuffix(m.text(receiver(method)), one.name.Name)+name)
		}
	}
	m.intoStruct(form(one).(*ast.StructType), m.one("", "", "*")+name)
	m.add(one.source, "type "+name+" struct{}")
	return true
}

func (m *mutator) addInterface() bool {
	one := m.file()
	name := m.fresh("Role")
	text := "type " + name + " interface {\n"
	impl, star := "Player"+name, m.one("", "*")
	methods := ""
	for n := 1 + m.Intn(2); n > 0; n-- {
		method := m.fresh("Method") + m.signature(one, 1)
		text += "\t" + method + "\n"
		methods += "\nfunc (" + star + impl + ") " + method + "\n"
	}
	m.add(one, text+"}\n\ntype "+impl+" struct{ A int }\n"+methods)
	return true
}

// anInterface is a type that is defined as an interface for which a test holds.
func (m *mutator) anInterface(holds func(*ast.InterfaceType, *types.Interface) bool) *declared {
	return m.pick(func(one *declared) bool {
		return hasForm[*ast.InterfaceType](one) && holds(form(one).(*ast.InterfaceType), one.object.Type().Underlying().(*types.Interface))
	})
}

func hasMethods(form *ast.InterfaceType, _ *types.Interface) bool { return len(written(form)) > 0 }

// written are the methods that stand in an interface itself.
func written(form *ast.InterfaceType) (found []*ast.Field) {
	for _, field := range form.Methods.List {
		if len(field.Names) == 1 {
			found = append(found, field)
		}
	}
	return found
}

func isSealed(t *types.Interface) bool {
	for i := 0; i < t.NumMethods(); i++ {
		if !t.Method(i).Exported() {
			return true
		}
	}
	return false
}

func (m *mutator) intoInterface(one *declared, line string) {
	at := form(one).(*ast.InterfaceType).Methods.Closing
	m.put(at, at, "\n"+line+"\n")
}

func (m *mutator) addInterfaceMethod(name string) bool {
	one := m.anInterface(func(*ast.InterfaceType, *types.Interface) bool { return true })
	if one == nil {
		return false
	}
	m.intoInterface(one, name+m.signature(one.source, 1))
	return true
}

func (m *mutator) aMethod(holds func(*ast.Field) bool) *ast.Field {
	one := m.anInterface(hasMethods)
	if one == nil {
		return nil
	}
	method, _ := some(m, written(form(one).(*ast.InterfaceType)))
	if holds != nil && !holds(method) {
		return nil
	}
	return method
}

func (m *mutator) dropInterfaceMethod() bool {
	method := m.aMethod(nil)
	if method == nil {
		return false
	}
	m.replace(method, "")
	return true
}

func (m *mutator) renameInterfaceMethod(as func(string) string) bool {
	method := m.aMethod(isExportedField)
	if method == nil || token.IsKeyword(as(method.Names[0].Name)) {
		return false
	}
	m.replace(method.Names[0], as(method.Names[0].Name))
	return true
}

func (m *mutator) reorderMethods() bool {
	var found []*ast.FieldList
	for _, one := range exprs[*ast.InterfaceType](m, nil) {
		if len(one.Methods.List) > 1 {
			found = append(found, one.Methods)
		}
	}
	return m.swap(found)
}

// implementing are the types of the package of an interface that implement it, by value or by pointer.
func (m *mutator) implementing(one *declared) (found []*declared) {
	role := one.object.Type().Underlying().(*types.Interface)
	for _, other := range m.all {
		if m.canHaveMethods(other) && other.source.pack == one.source.pack && types.Implements(types.NewPointer(other.object.Type()), role) {
			found = append(found, other)
		}
	}
	return found
}

// toImplement declares a method for a type so that it, or its pointer, implements an interface as before.
func (m *mutator) toImplement(one, other *declared, method string) {
	star := "*"
	if types.Implements(other.object.Type(), one.object.Type().Underlying().(*types.Interface)) {
		star = m.one("", "", "*")
	}
	m.add(other.source, "func ("+star+other.name.Name+") "+method)
}

func (m *mutator) seal() bool {
	one := m.anInterface(func(form *ast.InterfaceType, t *types.Interface) bool { return !isSealed(t) && t.NumMethods() > 0 })
	if one == nil {
		return false
	}
	method := m.fresh("sealed") + "()"
	m.intoInterface(one, method)
	for _, other := range m.implementing(one) {
		if m.chance(80) {
			m.toImplement(one, other, method)
		}
	}
	return true
}

func (m *mutator) unseal() bool {
	one := m.anInterface(func(form *ast.InterfaceType, t *types.Interface) bool { return isSealed(t) })
	if one == nil {
		return false
	}
	for _, method := range written(form(one).(*ast.InterfaceType)) {
		if !method.Names[0].IsExported() {
			m.replace(method, "")
		}
	}
	return true
}

func (m *mutator) growSealed(all bool) bool {
	one := m.anInterface(func(form *ast.InterfaceType, t *types.Interface) bool { return isSealed(t) })
	if one == nil {
		return false
	}
	method := m.fresh(m.one("Grown", "Grown", "grown")) + "() int"
	m.intoInterface(one, method)
	for _, other := range m.implementing(one) {
		if all || m.chance(40) {
			m.toImplement(one, other, method)
		}
	}
	return true
}

// sealing are the methods by which the types of a package implement its sealed interfaces.
func (m *mutator) sealing() (found []*declared) {
	for _, one := range m.all {
		if !hasForm[*ast.InterfaceType](one) || !isSealed(one.object.Type().Underlying().(*types.Interface)) {
			continue
		}
		for _, other := range m.implementing(one) {
			for _, method := range m.methods(other) {
				if !method.name.IsExported() {
					found = append(found, method)
				}
			}
		}
	}
	return found
}

func (m *mutator) leaveSealed() bool {
	method, is := some(m, m.sealing())
	if !is {
		return false
	}
	m.replace(method.decl, "")
	return true
}

func (m *mutator) sealByPointer() bool {
	method, is := some(m, m.sealing())
	if !is {
		return false
	}
	if hasPointer(method) {
		m.put(receiver(method).Pos(), receiver(method).Pos()+1, "")
	} else {
		m.put(receiver(method).Pos(), receiver(method).Pos(), "*")
	}
	return true
}

func (m *mutator) embedInterface() bool {
	one := m.anInterface(func(*ast.InterfaceType, *types.Interface) bool { return true })
	if one == nil {
		return false
	}
	name := ""
	if m.chance(50) {
		name = m.imported(one.source, "io") + "." + m.one("Closer", "Reader", "Writer")
	} else if other := m.pick(func(other *declared) bool {
		return isType(other) && other != one && other.source.pack == one.source.pack && types.IsInterface(other.object.Type())
	}); other != nil {
		name = other.name.Name
	}
	if name == "" {
		return false
	}
	m.intoInterface(one, name)
	return true
}

func (m *mutator) dropEmbeddedInterface() bool {
	var found []*ast.Field
	for _, one := range exprs[*ast.InterfaceType](m, nil) {
		for _, field := range one.Methods.List {
			if len(field.Names) == 0 {
				found = append(found, field)
			}
		}
	}
	field, is := some(m, found)
	if !is {
		return false
	}
	m.replace(field, "")
	return true
}

func (m *mutator) moveInterfaceMethods() bool {
	one := m.anInterface(hasMethods)
	if one == nil {
		return false
	}
	methods := written(form(one).(*ast.InterfaceType))
	name := m.fresh(m.one("Part", "part"))
	text := "type " + name + " interface {\n"
	for _, method := range methods[:1+m.Intn(len(methods))] {
		text += "\t" + m.text(method) + "\n"
		m.replace(method, "")
	}
	m.intoInterface(one, name)
	m.add(one.source, text+"}")
	return true
}
