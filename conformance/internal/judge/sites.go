//go:build apidiff

// What the kinds of change share: the places of a typed tree where one can be made, names, texts of types, and how it is made there.
package main

import (
	"fmt"
	"go/ast"
	"go/token"
	"go/types"
	"math/rand"
	"path"
	"sort"
	"strconv"
	"strings"
)

// A declared is a name that a package declares, with its declaration.
type declared struct {
	source *source
	decl   ast.Decl
	spec   ast.Spec // nil of a function
	name   *ast.Ident
	object types.Object
}

// A mutator makes one change of a tree.
type mutator struct {
	*rand.Rand
	*view
	all   []*declared
	uses  map[types.Object][]*ast.Ident
	edits map[string][]edit
	news  *tree // what the tree becomes: files that are added, moved or dropped; the edits are made in it
	count *int
}

func newMutator(draw *rand.Rand, v *view, count *int) *mutator {
	m := &mutator{Rand: draw, view: v, uses: map[types.Object][]*ast.Ident{}, edits: map[string][]edit{}, news: v.tree.copied(), count: count}
	for name, object := range v.info.Uses {
		m.uses[object] = append(m.uses[object], name)
	}
	for _, idents := range m.uses {
		sort.Slice(idents, func(i, j int) bool { return idents[i].Pos() < idents[j].Pos() })
	}
	for _, p := range v.packs {
		for _, one := range p.files {
			for _, decl := range one.file.Decls {
				m.note(one, decl)
			}
		}
	}
	return m
}

func (m *mutator) note(one *source, decl ast.Decl) {
	add := func(spec ast.Spec, name *ast.Ident) {
		if object := m.info.Defs[name]; object != nil && name.Name != "_" {
			m.all = append(m.all, &declared{one, decl, spec, name, object})
		}
	}
	switch decl := decl.(type) {
	case *ast.FuncDecl:
		add(nil, decl.Name)
	case *ast.GenDecl:
		for _, spec := range decl.Specs {
			switch spec := spec.(type) {
			case *ast.ValueSpec:
				for _, name := range spec.Names {
					add(spec, name)
				}
			case *ast.TypeSpec:
				add(spec, spec.Name)
			}
		}
	}
}

func (m *mutator) one(words ...string) string { return words[m.Intn(len(words))] }

func (m *mutator) chance(percent int) bool { return m.Intn(100) < percent }

// fresh is a new name with this start.
func (m *mutator) fresh(start string) string {
	*m.count++
	return fmt.Sprintf("%s%d", start, *m.count)
}

// replace puts a text in place of a node.
func (m *mutator) replace(node ast.Node, text string) { m.put(node.Pos(), node.End(), text) }

func (m *mutator) put(from, to token.Pos, text string) {
	place := m.set.File(from).Name()
	m.edits[place] = append(m.edits[place], edit{m.offset(from), m.offset(to), text})
}

// add appends declarations to a file.
func (m *mutator) add(one *source, text string) {
	end := len(one.text)
	m.edits[one.place] = append(m.edits[one.place], edit{end, end, "\n" + text + "\n"})
}

// done applies the edits, and gives the new tree where all of it can be parsed.
func (m *mutator) done() (*tree, bool) {
	for place, edits := range m.edits {
		text, fits := edited(m.news.files[place], edits)
		if _, is := m.news.files[place]; !is || !fits {
			return nil, false
		}
		m.news.files[place] = text
	}
	for place, text := range m.news.files {
		if text == m.tree.files[place] {
			continue
		}
		text, err := printed(text, m.named)
		if err != nil {
			return nil, false
		}
		m.news.files[place] = text
	}
	return m.news, true
}

// pick is one of the declared names for which a test holds; exported ones of public packages are nearer at hand.
func (m *mutator) pick(holds func(*declared) bool) *declared {
	var shown, hidden []*declared
	for _, one := range m.all {
		if !holds(one) {
			continue
		}
		if one.source.pack.isPublic() && m.isShown(one) {
			shown = append(shown, one)
		} else {
			hidden = append(hidden, one)
		}
	}
	if len(shown) == 0 || len(hidden) > 0 && m.chance(12) {
		shown = hidden
	}
	if len(shown) == 0 {
		return nil
	}
	return shown[m.Intn(len(shown))]
}

// isShown tells whether a name is exported; that of a method, whether its type is exported too.
func (m *mutator) isShown(one *declared) bool {
	if !one.name.IsExported() {
		return false
	}
	if decl, is := one.decl.(*ast.FuncDecl); is && decl.Recv != nil {
		base := m.base(decl)
		return base != nil && base.Obj().Exported()
	}
	return true
}

// base is the defined type that a method is declared for.
func (m *mutator) base(decl *ast.FuncDecl) *types.Named {
	t := m.info.Types[decl.Recv.List[0].Type].Type
	if pointer, is := t.(*types.Pointer); is {
		t = pointer.Elem()
	}
	named, _ := t.(*types.Named)
	return named
}

func isMethod(one *declared) bool {
	decl, is := one.decl.(*ast.FuncDecl)
	return is && decl.Recv != nil
}

func isFunction(one *declared) bool {
	decl, is := one.decl.(*ast.FuncDecl)
	return is && decl.Recv == nil
}

func isConstant(one *declared) bool {
	_, is := one.object.(*types.Const)
	return is && alone(one)
}

func isVariable(one *declared) bool {
	_, is := one.object.(*types.Var)
	return is && alone(one) && one.spec.(*ast.ValueSpec).Type != nil && len(one.spec.(*ast.ValueSpec).Values) == 0
}

// alone tells whether a spec of constants or variables has one name.
func alone(one *declared) bool { return len(one.spec.(*ast.ValueSpec).Names) == 1 }

func isType(one *declared) bool {
	_, is := one.spec.(*ast.TypeSpec)
	return is
}

func isAlias(one *declared) bool { return isType(one) && one.spec.(*ast.TypeSpec).Assign.IsValid() }

func isDefined(one *declared) bool { return isType(one) && !isAlias(one) }

// form is what is written behind the name of a type.
func form(one *declared) ast.Expr { return one.spec.(*ast.TypeSpec).Type }

func hasForm[Form ast.Expr](one *declared) bool {
	if !isDefined(one) {
		return false
	}
	_, is := form(one).(Form)
	return is
}

// methods are the methods that are declared for a type.
func (m *mutator) methods(one *declared) (found []*declared) {
	for _, other := range m.all {
		if isMethod(other) {
			if base := m.base(other.decl.(*ast.FuncDecl)); base != nil && base.Obj() == one.object {
				found = append(found, other)
			}
		}
	}
	return found
}

// of is what declares an object.
func (m *mutator) of(object types.Object) *declared {
	for _, one := range m.all {
		if one.object == object {
			return one
		}
	}
	return nil
}

// drop takes a declared name away.
func (m *mutator) drop(one *declared) {
	group, is := one.decl.(*ast.GenDecl)
	if !is || len(group.Specs) == 1 {
		m.replace(one.decl, "")
		return
	}
	m.replace(one.spec, "")
}

// rename gives a name another text wherever it stands.
func (m *mutator) rename(one *declared, name string) bool {
	if one.source.pack.types.Scope().Lookup(name) != nil {
		return false
	}
	m.replace(one.name, name)
	for _, use := range m.uses[one.object] {
		m.replace(use, name)
	}
	return true
}

func lower(name string) string { return strings.ToLower(name[:1]) + name[1:] }

func upper(name string) string { return strings.ToUpper(name[:1]) + name[1:] }

// imported is the name by which a file knows a package; it imports the package where it doesn't yet. Empty where that can't be.
func (m *mutator) imported(one *source, at string) string {
	for _, spec := range one.file.Imports {
		if said, _ := strconv.Unquote(spec.Path.Value); said == at && (spec.Name == nil || spec.Name.Name != "_") {
			return nameOf(spec, m.named)
		}
	}
	name := m.named(at)
	taken := one.pack.types.Scope().Lookup(name) != nil
	for _, spec := range one.file.Imports {
		taken = taken || nameOf(spec, m.named) == name
	}
	clause := strconv.Quote(at)
	if taken {
		name = m.fresh(name)
		clause = name + " " + clause
	}
	text := "\nimport " + clause + "\n"
	for _, before := range m.edits[one.place] {
		if before.text == text {
			return name
		}
	}
	m.put(one.file.Name.End(), one.file.Name.End(), text)
	return name
}

// outer is the name of an exported type of another package, as a file can write it, or nothing.
func (m *mutator) outer(one *source) string {
	at := m.one("io", "io", "time", "fmt", "sync", "context")
	if imports := one.pack.types.Imports(); len(imports) > 0 && m.chance(60) {
		at = imports[m.Intn(len(imports))].Path()
	}
	pack, err := m.from(one.pack.path).Import(at)
	if err != nil || at == one.pack.path {
		return ""
	}
	var found []string
	for _, name := range pack.Scope().Names() {
		if object, is := pack.Scope().Lookup(name).(*types.TypeName); is && object.Exported() {
			found = append(found, name)
		}
	}
	if len(found) == 0 {
		return ""
	}
	if name := m.imported(one, at); name != "" {
		return name + "." + found[m.Intn(len(found))]
	}
	return ""
}

// own is the name of a type of the package, or nothing.
func (m *mutator) own(p *pack) string {
	var found []string
	for _, name := range p.types.Scope().Names() {
		if object, is := p.types.Scope().Lookup(name).(*types.TypeName); is && (object.Exported() || m.chance(20)) {
			found = append(found, name)
		}
	}
	if len(found) == 0 {
		return ""
	}
	return found[m.Intn(len(found))]
}

var basics = []string{"int", "string", "bool", "byte", "uint16", "int64", "float64", "error", "rune", "uintptr", "complex128", "int8", "uint32"}

// basic is a name of the universe that the package doesn't declare itself.
func (m *mutator) basic(p *pack) string {
	for {
		if name := basics[m.Intn(len(basics))]; p.types.Scope().Lookup(name) == nil {
			return name
		}
	}
}

// simple is the name of a type.
func (m *mutator) simple(one *source) string {
	name := ""
	switch m.Intn(6) {
	case 0, 1:
		name = m.outer(one)
	case 2, 3:
		name = m.own(one.pack)
	}
	if name == "" {
		name = m.basic(one.pack)
	}
	return name
}

// typeText is a type.
func (m *mutator) typeText(one *source, depth int) string {
	if depth == 0 {
		return m.simple(one)
	}
	inner := func() string { return m.typeText(one, depth-1) }
	switch m.Intn(16) {
	case 0:
		return "*" + inner()
	case 1:
		return "[]" + inner()
	case 2:
		return "map[" + m.basic(one.pack) + "]" + inner()
	case 3:
		return m.one("[2]", "[3]", "[4]") + inner()
	case 4:
		return m.one("chan ", "<-chan ", "chan<- ") + "(" + inner() + ")"
	case 5:
		return "func" + m.signature(one, depth-1)
	case 6:
		return m.one("interface{}", "struct{}", "interface{ "+m.one("Close", "Name", "Get")+"() "+inner()+" }", "struct{ A "+inner()+"; B int }")
	}
	return m.simple(one)
}

// signature is what stands behind the name of a function.
func (m *mutator) signature(one *source, depth int) string {
	var words []string
	for n := m.Intn(3); n > 0; n-- {
		words = append(words, m.typeText(one, depth))
	}
	if len(words) > 0 && m.chance(15) {
		words[len(words)-1] = "..." + words[len(words)-1]
	}
	text := "(" + strings.Join(words, ", ") + ")"
	switch m.Intn(3) {
	case 0:
		return text + " " + m.typeText(one, depth)
	case 1:
		return text + " (" + m.typeText(one, depth) + ", error)"
	}
	return text
}

// other is a type with another text than this.
func (m *mutator) other(one *source, text string) string {
	for {
		if found := m.typeText(one, 1); found != text {
			return found
		}
	}
}

// file is one of the files of the tree, mostly of a public package.
func (m *mutator) file() *source {
	var shown, all []*source
	for _, p := range m.packs {
		all = append(all, p.files...)
		if p.isPublic() {
			shown = append(shown, p.files...)
		}
	}
	if len(shown) > 0 && m.chance(95) {
		all = shown
	}
	return all[m.Intn(len(all))]
}

// exprs are the nodes of a form that stand in the declarations of exported names, each with its file.
func exprs[Form ast.Node](m *mutator, holds func(Form) bool) (found []Form) {
	for _, one := range m.all {
		if !m.isShown(one) && !m.chance(10) {
			continue
		}
		var top ast.Node = one.decl
		if one.spec != nil {
			top = one.spec
		}
		ast.Inspect(top, func(node ast.Node) bool {
			if node, is := node.(Form); is && (holds == nil || holds(node)) {
				found = append(found, node)
			}
			return true
		})
	}
	return found
}

// some is one of these, or the zero value where there is none.
func some[Item any](m *mutator, items []Item) (found Item, is bool) {
	if len(items) == 0 {
		return found, false
	}
	return items[m.Intn(len(items))], true
}

// newFolder is a folder of the module that has no files yet.
func (m *mutator) newFolder(above string) string {
	for {
		folder := path.Join(above, m.fresh("pack"))
		if m.byPath[path.Join(m.tree.module, folder)] == nil {
			return folder
		}
	}
}

// importsOf are the clauses that a part of a file needs in another file, in order.
func (m *mutator) importsOf(nodes ...ast.Node) string {
	clauses := map[string]bool{}
	for _, node := range nodes {
		ast.Inspect(node, func(node ast.Node) bool {
			if name, is := node.(*ast.Ident); is {
				if used, is := m.info.Uses[name].(*types.PkgName); is {
					clauses["import "+name.Name+" "+strconv.Quote(used.Imported().Path())] = true
				}
			}
			return true
		})
	}
	var lines []string
	for line := range clauses {
		lines = append(lines, line)
	}
	sort.Strings(lines)
	return strings.Join(lines, "\n") + "\n"
}

// ownNames are the names of the package itself that a part of it refers to.
func (m *mutator) ownNames(p *pack, nodes ...ast.Node) map[types.Object]bool {
	found := map[types.Object]bool{}
	for _, node := range nodes {
		ast.Inspect(node, func(node ast.Node) bool {
			if name, is := node.(*ast.Ident); is {
				if used := m.info.Uses[name]; used != nil && used.Pkg() == p.types && used.Parent() == p.types.Scope() {
					found[used] = true
				}
			}
			return true
		})
	}
	return found
}
