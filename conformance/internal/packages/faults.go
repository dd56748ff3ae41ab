// Spoils trees: one part of a file is changed, most often so that Go's type checker refuses the package.
package main

import (
	"fmt"
	"go/ast"
	"go/token"
	"math/rand"
	"strings"

	"apigate/conformance/internal/answers"
	"apigate/conformance/internal/generator"
	"apigate/conformance/internal/units"
)

// An edit puts a text in the place of a part of a file.
type edit struct {
	from, to int
	text     string
}

// A spoiler changes one file of a tree.
type spoiler struct {
	*rand.Rand
	of     answers.Tree
	at     int // the file
	file   *ast.File
	number int // of the file in its package
	set    *token.FileSet
	names  []string // that the package declares
	l      *answers.Listing
}

func (s *spoiler) one(words ...string) string { return words[s.Intn(len(words))] }

func (s *spoiler) offset(at token.Pos) int { return s.set.Position(at).Offset }

func (s *spoiler) text(node ast.Node) string {
	return s.of.Pieces[s.at].Text[s.offset(node.Pos()):s.offset(node.End())]
}

func (s *spoiler) with(node ast.Node, text string) *edit {
	return &edit{s.offset(node.Pos()), s.offset(node.End()), text}
}

// nodes are those of the file outside of bodies for which a test holds.
func (s *spoiler) nodes(holds func(ast.Node) bool) (found []ast.Node) {
	for _, decl := range s.file.Decls {
		if group, is := decl.(*ast.GenDecl); is && group.Tok == token.IMPORT {
			continue
		}
		ast.Inspect(decl, func(node ast.Node) bool {
			if _, is := node.(*ast.BlockStmt); is || node == nil {
				return false
			}
			if holds(node) {
				found = append(found, node)
			}
			return true
		})
	}
	return found
}

// some is one of the nodes for which a test holds, or nothing.
func (s *spoiler) some(holds func(ast.Node) bool) ast.Node {
	found := s.nodes(holds)
	if len(found) == 0 {
		return nil
	}
	return found[s.Intn(len(found))]
}

// declared is the number of a declaration of the file, or -1.
func (s *spoiler) declared() int {
	var found []int
	for at, d := range s.l.All {
		if d.File == s.number {
			found = append(found, at)
		}
	}
	if len(found) == 0 {
		return -1
	}
	return found[s.Intn(len(found))]
}

// name is one that stands for something, or not.
func (s *spoiler) name() string {
	if s.Intn(4) == 0 || len(s.names) == 0 {
		return s.one("int", "string", "error", "nil", "true", "iota", "len", "uint8", "any", "gone", "_", "float64", "bool", "new")
	}
	return s.names[s.Intn(len(s.names))]
}

// typeText is some type.
func (s *spoiler) typeText() string {
	text := s.one("%s", "%s", "*%s", "**%s", "[]%s", "[2]%s", "[%s]int", "[len(%s)]int", "map[%s]int", "map[[]%s]bool", "chan %s", "func(%s) int", "struct { %s }",
		"struct { *%s; X int }", "interface { %s }", "interface { Get() %s }", "func(...%s)", "[-1]%s", "[1 << 40]%s", "struct { a, a %s }", "(%s)")
	return strings.Replace(text, "%s", s.name(), 1)
}

// types_ are the nodes of a file that stand where a type is wanted.
func types_(file *ast.File) map[ast.Node]bool {
	found := map[ast.Node]bool{}
	ast.Inspect(file, func(node ast.Node) bool {
		switch node := node.(type) {
		case *ast.BlockStmt:
			return false
		case *ast.Field:
			if len(node.Names) > 0 {
				found[node.Type] = true
			}
		case *ast.ArrayType:
			found[node.Elt] = true
		case *ast.MapType:
			found[node.Key], found[node.Value] = true, true
		case *ast.ChanType:
			found[node.Value] = true
		case *ast.TypeSpec:
			found[node.Type] = true
		case *ast.ValueSpec:
			if node.Type != nil {
				found[node.Type] = true
			}
		}
		return true
	})
	return found
}

func (s *spoiler) anotherName() *edit {
	node := s.some(func(node ast.Node) bool { _, is := node.(*ast.Ident); return is })
	if node == nil {
		return nil
	}
	return s.with(node, s.name())
}

func (s *spoiler) anotherType() *edit {
	all := types_(s.file)
	node := s.some(func(node ast.Node) bool { return all[node] })
	if node == nil {
		return nil
	}
	return s.with(node, s.typeText())
}

// removed takes out a declaration.
func (s *spoiler) removed() *edit {
	at := s.declared()
	if at < 0 {
		return nil
	}
	return s.with(s.l.All[at].Node, "")
}

// closed lets a declaration refer to one that depends on it, by value or in a length.
func (s *spoiler) closed() *edit {
	at := s.declared()
	if at < 0 {
		return nil
	}
	d := s.l.All[at]
	var back []string
	for i, other := range s.l.All {
		if (i == at || s.l.LeadsTo(i, at)) && other.Method == nil && other.Names[0].Name != "_" {
			back = append(back, other.Names[0].Name)
		}
	}
	if len(back) == 0 || len(d.Trees) == 0 {
		return nil
	}
	name := back[s.Intn(len(back))]
	switch d.Kind {
	case token.TYPE:
		text := s.one("%s", "[2]%s", "struct { next %s }", "*%s", "[]%s", "[len(%s)]int", "interface { %s }", "interface { Get() interface { %s } }", "struct { *%s }", "func(%s)",
			"struct { a [len(%s)]int }", "map[%s]int", "[%s]int", "chan [2]%s", "struct { f func() [len(%s)]int }")
		return s.with(d.Trees[0], strings.Replace(text, "%s", name, 1))
	case token.CONST, token.VAR:
		tree := d.Trees[len(d.Trees)-1]
		if tree.Pos() < d.Node.Pos() {
			return nil
		}
		if d.Kind == token.VAR && s.Intn(3) == 0 {
			return s.with(tree, s.one("len(", "cap(", "&", "(", "*", "[]interface{}{")+name+s.one(")", "", "}"))
		}
		return s.with(tree, name)
	case token.FUNC:
		node := d.Trees[len(d.Trees)-1].(*ast.FuncType)
		return s.with(node.Params, strings.Replace(s.one("(%s)", "([len(%s)]int)", "(a *%s)", "(struct { %s })", "([len([1]interface{}{%s})]int)"), "%s", name, 1))
	}
	return nil
}

// renamed gives a declared name, a method's or a field's another name.
func (s *spoiler) renamed() *edit {
	var found []ast.Node
	for _, d := range s.l.All {
		for _, name := range d.Names {
			if d.File == s.number {
				found = append(found, name)
			}
		}
	}
	fields := s.nodes(func(node ast.Node) bool { field, is := node.(*ast.Field); return is && len(field.Names) > 0 })
	for _, node := range fields {
		if s.Intn(2) == 0 {
			found = append(found, node.(*ast.Field).Names[0])
		}
	}
	if len(found) == 0 {
		return nil
	}
	node := found[s.Intn(len(found))]
	name := s.name()
	switch s.Intn(4) {
	case 0:
		name = s.one("X", "Name", "Get", "Set", "Len", "at", "next", "Error", "String")
	case 1:
		name = s.one("init", "main", "_", "int", "error", "len", "gone")
	}
	return s.with(node, name)
}

// doubled writes a declaration twice.
func (s *spoiler) doubled() *edit {
	var found []ast.Decl
	for _, decl := range s.file.Decls {
		if group, is := decl.(*ast.GenDecl); !is || group.Tok != token.IMPORT {
			found = append(found, decl)
		}
	}
	if len(found) == 0 {
		return nil
	}
	decl := found[s.Intn(len(found))]
	text := s.text(decl)
	if method, is := decl.(*ast.FuncDecl); is && method.Recv != nil && s.Intn(2) == 0 {
		at := s.offset(method.Recv.Pos()) - s.offset(decl.Pos())
		end := s.offset(method.Recv.End()) - s.offset(decl.Pos())
		text = text[:at] + "(" + s.one("", "*") + s.name() + ")" + text[end:]
	}
	where := found[s.Intn(len(found))]
	return &edit{s.offset(where.Pos()), s.offset(where.Pos()), text + "\n\n"}
}

// small gives a constant a type in which it may not fit, or another value.
func (s *spoiler) small() *edit {
	node := s.some(func(node ast.Node) bool {
		spec, is := node.(*ast.ValueSpec)
		return is && len(spec.Values) > 0
	})
	if node == nil {
		return nil
	}
	spec := node.(*ast.ValueSpec)
	if s.Intn(2) == 0 {
		value := spec.Values[s.Intn(len(spec.Values))]
		return s.with(value, s.one("256", "-1", "1 << 31", "1 << 62 << 1", "-129", `"text"`, "'a'", "true", "1 / 0", "1 << 126", "nil", "len(\"abcd\")", "iota", "^uint8(0)", "1 - 1", "7 % 0")+s.one("", "", " + "+s.name()))
	}
	text := s.one("int8", "uint8", "bool", "string", "uint", "int32", "error", s.name())
	if spec.Type != nil {
		return s.with(spec.Type, text)
	}
	end := s.offset(spec.Names[len(spec.Names)-1].End())
	return &edit{end, end, " " + text}
}

// unimported takes an import out, or changes it.
func (s *spoiler) unimported() *edit {
	if len(s.file.Imports) == 0 {
		return nil
	}
	spec := s.file.Imports[s.Intn(len(s.file.Imports))]
	switch s.Intn(6) {
	case 0:
		return s.with(spec.Path, `"gone/`+s.one("alpha", "beta", "x")+`"`)
	case 1:
		return &edit{s.offset(spec.Pos()), s.offset(spec.Path.Pos()), s.one("_ ", "other ", "init ", s.name()+" ")}
	case 2:
		return s.with(spec, s.text(spec)+s.one("; ", "; x ", "; "+s.name()+" ")+spec.Path.Value)
	case 3:
		return s.with(spec.Path, `"`+s.one("m", "example.com/m", "gone")+`/alpha"`)
	}
	for _, decl := range s.file.Decls {
		if group, is := decl.(*ast.GenDecl); is && group.Tok == token.IMPORT && group.Pos() <= spec.Pos() && spec.End() <= group.End() {
			if len(group.Specs) == 1 {
				return s.with(group, "")
			}
			return s.with(spec, "")
		}
	}
	return nil
}

// called changes the arguments of a call, or the elements of a literal.
func (s *spoiler) called() *edit {
	node := s.some(func(node ast.Node) bool {
		switch node := node.(type) {
		case *ast.CallExpr:
			return true
		case *ast.CompositeLit:
			return node.Type != nil
		}
		return false
	})
	if node == nil {
		return nil
	}
	var list []ast.Expr
	var from, to token.Pos
	switch node := node.(type) {
	case *ast.CallExpr:
		list, from, to = node.Args, node.Lparen+1, node.Rparen
	case *ast.CompositeLit:
		list, from, to = node.Elts, node.Lbrace+1, node.Rbrace
	}
	var words []string
	for _, one := range list {
		words = append(words, s.text(one))
	}
	switch value := s.one(s.name(), "1", `"s"`, "nil", "-1", "1 << 40", "X: 1", "2: 1", "Name: nil"); {
	case len(words) == 0 || s.Intn(3) == 0:
		words = append(words, value)
	case s.Intn(2) == 0:
		words[s.Intn(len(words))] = value
	default:
		at := s.Intn(len(words))
		words = append(words[:at], words[at+1:]...)
	}
	text := strings.Join(words, ", ")
	if _, is := node.(*ast.CallExpr); is && len(words) > 0 && s.Intn(6) == 0 {
		text += "..."
	}
	return &edit{s.offset(from), s.offset(to), text}
}

// operated changes a literal or an operator, or puts an operator in front.
func (s *spoiler) operated() *edit {
	node := s.some(func(node ast.Node) bool {
		switch node.(type) {
		case *ast.BasicLit, *ast.BinaryExpr, *ast.UnaryExpr, *ast.SelectorExpr:
			return true
		}
		return false
	})
	switch node := node.(type) {
	case *ast.BasicLit:
		return s.with(node, s.one("0", "1", "-1", "256", `"s"`, "'a'", "1 << 33", "true", "nil", s.name()))
	case *ast.BinaryExpr:
		at := s.offset(node.OpPos)
		return &edit{at, at + len(node.Op.String()), generator.Operators[s.Intn(len(generator.Operators))]}
	case *ast.UnaryExpr:
		at := s.offset(node.OpPos)
		return &edit{at, at + len(node.Op.String()), s.one("-", "!", "^", "*", "&", "<-", "+")}
	case *ast.SelectorExpr:
		return s.with(node.Sel, s.one("X", "Name", "Get", "Set", "Len", "at", "next", "Next", "gone", "N", strings.ToLower(node.Sel.Name), s.name()))
	}
	return nil
}

// received changes a receiver.
func (s *spoiler) received() *edit {
	node := s.some(func(node ast.Node) bool { one, is := node.(*ast.FuncDecl); return is && one.Recv != nil })
	if node == nil {
		return nil
	}
	text := strings.Replace(s.one("(%s)", "(*%s)", "(**%s)", "(t (%s))", "(*(%s))", "([]%s)", "(a, b %s)", "()", "(t ...%s)", "(t struct { %s })"), "%s", s.name(), 1)
	return s.with(node.(*ast.FuncDecl).Recv, text)
}

// counted takes a field, a parameter, a name or a value away, or writes it twice.
func (s *spoiler) counted() *edit {
	node := s.some(func(node ast.Node) bool {
		switch node := node.(type) {
		case *ast.FieldList:
			return len(node.List) > 0
		case *ast.ValueSpec:
			return true
		}
		return false
	})
	switch node := node.(type) {
	case *ast.FieldList:
		at := s.Intn(len(node.List))
		one := s.text(node.List[at])
		other := s.text(node.List[s.Intn(len(node.List))])
		list := node.List[at]
		between := ", "
		if text := s.text(node); strings.HasPrefix(text, "{") {
			between = "; "
		}
		if s.Intn(2) == 0 {
			return s.with(list, one+between+other)
		}
		if at+1 < len(node.List) {
			return &edit{s.offset(list.Pos()), s.offset(node.List[at+1].Pos()), ""}
		}
		if at > 0 {
			return &edit{s.offset(node.List[at-1].End()), s.offset(list.End()), ""}
		}
		return s.with(list, "")
	case *ast.ValueSpec:
		at := s.offset(node.Names[0].Pos())
		switch {
		case s.Intn(3) == 0:
			return &edit{at, at, s.one("extra", "_", "More") + ", "}
		case len(node.Values) > 0 && s.Intn(2) == 0:
			return s.with(node.Values[0], s.text(node.Values[0])+", "+s.one("1", `"s"`, s.name()))
		case len(node.Names) > 1:
			return &edit{at, s.offset(node.Names[1].Pos()), ""}
		}
	}
	return nil
}

// swapped puts a declaration in the place of another and that in its place; all stays right.
func (s *spoiler) swapped() *edit {
	var found []ast.Decl
	for _, decl := range s.file.Decls {
		if group, is := decl.(*ast.GenDecl); !is || group.Tok != token.IMPORT {
			found = append(found, decl)
		}
	}
	if len(found) < 2 {
		return nil
	}
	first := s.Intn(len(found) - 1)
	second := first + 1 + s.Intn(len(found)-first-1)
	from, to := found[first], found[second]
	between := s.of.Pieces[s.at].Text[s.offset(from.End()):s.offset(to.Pos())]
	return &edit{s.offset(from.Pos()), s.offset(to.End()), s.text(to) + between + s.text(from)}
}

// embedded puts an embedded field or interface into a type.
func (s *spoiler) embedded() *edit {
	node := s.some(func(node ast.Node) bool {
		switch node.(type) {
		case *ast.StructType, *ast.InterfaceType:
			return true
		}
		return false
	})
	if node == nil {
		return nil
	}
	word := s.name()
	var list *ast.FieldList
	switch node := node.(type) {
	case *ast.StructType:
		list = node.Fields
		word = s.one(word, "*"+word, word, "X int", "at "+word)
	case *ast.InterfaceType:
		list = node.Methods
		word = s.one(word, "error", "Get() "+word, "at()")
	}
	at := s.offset(list.Opening) + 1
	if len(list.List) > 0 {
		word += "; "
	}
	return &edit{at, at, " " + word}
}

type way struct {
	name string
	make func(*spoiler) *edit
}

var ways = []way{
	{"another name", (*spoiler).anotherName}, {"another type", (*spoiler).anotherType}, {"a declaration removed", (*spoiler).removed},
	{"a circle closed", (*spoiler).closed}, {"renamed", (*spoiler).renamed}, {"doubled", (*spoiler).doubled},
	{"a constant that may not fit", (*spoiler).small}, {"an import changed", (*spoiler).unimported}, {"another argument", (*spoiler).called},
	{"another operator or literal", (*spoiler).operated}, {"another receiver", (*spoiler).received}, {"another count", (*spoiler).counted},
	{"declarations swapped", (*spoiler).swapped}, {"embedded", (*spoiler).embedded},
}

// spoilerOf is one for a file of the tree.
func spoilerOf(draw *rand.Rand, of answers.Tree) *spoiler {
	s := &spoiler{Rand: draw, of: of, at: draw.Intn(len(of.Pieces)), set: token.NewFileSet()}
	var files []*ast.File
	for i, one := range of.Pieces {
		if one.Path != of.Pieces[s.at].Path {
			continue
		}
		file, err := answers.ParsedIn(s.set, one.Text)
		answers.Fail(err)
		if i == s.at {
			s.file, s.number = file, len(files)
		}
		files = append(files, file)
	}
	s.l = answers.ListingOf(files)
	for _, d := range s.l.All {
		for _, name := range d.Names {
			if d.Method == nil {
				s.names = append(s.names, name.Name)
			}
		}
	}
	for _, spec := range s.file.Imports {
		for _, one := range of.Pieces {
			if one.Path == units.Unquoted(spec) {
				file, _, err := answers.Parsed(one.Text)
				answers.Fail(err)
				for _, d := range answers.DeclarationsOf([]*ast.File{file}) {
					if d.Method == nil && ast.IsExported(d.Names[0].Name) && draw.Intn(3) == 0 {
						s.names = append(s.names, file.Name.Name+"."+d.Names[0].Name)
					}
				}
			}
		}
	}
	return s
}

// spoiled is a copy of a tree with one change, seldom with two, and how it was changed.
func spoiled(draw *rand.Rand, of answers.Tree) (answers.Tree, string) {
	how := ""
	for tries := 0; tries < 30; tries++ {
		s := spoilerOf(draw, of)
		if len(s.l.All) == 0 {
			continue
		}
		one := ways[draw.Intn(len(ways))]
		change := one.make(s)
		if change == nil {
			continue
		}
		text := of.Pieces[s.at].Text
		text = text[:change.from] + change.text + text[change.to:]
		if _, _, err := answers.Parsed(text); err != nil {
			continue
		}
		pieces := append([]answers.Piece{}, of.Pieces...)
		pieces[s.at].Text = text
		of = answers.Tree{Module: of.Module, Pieces: pieces}
		how += fmt.Sprintf("%s in %s of %s; ", one.name, of.Pieces[s.at].Name, of.Pieces[s.at].Path)
		if draw.Intn(8) > 0 {
			break
		}
	}
	if how == "" {
		how = "as it is; "
	}
	return of, strings.TrimSuffix(how, "; ")
}
