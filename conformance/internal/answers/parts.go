// A module in two parts: the declarations that are kept, and those that are left out, as files that stand beside these.
package answers

import (
	"bytes"
	"fmt"
	"go/ast"
	"go/parser"
	"go/token"
	"path"
	"strings"

	"apigate/conformance/internal/imports"
	"apigate/conformance/internal/units"
)

// LeftFile begins the names of files with declarations that are left out.
const LeftFile = "zz_left_"

// chosen are the paths of the packages of which something is left out, and of those that they import.
func (p settled) chosen() map[string]bool {
	found := map[string]bool{}
	for i := len(p.order) - 1; i >= 0; i-- {
		f := p.order[i]
		if f.Std || !found[f.Path] && len(p.left[f.Path]) == 0 {
			continue
		}
		found[f.Path] = true
		for _, file := range f.Files {
			for _, use := range file.Uses {
				if p.Found(f, use.Path) {
					found[use.Path] = true
				}
			}
		}
	}
	return found
}

// usedIn are the imports of a file from which a tree selects outside of bodies.
func usedIn(file units.ReadFile, trees ...ast.Node) map[int]bool {
	names := map[string]bool{}
	inspect(trees, func(node ast.Node) {
		if selector, is := node.(*ast.SelectorExpr); is {
			if name, is := selector.X.(*ast.Ident); is {
				names[name.Name] = true
			}
		}
	})
	found := map[int]bool{}
	for _, use := range file.Uses {
		if names[use.Name] {
			found[use.Place] = true
		}
	}
	return found
}

// importsAt writes the imports of a file at these places.
func importsAt(text *bytes.Buffer, set *token.FileSet, tree *ast.File, places map[int]bool) {
	for _, spec := range tree.Imports {
		if places[set.Position(spec.Path.Pos()).Offset] {
			text.WriteString("import ")
			if spec.Name != nil {
				text.WriteString(spec.Name.Name + " ")
			}
			text.WriteString(spec.Path.Value + "\n")
		}
	}
}

// signature is the part of a text in which a function stands without its body; that of an initializer is empty.
func signature(text string, set *token.FileSet, function *ast.FuncDecl) string {
	part := text[set.Position(function.Pos()).Offset:set.Position(function.Type.End()).Offset]
	if function.Recv == nil && (function.Name.Name == "init" || function.Name.Name == "main") {
		return part + " {}"
	}
	return part
}

// kept is the text of a file without what is left out, without bodies and without imports that it doesn't use then.
func (p settled) kept(file units.ReadFile, text string, gone map[ast.Node]bool) string {
	text = without(p.Set, file.Tree, text, gone)
	set := token.NewFileSet()
	tree, err := parser.ParseFile(set, file.Path, text, parser.SkipObjectResolution)
	Fail(err)
	out := &bytes.Buffer{}
	fmt.Fprintf(out, "package %s\n\n", tree.Name.Name)
	importsAt(out, set, tree, usedIn(file, tree))
	imports.KeepImports(tree, func(*ast.ImportSpec) bool { return false })
	for _, decl := range tree.Decls {
		if function, is := decl.(*ast.FuncDecl); is {
			fmt.Fprintf(out, "\n%s\n", signature(text, set, function))
		} else {
			fmt.Fprintf(out, "\n%s\n", text[set.Position(decl.Pos()).Offset:set.Position(decl.End()).Offset])
		}
	}
	return out.String()
}

// alone is the text of a declaration by itself. Constants keep the value of iota.
func (p settled) alone(file units.ReadFile, text string, d *declaration) string {
	part := func(from, to token.Pos) string { return text[p.Set.Position(from).Offset:p.Set.Position(to).Offset] }
	switch node := d.Node.(type) {
	case *ast.FuncDecl:
		return signature(text, p.Set, node)
	case *ast.TypeSpec:
		return "type " + part(node.Pos(), node.End())
	case *ast.ValueSpec:
		if d.Kind == token.VAR {
			return "var " + part(node.Pos(), node.End())
		}
		var names []string
		for _, name := range node.Names {
			names = append(names, name.Name)
		}
		return "const (\n" + strings.Repeat("_ = 0\n", placeInGroup(file.Tree, node)) + strings.Join(names, ", ") + part(d.from.Names[len(d.from.Names)-1].End(), d.from.End()) + "\n)"
	}
	panic("no declaration")
}

// placeInGroup is the number of a spec in its group.
func placeInGroup(tree *ast.File, spec ast.Spec) int {
	for _, decl := range tree.Decls {
		if group, is := decl.(*ast.GenDecl); is {
			for at, one := range group.Specs {
				if one == spec {
					return at
				}
			}
		}
	}
	panic("a spec without a group")
}

// take notes the two parts of a package.
func (p settled) take(f *units.Folder, all *Answers) {
	gone, texts := map[ast.Node]bool{}, map[string]string{}
	for at := range p.left[f.Path] {
		gone[p.sieves[f.Path].All[at].Node] = true
	}
	for _, file := range f.All {
		texts[file.Path] = file.Text
	}
	for i, file := range f.Files {
		all.Cut[file.Path] = p.kept(file, texts[file.Path], gone)
		var declared []string
		var trees []ast.Node
		for at, d := range p.sieves[f.Path].All {
			if d.File == i && p.left[f.Path][at] != "" {
				declared, trees = append(declared, p.alone(file, texts[file.Path], d)), append(trees, d.Trees...)
			}
		}
		if len(declared) > 0 {
			out := &bytes.Buffer{}
			fmt.Fprintf(out, "package %s\n\n", f.Name)
			importsAt(out, p.Set, file.Tree, usedIn(file, trees...))
			all.Left[path.Join(path.Dir(file.Path), fmt.Sprintf("%s%d.go", LeftFile, i))] = out.String() + "\n" + strings.Join(declared, "\n\n") + "\n"
		}
	}
}

// divide notes both parts of each of these packages.
func divide(p settled, all *Answers) {
	all.Cut, all.Left = map[string]string{}, map[string]string{}
	chosen := p.chosen()
	for _, f := range p.order {
		if !f.Std && chosen[f.Path] {
			p.take(f, all)
		}
	}
}
