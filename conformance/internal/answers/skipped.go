// Which declarations of a package are left out: those that are lost, that no other module can see and that are outside of the profile,
// by a number, by the type of a constant, by an import that isn't found, or by another declaration.
package answers

import (
	"fmt"
	"go/ast"
	"go/constant"
	"go/parser"
	"go/token"
	"go/types"
	"sort"
	"strings"

	"apigate/conformance/internal/differences"
	"apigate/conformance/internal/imports"
	"apigate/conformance/internal/units"
)

// A Skipped declaration is one that is left out of the package at a path, and how it is told.
type Skipped struct{ Path, Text string }

// A sieve knows of a package's declarations which are seen, and which are lost by themselves for what the profile hasn't.
type sieve struct {
	*Listing
	folder  *units.Folder
	info    *types.Info
	seen    map[int]bool
	numbers map[int]bool   // a number stands in them
	inexact map[int]bool   // they are constants of a floating-point or complex type, if all is kept on which they depend
	missing map[int]bool   // they select from an import that isn't found
	certain map[int]string // what is lost by itself, and the class for it
}

// inspect visits what stands in trees outside of bodies.
func inspect(trees []ast.Node, visit func(ast.Node)) {
	for _, tree := range trees {
		ast.Inspect(tree, func(node ast.Node) bool {
			if _, is := node.(*ast.BlockStmt); is {
				return false
			}
			if node != nil {
				visit(node)
			}
			return true
		})
	}
}

// spread are these numbers and those to which steps lead from them.
func spread(from map[int]bool, steps func(int) []int) map[int]bool {
	found := map[int]bool{}
	var queue []int
	for at := range from {
		found[at] = true
		queue = append(queue, at)
	}
	for len(queue) > 0 {
		at := queue[0]
		queue = queue[1:]
		for _, next := range steps(at) {
			if !found[next] {
				found[next] = true
				queue = append(queue, next)
			}
		}
	}
	return found
}

// reached are these declarations and all on which they depend.
func (l *Listing) reached(from map[int]bool) map[int]bool {
	return spread(from, func(at int) (next []int) {
		for to := range l.All[at].leads {
			next = append(next, to)
		}
		return next
	})
}

// seenIn are the declarations that other modules can name, and all on which these depend.
func (l *Listing) seenIn(f *units.Folder) map[int]bool {
	offered := map[int]bool{}
	for at, d := range l.All {
		for _, name := range d.Names {
			if f.Std || isPublic(f) && d.Method == nil && name.IsExported() {
				offered[at] = true
			}
		}
	}
	return l.reached(offered)
}

// selected are the imports of its file from which a declaration selects.
func (d *declaration) selected(file units.ReadFile) (uses []units.UsedImport) {
	before := map[string]bool{}
	inspect(d.Trees, func(node ast.Node) {
		if selector, is := node.(*ast.SelectorExpr); is {
			if name, is := selector.X.(*ast.Ident); is {
				before[name.Name] = true
			}
		}
	})
	for _, use := range file.Uses {
		if before[use.Name] {
			uses = append(uses, use)
		}
	}
	return uses
}

// numberIn is the class of a number that the profile hasn't, if one stands in a declaration.
func (d *declaration) numberIn() (class string) {
	inspect(d.Trees, func(node ast.Node) {
		lit, is := node.(*ast.BasicLit)
		switch {
		case is && (lit.Kind == token.FLOAT || lit.Kind == token.IMAG):
			class = differences.Inexact
		case is && lit.Kind == token.INT && differences.IsPast(constant.MakeFromLiteral(lit.Value, token.INT, 0)):
			class = differences.Past
		}
	})
	return class
}

// isConverted says whether an expression is of a floating-point or complex type by a conversion in it, and so is no constant here.
func isConverted(tree ast.Expr, info *types.Info) bool {
	switch tree := tree.(type) {
	case *ast.ParenExpr:
		return isConverted(tree.X, info)
	case *ast.UnaryExpr:
		return isConverted(tree.X, info)
	case *ast.BinaryExpr:
		return differences.IsInexact(info.Types[tree].Type) && (isConverted(tree.X, info) || isConverted(tree.Y, info))
	case *ast.CallExpr:
		return info.Types[tree.Fun].IsType() && differences.IsInexact(info.Types[tree.Fun].Type)
	}
	return false
}

// mayBeConstant says whether an expression is a constant here, or made of such by operators, parentheses and conversions to basic types.
func mayBeConstant(tree ast.Expr, info *types.Info) bool {
	noted := info.Types[tree]
	if noted.Type == nil || !isConverted(tree, info) && differences.IsPast(noted.Value) {
		return false
	}
	switch tree := tree.(type) {
	case *ast.ParenExpr:
		return mayBeConstant(tree.X, info)
	case *ast.UnaryExpr:
		return mayBeConstant(tree.X, info)
	case *ast.BinaryExpr:
		return mayBeConstant(tree.X, info) && mayBeConstant(tree.Y, info)
	case *ast.CallExpr:
		if called := info.Types[tree.Fun]; called.IsType() {
			_, is := called.Type.Underlying().(*types.Basic)
			return is && len(tree.Args) == 1 && !tree.Ellipsis.IsValid() && mayBeConstant(tree.Args[0], info)
		}
	}
	plain := noted.Value != nil
	inspect([]ast.Node{tree}, func(node ast.Node) {
		name, is := node.(*ast.Ident)
		plain = plain && differences.OfNode(node, info) == "" && !(is && lacking[name.Name] && info.Uses[name] != nil && info.Uses[name].Parent() == types.Universe)
	})
	return plain
}

// isInexact says whether these are constants to which their spec gives a floating-point or complex type, or with a value of one.
func (d *declaration) isInexact(info *types.Info) bool {
	if d.Kind != token.CONST || len(d.Names) != len(d.from.Values) {
		return false
	}
	inexact := d.from.Type != nil && differences.IsInexact(info.Types[d.from.Type].Type)
	for i, name := range d.Names {
		object, is := info.Defs[name].(*types.Const)
		if !is || object.Val().Kind() == constant.Unknown || !mayBeConstant(d.from.Values[i], info) {
			return false
		}
		inexact = inexact || d.from.Type == nil && differences.IsInexact(object.Type())
	}
	return inexact
}

// sieveOf is that of a package.
func (c *checking) sieveOf(f *units.Folder, l *Listing, info *types.Info) *sieve {
	s := &sieve{l, f, info, l.seenIn(f), map[int]bool{}, map[int]bool{}, map[int]bool{}, map[int]string{}}
	for at, d := range l.All {
		for _, name := range d.Names {
			if object, is := info.Defs[name].(*types.Const); is && differences.IsInexact(object.Type()) {
				s.certain[at] = differences.Inexact
			}
		}
		if d.isInexact(info) {
			s.inexact[at], s.certain[at] = true, differences.Inexact
		}
		if class := d.numberIn(); class != "" {
			s.numbers[at], s.certain[at] = true, class
		}
		for _, use := range d.selected(f.Files[d.File]) {
			if !c.Found(f, use.Path) {
				s.missing[at], s.certain[at] = true, outside
			}
		}
	}
	return s
}

// ownCause is why a declaration is outside of the profile by itself, where these are lost, or nothing.
func (s *sieve) ownCause(at int, lost map[int]bool) string {
	kept := true
	for to := range s.All[at].leads {
		kept = kept && !lost[to]
	}
	switch {
	case s.numbers[at]:
		return "number"
	case s.inexact[at] && kept:
		return "constant type"
	case s.missing[at]:
		return "import not found"
	}
	return ""
}

// beyond are the causes of all declarations that are outside of the profile, where these are lost.
func (s *sieve) beyond(lost map[int]bool) map[int]string {
	causes, own := map[int]string{}, map[int]bool{}
	for at := range s.All {
		if cause := s.ownCause(at, lost); cause != "" {
			causes[at], own[at] = cause, true
		}
	}
	all := s.lost(own)
	for at := range all {
		first := len(s.All)
		for to := range s.All[at].leads {
			if to != at && all[to] && to < first {
				first = to
			}
		}
		if causes[at] == "" {
			causes[at] = "by " + s.All[first].Names[0].Name
		}
	}
	return causes
}

// needed is the first import that isn't found and from which a declaration selects that is seen: its file and place.
func (c *checking) needed(f *units.Folder, l *Listing) (file string, place int, is bool) {
	seen := l.seenIn(f)
	for i, one := range f.Files {
		places := []int{}
		for at, d := range l.All {
			if d.File != i || !seen[at] {
				continue
			}
			for _, use := range d.selected(one) {
				if !c.Found(f, use.Path) {
					places = append(places, use.Place)
				}
			}
		}
		if sort.Ints(places); len(places) > 0 {
			return one.Path, places[0], true
		}
	}
	return "", 0, false
}

// withFound leaves only the imports of a file that it uses and that are found.
func (c *checking) withFound(f *units.Folder, file units.ReadFile, tree *ast.File) *ast.File {
	found := map[int]bool{}
	for _, use := range file.Uses {
		found[use.Place] = c.Found(f, use.Path)
	}
	imports.KeepImports(tree, func(spec *ast.ImportSpec) bool { return found[c.Set.Position(spec.Path.Pos()).Offset] })
	return tree
}

// blanked is a text with blanks in place of a part of it and of a semicolon behind that, but for what is to stand there.
func blanked(text string, from, to int, instead string) string {
	part := []byte(text[from:to])
	for i, one := range part {
		if i < len(instead) {
			part[i] = instead[i]
		} else if one != '\n' {
			part[i] = ' '
		}
	}
	rest := text[to:]
	if instead == "" {
		if trimmed := strings.TrimLeft(rest, " \t"); strings.HasPrefix(trimmed, ";") {
			at := len(rest) - len(trimmed)
			rest = rest[:at] + " " + rest[at+1:]
		}
	}
	return text[:from] + string(part) + rest
}

// without is the text of a file without these specs, functions and methods. All others keep their places, and constants their numbers.
func without(set *token.FileSet, file *ast.File, text string, gone map[ast.Node]bool) string {
	blank := func(node ast.Node, instead string) {
		text = blanked(text, set.Position(node.Pos()).Offset, set.Position(node.End()).Offset, instead)
	}
	for _, decl := range file.Decls {
		group, is := decl.(*ast.GenDecl)
		switch {
		case !is && gone[decl], is && !group.Lparen.IsValid() && gone[group.Specs[0]]:
			blank(decl, "")
			continue
		case !is:
			continue
		}
		for _, spec := range group.Specs {
			value, is := spec.(*ast.ValueSpec)
			switch {
			case !gone[spec]:
			case is && group.Tok == token.CONST && len(value.Values) > 0:
				blank(spec, "_=0")
			case is && group.Tok == token.CONST:
				blank(spec, "_")
			default:
				blank(spec, "")
			}
		}
	}
	return text
}

// leaveOut types a package without what is left out of it, notes that, and gives the texts of its files that change.
func (c *checking) leaveOut(s *sieve, left map[int]string, before typed, all *Answers) typed {
	gone := map[ast.Node]bool{}
	for at, d := range s.All {
		cause := left[at]
		if cause == "" {
			continue
		}
		gone[d.Node] = true
		names := []string{}
		for _, name := range d.Names {
			names = append(names, name.Name)
		}
		at := c.Set.PositionFor(d.Place(), false)
		all.Skipped = append(all.Skipped, Skipped{s.folder.Path, fmt.Sprintf("%s:%d:%d %s: %s", at.Filename, at.Line, at.Column, strings.Join(names, ", "), cause)})
	}
	sort.SliceStable(all.Skipped, func(i, j int) bool { return all.Skipped[i].Path < all.Skipped[j].Path })
	texts := map[string]string{}
	for _, file := range s.folder.All {
		texts[file.Path] = file.Text
	}
	var files []*ast.File
	for _, file := range s.folder.Files {
		text := without(c.Set, file.Tree, texts[file.Path], gone)
		if text != texts[file.Path] {
			all.Cut[file.Path] = text
		}
		tree, err := parser.ParseFile(c.Set, file.Path, text, parser.SkipObjectResolution)
		Fail(err)
		files = append(files, c.withFound(s.folder, file, tree))
	}
	again := c.checkInOrder(s.folder, files, all.Counts)
	if again.failed || len(again.errors) > len(before.errors) {
		panic("more errors where something is left out of " + s.folder.Path)
	}
	return again
}
