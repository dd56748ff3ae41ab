//go:build apidiff

// Trees of a module in memory: how they are read, typed over declarations of other packages, edited as text, and written.
package main

import (
	"bytes"
	"errors"
	"fmt"
	"go/ast"
	"go/parser"
	"go/printer"
	"go/token"
	"go/types"
	"os"
	"path"
	"path/filepath"
	"sort"
	"strconv"
	"strings"
)

func fail(err error) {
	if err != nil {
		fmt.Fprintln(os.Stderr, err)
		os.Exit(1)
	}
}

// A tree is the files of a module, by their paths.
type tree struct {
	module string
	files  map[string]string
	view   *view // where it was typed
}

func (t *tree) copied() *tree {
	files := map[string]string{}
	for place, text := range t.files {
		files[place] = text
	}
	return &tree{t.module, files, nil}
}

func (t *tree) places() (places []string) {
	for place := range t.files {
		places = append(places, place)
	}
	sort.Strings(places)
	return places
}

// filesBelow reads the files of Go below a folder.
func filesBelow(top string) map[string]string {
	files := map[string]string{}
	fail(filepath.Walk(top, func(place string, info os.FileInfo, err error) error {
		fail(err)
		if info.Mode().IsRegular() && strings.HasSuffix(place, ".go") {
			text, err := os.ReadFile(place)
			fail(err)
			below, err := filepath.Rel(top, place)
			fail(err)
			files[filepath.ToSlash(below)] = string(text)
		}
		return nil
	}))
	return files
}

func readTree(folder string) *tree {
	text, err := os.ReadFile(filepath.Join(folder, "go.mod"))
	fail(err)
	return &tree{strings.Fields(string(text))[1], filesBelow(folder), nil}
}

func (t *tree) write(folder string) {
	put := func(place, text string) {
		whole := filepath.Join(folder, place)
		fail(os.MkdirAll(filepath.Dir(whole), 0o777))
		fail(os.WriteFile(whole, []byte(text), 0o666))
	}
	put("go.mod", "module "+t.module+"\n")
	for place, text := range t.files {
		put(place, text)
	}
}

// A source is a file of a package, and a pack is a package of a tree.
type source struct {
	pack  *pack
	place string
	text  string
	file  *ast.File
}

type pack struct {
	path, folder string
	files        []*source
	types        *types.Package
}

func (p *pack) isInternal() bool { return isInternalPath(p.path) }

func (p *pack) isPublic() bool { return !p.isInternal() && p.types.Name() != "main" }

func isInternalPath(at string) bool {
	for _, part := range strings.Split(at, "/") {
		if part == "internal" {
			return true
		}
	}
	return false
}

// A view is a tree with its types.
type view struct {
	tree   *tree
	set    *token.FileSet
	packs  []*pack
	byPath map[string]*pack
	info   *types.Info
	over   *library
	faults []error
}

// A library are packages of declarations, which are typed when they are first asked for.
type library struct {
	files map[string]map[string]string // by paths of packages
	typed map[string]*types.Package
}

func readLibrary(folder string) *library {
	l := &library{map[string]map[string]string{}, map[string]*types.Package{}}
	for place, text := range filesBelow(folder) {
		at := path.Dir(place)
		if l.files[at] == nil {
			l.files[at] = map[string]string{}
		}
		l.files[at][place] = text
	}
	return l
}

func settings(over types.Importer, told func(error)) types.Config {
	return types.Config{Importer: over, IgnoreFuncBodies: true, Sizes: types.SizesFor("gc", "amd64"), Error: told}
}

func (l *library) Import(at string) (*types.Package, error) {
	if found := l.typed[at]; found != nil {
		return found, nil
	}
	if at == "unsafe" {
		return types.Unsafe, nil
	}
	texts, is := l.files[at]
	if !is {
		return nil, fmt.Errorf("no package %s", at)
	}
	set := token.NewFileSet()
	var files []*ast.File
	for place, text := range texts {
		file, err := parser.ParseFile(set, place, text, parser.SkipObjectResolution)
		if err != nil {
			return nil, err
		}
		files = append(files, file)
	}
	checks := settings(l, nil)
	found, err := checks.Check(at, set, files, nil)
	if err == nil {
		l.typed[at] = found
	}
	return found, err
}

// typed gives a tree with its types, or the first fault of it.
func typed(t *tree, over *library) (*view, error) {
	v := &view{tree: t, set: token.NewFileSet(), byPath: map[string]*pack{}, over: over}
	v.info = &types.Info{Defs: map[*ast.Ident]types.Object{}, Uses: map[*ast.Ident]types.Object{}, Types: map[ast.Expr]types.TypeAndValue{}}
	for _, place := range t.places() {
		folder := path.Dir(place)
		at := path.Join(t.module, folder)
		p := v.byPath[at]
		if p == nil {
			p = &pack{path: at, folder: folder}
			v.byPath[at] = p
			v.packs = append(v.packs, p)
		}
		file, err := parser.ParseFile(v.set, place, t.files[place], parser.SkipObjectResolution|parser.ParseComments)
		if err != nil {
			return nil, err
		}
		p.files = append(p.files, &source{p, place, t.files[place], file})
	}
	for _, p := range v.packs {
		if _, err := v.from(p.path).Import(p.path); err != nil {
			return nil, err
		}
	}
	// the profile knows no values of these kinds, and an edit may put one in parentheses
	for _, object := range v.info.Defs {
		if constant, is := object.(*types.Const); is {
			if basic, is := constant.Type().Underlying().(*types.Basic); is && basic.Info()&(types.IsFloat|types.IsComplex) != 0 {
				return nil, errors.New(constant.Name() + " is a constant of a float or complex kind")
			}
		}
	}
	return v, nil
}

// An importer of one package looks whether an internal one may be imported there, and whether imports go in a circle.
type importer struct {
	view *view
	on   []string // the packages that are being typed
}

func (v *view) from(at string) *importer { return &importer{v, nil} }

func (i *importer) Import(at string) (*types.Package, error) {
	p := i.view.byPath[at]
	if p == nil {
		return i.view.over.Import(at)
	}
	if at != i.view.tree.module && len(i.on) > 0 {
		if cut := strings.LastIndex("/"+at+"/", "/internal/"); cut >= 0 {
			parent := strings.Trim(("/" + at)[:cut], "/")
			if user := i.on[len(i.on)-1]; user != parent && !strings.HasPrefix(user, parent+"/") {
				return nil, fmt.Errorf("%s may not import %s", user, at)
			}
		}
	}
	for _, one := range i.on {
		if one == at {
			return nil, fmt.Errorf("imports of %s go in a circle", at)
		}
	}
	if p.types != nil {
		if p.types.Name() == "main" && len(i.on) > 0 {
			return nil, fmt.Errorf("%s is a command", at)
		}
		return p.types, nil
	}
	var files []*ast.File
	for _, one := range p.files {
		files = append(files, one.file)
	}
	checks := settings(&importer{i.view, append(append([]string{}, i.on...), at)}, nil)
	found, err := checks.Check(at, i.view.set, files, i.view.info)
	if err != nil {
		return nil, err
	}
	p.types = found
	if found.Name() == "main" && len(i.on) > 0 {
		return nil, fmt.Errorf("%s is a command", at)
	}
	return found, nil
}

func (v *view) offset(at token.Pos) int { return v.set.File(at).Offset(at) }

func (v *view) sourceOf(at token.Pos) *source {
	place := v.set.File(at).Name()
	for _, one := range v.byPath[path.Join(v.tree.module, path.Dir(place))].files {
		if one.place == place {
			return one
		}
	}
	return nil
}

func (v *view) text(node ast.Node) string {
	return v.sourceOf(node.Pos()).text[v.offset(node.Pos()):v.offset(node.End())]
}

// An edit puts a text in place of a part of a file.
type edit struct {
	from, to int
	text     string
}

// edited applies edits to a text; those that overlap fit nowhere.
func edited(text string, edits []edit) (string, bool) {
	sort.SliceStable(edits, func(i, j int) bool {
		return edits[i].from < edits[j].from || edits[i].from == edits[j].from && edits[i].to < edits[j].to
	})
	out, at := &strings.Builder{}, 0
	for _, one := range edits {
		if one.from < at {
			return "", false
		}
		out.WriteString(text[at:one.from])
		out.WriteString(one.text)
		at = one.to
	}
	out.WriteString(text[at:])
	return out.String(), true
}

// qualifiers are the names before the dots of a file's selectors, each of which may be an import's.
func qualifiers(file *ast.File) map[string]bool {
	found := map[string]bool{}
	ast.Inspect(file, func(node ast.Node) bool {
		if one, is := node.(*ast.SelectorExpr); is {
			if name, is := one.X.(*ast.Ident); is {
				found[name.Name] = true
			}
		}
		return true
	})
	return found
}

// nameOf is the name by which a file knows an import. A package's own name that isn't the last of its path is asked for.
func nameOf(spec *ast.ImportSpec, named func(string) string) string {
	if spec.Name != nil {
		return spec.Name.Name
	}
	at, _ := strconv.Unquote(spec.Path.Value)
	return named(at)
}

// printed is a file as go/printer writes it, without imports that it doesn't use.
func printed(text string, named func(string) string) (string, error) {
	set := token.NewFileSet()
	file, err := parser.ParseFile(set, "", text, parser.SkipObjectResolution)
	if err != nil {
		return "", err
	}
	used := qualifiers(file)
	var decls []ast.Decl
	for _, decl := range file.Decls {
		if group, is := decl.(*ast.GenDecl); is && group.Tok == token.IMPORT {
			var kept []ast.Spec
			for _, spec := range group.Specs {
				if name := nameOf(spec.(*ast.ImportSpec), named); name == "" || used[name] {
					kept = append(kept, spec)
				}
			}
			if len(kept) == 0 {
				continue
			}
			group.Specs = kept
		}
		decls = append(decls, decl)
	}
	file.Decls = decls
	out := &bytes.Buffer{}
	err = (&printer.Config{Mode: printer.TabIndent | printer.UseSpaces, Tabwidth: 8}).Fprint(out, set, file)
	return out.String(), err
}

// named tells the name of a package by its path, where there is one.
func (v *view) named(at string) string {
	if p := v.byPath[at]; p != nil {
		return p.files[0].file.Name.Name
	}
	if found, err := v.over.Import(at); err == nil {
		return found.Name()
	}
	return ""
}
