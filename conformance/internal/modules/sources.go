// The feature lines of modules by their sources and by those of all that they import, as Go finds these: its own packages in GOROOT,
// others in GOPATH. Bodies aren't looked into, and no error is told.
package main

import (
	"fmt"
	"go/ast"
	"go/build"
	"go/parser"
	"go/token"
	"go/types"
	"path"
	"path/filepath"
	"sort"
	"strings"

	"apigate/conformance/internal/answers"
	"apigate/conformance/internal/units"
	"apigate/internal/featurelines"
)

// sources are the packages of one platform; inner are those of the module in the folder.
type sources struct {
	context        build.Context
	sizes          types.Sizes
	set            *token.FileSet
	outer, inner   map[string]*types.Package
	module, folder string
}

func newSources(platform string) *sources {
	_, architecture, _ := strings.Cut(platform, "-")
	return &sources{context: units.ContextOf(platform), sizes: types.SizesFor("gc", architecture), set: token.NewFileSet(), outer: map[string]*types.Package{}}
}

func (s *sources) Import(path string) (*types.Package, error) { return s.ImportFrom(path, s.folder, 0) }

func (s *sources) ImportFrom(path, from string, _ types.ImportMode) (*types.Package, error) {
	if path == "unsafe" {
		return types.Unsafe, nil
	}
	if units.Under(path, s.module) && units.Under(filepath.ToSlash(from), filepath.ToSlash(s.folder)) {
		return s.load(path, filepath.Join(s.folder, strings.TrimPrefix(path, s.module)), s.inner)
	}
	found, err := s.context.Import(path, from, build.FindOnly)
	if err != nil {
		return nil, err
	}
	return s.load(found.ImportPath, found.Dir, s.outer)
}

func (s *sources) load(path, folder string, known map[string]*types.Package) (*types.Package, error) {
	if pack, is := known[folder]; is {
		if pack == nil {
			return nil, fmt.Errorf("%s isn't typed", path)
		}
		return pack, nil
	}
	known[folder] = nil
	found, err := s.context.ImportDir(folder, 0)
	if err != nil {
		return nil, err
	}
	var files []*ast.File
	for _, name := range found.GoFiles {
		file, err := parser.ParseFile(s.set, filepath.Join(folder, name), nil, parser.SkipObjectResolution)
		if err != nil {
			return nil, err
		}
		files = append(files, file)
	}
	settings := types.Config{Importer: s, Sizes: s.sizes, IgnoreFuncBodies: true, FakeImportC: true, Error: func(error) {}}
	known[folder], _ = settings.Check(path, s.set, files, nil)
	return known[folder], nil
}

// linesOrNone are the lines of an object, but where it is of a form that these lines haven't.
func linesOrNone(pack *types.Package, object types.Object) (lines []string) {
	defer func() {
		if recover() != nil {
			lines = []string{fmt.Sprintf("%s has no line", object.Name())}
		}
	}()
	return featurelines.Lines(pack, object)
}

// linesIn are the lines of a package at a path.
func linesIn(pack *types.Package, at string) (lines []string) {
	for _, name := range pack.Scope().Names() {
		if object := pack.Scope().Lookup(name); object.Exported() {
			for _, line := range linesOrNone(pack, object) {
				lines = append(lines, "pkg "+at+", "+line)
			}
		}
	}
	return lines
}

// features are the lines of all public packages of the module in a folder.
func (s *sources) features(folder string) (lines []string) {
	tree := readModule(folder)
	s.module, s.folder, s.inner = tree.module, folder, map[string]*types.Package{}
	places := map[string]bool{}
	for place := range tree.files {
		places[path.Dir(place)] = true
	}
	for _, place := range answers.SortedKeys(places) {
		at := path.Join(tree.module, place)
		pack, err := s.load(at, filepath.Join(folder, place), s.inner)
		if err != nil || pack.Name() == "main" || strings.Contains("/"+at+"/", "/internal/") {
			continue
		}
		lines = append(lines, linesIn(pack, at)...)
	}
	sort.Strings(lines)
	return lines
}
