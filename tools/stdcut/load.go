// Packages read from their sources and typed for one trees.Platform, without the bodies of functions.
package main

import (
	"errors"
	"fmt"
	"go/ast"
	"go/build"
	"go/parser"
	"go/token"
	"go/types"
	"os"
	"path/filepath"
	"sort"
	"strconv"
	"strings"

	"apigate/internal/trees"
)

// A unit is a package that was read and typed.
type unit struct {
	path, folder string
	pack         *types.Package
	info         *types.Info
	imports      []*unit                          // those that it uses outside of bodies
	written      map[types.Object]types.Type      // the right sides of type declarations
	embedded     map[types.Object]*types.TypeName // the names by which fields are embedded
	exported     map[types.Object]types.Object
}

// A seeker says by which module imports are sought, whether the importing package is in it, or else one of Go's own.
type seeker struct {
	by          *trees.Tree
	inside, own bool
}

// A loader reads packages for one platform.
type loader struct {
	platform trees.Platform
	context  build.Context
	files    *token.FileSet
	inside   map[*trees.Tree]map[string]*unit
	outside  map[string]*unit
	finders  map[*trees.Tree]*finder
	names    map[string]string
	faults   map[string]bool // why a module can't be read or typed
	notes    map[string]bool // what is amiss outside of modules
}

func newLoader(of trees.Platform) *loader {
	return &loader{
		platform: of, context: of.Context(), files: token.NewFileSet(),
		inside: map[*trees.Tree]map[string]*unit{}, outside: map[string]*unit{},
		finders: map[*trees.Tree]*finder{}, names: map[string]string{}, faults: map[string]bool{}, notes: map[string]bool{},
	}
}

func (l *loader) fault(format string, words ...interface{}) {
	l.faults[fmt.Sprintf(format, words...)] = true
}

// chosen are the files of a folder that belong to the platform, in order. In a module links are none, as for apigate.
func (l *loader) chosen(folder string, inside bool) ([]string, error) {
	entries, err := os.ReadDir(folder)
	if err != nil {
		return nil, err
	}
	var found []string
	for _, entry := range entries {
		name := entry.Name()
		if name[0] == '.' || name[0] == '_' || !strings.HasSuffix(name, ".go") || strings.HasSuffix(name, "_test.go") {
			continue
		}
		if entry.IsDir() || inside && !entry.Type().IsRegular() {
			continue
		}
		if is, err := l.context.MatchFile(folder, name); err != nil {
			return nil, err
		} else if is {
			found = append(found, filepath.Join(folder, name))
		}
	}
	return found, nil
}

// nameIn is the package name that the first chosen file of a folder gives.
func (l *loader) nameIn(folder string, inside bool) string {
	name, known := l.names[folder]
	if known {
		return name
	}
	files, _ := l.chosen(folder, inside)
	for _, path := range files {
		if file, err := parser.ParseFile(token.NewFileSet(), path, nil, parser.PackageClauseOnly); err == nil {
			name = file.Name.Name
			break
		}
	}
	l.names[folder] = name
	return name
}

// A location is a package's path and folder, and who seeks its imports.
type location struct {
	path, folder string
	seeker       seeker
}

// locate finds the folder of an import; `unsafe` and `C` have none.
func (l *loader) locate(path string, from seeker) (location, bool) {
	if path == "unsafe" || path == "C" {
		return location{}, false
	}
	if from.inside && from.by != nil && trees.IsUnder(path, from.by.Module) {
		folder, is := from.by.Places[path]
		return location{path, folder, from}, is
	}
	if l.finders[from.by] == nil {
		l.finders[from.by] = &finder{context: l.context, told: func(line string) { l.notes[line] = true }}
		if from.by != nil {
			l.finders[from.by].folder, l.finders[from.by].module = from.by.Folder, from.by.Module
		}
	}
	finder := l.finders[from.by]
	if whole, folder, is := finder.own(path, from.own); is {
		return location{whole, folder, seeker{from.by, false, true}}, true
	}
	if from.own {
		return location{}, false
	}
	folder, is := finder.other(path)
	return location{path, folder, seeker{from.by, false, false}}, is
}

// load gives the package that an import names.
func (l *loader) load(path string, from seeker) (*unit, error) {
	at, is := l.locate(path, from)
	if !is {
		return nil, errNotFound
	}
	known := l.outside
	if at.seeker.inside {
		if known = l.inside[from.by]; known == nil {
			known = map[string]*unit{}
			l.inside[from.by] = known
		}
	}
	if found, is := known[at.path]; is {
		switch {
		case found == nil:
			return nil, fmt.Errorf("import cycle or nothing that can be read")
		case found.folder != at.folder:
			l.notes[fmt.Sprintf("%s is taken from %s, and not from %s", at.path, found.folder, at.folder)] = true
		}
		return found, nil
	}
	known[at.path] = nil
	found, err := l.read(at, false)
	if err == nil {
		known[at.path] = found
	}
	return found, err
}

// errNoFile is the error of a folder that is no package on the platform, errNotFound that of a path without one.
var (
	errNoFile   = errors.New("no file for the platform")
	errNotFound = errors.New("not found")
)

// read reads and types the package in a folder; bodies count where `whole` is said.
func (l *loader) read(at location, whole bool) (*unit, error) {
	files, err := l.chosen(at.folder, at.seeker.inside)
	if err != nil {
		return nil, err
	}
	var parsed []*ast.File
	for _, path := range files {
		file, err := parser.ParseFile(l.files, path, nil, parser.SkipObjectResolution)
		if err != nil {
			return nil, err
		}
		if trees.ImportsC(file) {
			continue
		}
		if parsed = append(parsed, file); file.Name.Name != parsed[0].Name.Name {
			return nil, fmt.Errorf("two package names in %s", at.folder)
		}
	}
	if len(parsed) == 0 {
		return nil, errNoFile
	}
	if parsed[0].Name.Name == "main" && !at.seeker.inside {
		return nil, fmt.Errorf("a program")
	}
	found := &unit{path: at.path, folder: at.folder}
	known := imported{"unsafe": types.Unsafe}
	for _, file := range parsed {
		if !at.seeker.inside {
			dropValues(file)
		}
		l.keepUsed(file, at.seeker, whole)
		for _, spec := range file.Imports {
			l.follow(found, spec, at, known)
		}
	}
	found.info = &types.Info{Types: map[ast.Expr]types.TypeAndValue{}, Defs: map[*ast.Ident]types.Object{}, Uses: map[*ast.Ident]types.Object{}}
	settings := types.Config{
		Importer: known, Sizes: l.platform.Sizes(), IgnoreFuncBodies: !whole,
		Error: func(err error) { l.untyped(at, err) },
	}
	found.pack, _ = settings.Check(at.path, l.files, parsed, found.info)
	found.index(parsed)
	return found, nil
}

// untyped tells an error of typing. What follows from one outside of the module is told where something needs it.
func (l *loader) untyped(at location, err error) {
	if at.seeker.inside && !strings.Contains(err.Error(), "could not import") {
		l.fault("%s: %v", at.path, err)
	}
}

// follow loads what one import names.
func (l *loader) follow(found *unit, spec *ast.ImportSpec, at location, known imported) {
	path, _ := strconv.Unquote(spec.Path.Value)
	if known[path] != nil {
		return
	}
	below, err := l.load(path, at.seeker)
	if err == errNotFound && at.seeker.inside {
		l.fault("%s imports %s: %v%s", at.path, path, err, mends(at.seeker.by, path))
	} else if err != nil && at.seeker.inside {
		l.fault("%s imports %s: %v", at.path, path, err)
	} else if err != nil {
		l.notes[fmt.Sprintf("%s imports %s: %v", at.path, path, err)] = true
	}
	if err != nil {
		return
	}
	known[path] = below.pack
	found.imports = append(found.imports, below)
}

// imported are the packages that the files of one package import, by the paths that these write.
type imported map[string]*types.Package

func (known imported) Import(path string) (*types.Package, error) {
	if known[path] == nil {
		return nil, fmt.Errorf("not found")
	}
	return known[path], nil
}

// index notes the right sides of type declarations, and the names by which fields are embedded.
func (u *unit) index(trees []*ast.File) {
	u.written, u.embedded = map[types.Object]types.Type{}, map[types.Object]*types.TypeName{}
	for _, file := range trees {
		for _, decl := range file.Decls {
			if group, is := decl.(*ast.GenDecl); is {
				for _, spec := range group.Specs {
					if spec, is := spec.(*ast.TypeSpec); is {
						u.written[u.info.Defs[spec.Name]] = u.info.TypeOf(spec.Type)
					}
				}
			}
		}
	}
	for name, object := range u.info.Defs {
		if field, is := object.(*types.Var); is && field.Embedded() {
			u.embedded[field], _ = u.info.Uses[name].(*types.TypeName)
		}
	}
	u.info.Types, u.info.Defs = nil, nil
}

// aliasesOf gives defined types the first alias that the package exports for each.
func (u *unit) aliasesOf() map[types.Object]types.Object {
	if u.exported == nil {
		u.exported = map[types.Object]types.Object{}
		for _, name := range u.pack.Scope().Names() {
			object, is := u.pack.Scope().Lookup(name).(*types.TypeName)
			if !is || !object.IsAlias() || !object.Exported() {
				continue
			}
			if named, is := object.Type().(*types.Named); is && u.exported[named.Obj()] == nil {
				u.exported[named.Obj()] = object
			}
		}
	}
	return u.exported
}

// uses are the objects of other packages that the package names, in the order of their names.
func (u *unit) uses() []types.Object {
	seen, found := map[types.Object]bool{}, []types.Object(nil)
	for _, object := range u.info.Uses {
		if pack := object.Pkg(); pack != nil && pack != u.pack && object.Parent() == pack.Scope() && !seen[object] {
			seen[object] = true
			found = append(found, object)
		}
	}
	sort.Slice(found, func(i, j int) bool { return nameOf(found[i]) < nameOf(found[j]) })
	return found
}

// nameOf is the path and name of an object at package level.
func nameOf(object types.Object) string {
	if object.Pkg() == nil {
		return object.Name()
	}
	return object.Pkg().Path() + "." + object.Name()
}
