// Package typed types the packages of a module's tree over a folder of declarations, on one platform, as apigate reads them: without the
// bodies of functions.
package typed

import (
	"fmt"
	"go/ast"
	"go/build"
	"go/parser"
	"go/token"
	"go/types"
	"os"
	"path/filepath"
	"sort"
	"strconv"
	"strings"

	"apigate/internal/trees"
)

// A World is a module's packages with their types.
type World struct {
	Tree     *trees.Tree
	Platform trees.Platform
	Set      *token.FileSet
	Packages []*Package // of the module, by their paths
	byPath   map[string]*Package
	others   map[string]*types.Package
	context  build.Context
	std      string
}

// A Package is one of the module.
type Package struct {
	Path, Folder string
	Files        []*File
	Types        *types.Package
	Info         *types.Info
	Faults       []Fault
	typing       bool
}

// A File is one of those that the platform chooses; Err is why it can't be parsed.
type File struct {
	Name string // below the tree's folder
	Tree *ast.File
	Err  error
}

// A Fault is what Go's checker says at a place.
type Fault struct {
	Pos     token.Pos
	Message string
}

// Load reads and types a tree over the folder of declarations `std`.
func Load(folder, std string, platform trees.Platform) (*World, error) {
	tree, err := trees.Read(folder)
	if err != nil {
		return nil, err
	}
	w := &World{
		Tree: tree, Platform: platform, Set: token.NewFileSet(), byPath: map[string]*Package{},
		others: map[string]*types.Package{"unsafe": types.Unsafe}, context: platform.Context(), std: std,
	}
	for path, at := range tree.Places {
		one := &Package{Path: path, Folder: at}
		for _, name := range w.chosen(at) {
			file, err := parser.ParseFile(w.Set, name, nil, parser.ParseComments|parser.SkipObjectResolution)
			if file == nil || trees.ImportsC(file) {
				continue
			}
			below, _ := filepath.Rel(folder, name)
			one.Files = append(one.Files, &File{filepath.ToSlash(below), file, err})
		}
		if len(one.Files) > 0 {
			w.Packages = append(w.Packages, one)
			w.byPath[path] = one
		}
	}
	sort.Slice(w.Packages, func(i, j int) bool { return w.Packages[i].Path < w.Packages[j].Path })
	for _, one := range w.Packages {
		w.check(one)
	}
	return w, nil
}

// chosen are the files of a folder that belong to the platform.
func (w *World) chosen(folder string) (found []string) {
	entries, _ := os.ReadDir(folder)
	for _, entry := range entries {
		name := entry.Name()
		if !entry.Type().IsRegular() || name[0] == '.' || name[0] == '_' || !strings.HasSuffix(name, ".go") || strings.HasSuffix(name, "_test.go") {
			continue
		}
		if is, err := w.context.MatchFile(folder, name); is || err != nil {
			found = append(found, filepath.Join(folder, name))
		}
	}
	return found
}

// Import finds a package of the module, or one of the declarations. No program is found, and none in a folder that isn't looked into.
func (w *World) Import(path string) (*types.Package, error) {
	if trees.IsUnder(path, w.Tree.Module) {
		one := w.byPath[path]
		if one == nil || one.typing || one.Files[0].Tree.Name.Name == "main" {
			return nil, fmt.Errorf("not found")
		}
		w.check(one)
		return one.Types, nil
	}
	if found, is := w.others[path]; is {
		if found == nil {
			return nil, fmt.Errorf("not found")
		}
		return found, nil
	}
	w.others[path] = nil
	for _, element := range strings.Split(path, "/") {
		if !trees.IsWalked(element) {
			return nil, fmt.Errorf("not found")
		}
	}
	var files []*ast.File
	for _, name := range w.chosen(filepath.Join(w.std, filepath.FromSlash(path))) {
		if file, err := parser.ParseFile(w.Set, name, nil, parser.SkipObjectResolution); err == nil {
			files = append(files, file)
		}
	}
	if len(files) == 0 || files[0].Name.Name == "main" {
		return nil, fmt.Errorf("not found")
	}
	settings := types.Config{Importer: w, Sizes: w.Platform.Sizes(), IgnoreFuncBodies: true, Error: func(error) {}}
	w.others[path], _ = settings.Check(path, w.Set, files, nil)
	return w.others[path], nil
}

// check types a package of the module, once.
func (w *World) check(one *Package) {
	if one.Types != nil || one.typing {
		return
	}
	one.typing = true
	var files []*ast.File
	for _, file := range one.Files {
		if file.Err == nil && file.Tree.Name.Name == one.Files[0].Tree.Name.Name {
			files = append(files, file.Tree)
		}
	}
	one.Info = &types.Info{Types: map[ast.Expr]types.TypeAndValue{}, Defs: map[*ast.Ident]types.Object{}, Uses: map[*ast.Ident]types.Object{}}
	settings := types.Config{Importer: w, Sizes: w.Platform.Sizes(), IgnoreFuncBodies: true, FakeImportC: true, Error: func(err error) { one.note(err) }}
	one.Types, _ = settings.Check(one.Path, w.Set, files, one.Info)
	one.typing = false
	sort.SliceStable(one.Faults, func(i, j int) bool { return one.Faults[i].Pos < one.Faults[j].Pos })
}

// note keeps an error of the checker, but for imports that only bodies use.
func (one *Package) note(err error) {
	said, is := err.(types.Error)
	if !is || said.Soft {
		return
	}
	if strings.HasPrefix(said.Msg, "could not import") {
		for _, file := range one.Files {
			if file.Tree.Pos() <= said.Pos && said.Pos < file.Tree.End() && !file.uses(said.Pos) {
				return
			}
		}
	}
	one.Faults = append(one.Faults, Fault{said.Pos, said.Msg})
}

// uses says whether the import at a place is used outside of bodies, by the name that it would have.
func (f *File) uses(at token.Pos) bool {
	used := trees.Qualifiers(f.Tree, false)
	for _, spec := range f.Tree.Imports {
		if spec.Pos() <= at && at <= spec.End() {
			path, _ := strconv.Unquote(spec.Path.Value)
			return spec.Name != nil && used[spec.Name.Name] || spec.Name == nil && used[trees.AssumedName(path)]
		}
	}
	return true
}

// Position is where something stands, with the file below the tree's folder.
func (w *World) Position(at token.Pos) token.Position {
	found := w.Set.Position(at)
	if below, err := filepath.Rel(w.Tree.Folder, found.Filename); err == nil {
		found.Filename = filepath.ToSlash(below)
	}
	return found
}

// Package gives one of the module by its path.
func (w *World) Package(path string) *Package { return w.byPath[path] }

// IsPublic says whether other modules may import the package.
func (one *Package) IsPublic() bool {
	for _, element := range strings.Split(one.Path, "/") {
		if element == "internal" {
			return false
		}
	}
	return one.Files[0].Tree.Name.Name != "main"
}

// Split parts a name into the path of a package of the module and the object behind its dot.
func (w *World) Split(name string) (path, object string) {
	if w.byPath[name] != nil {
		return name, ""
	}
	at := strings.LastIndex(name, ".")
	if at < 0 {
		return name, ""
	}
	return name[:at], name[at+1:]
}
