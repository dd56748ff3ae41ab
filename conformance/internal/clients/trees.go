// Trees of modules, and the packages of the standard library, as Go's type checker has them on linux-amd64.
package main

import (
	"fmt"
	"go/ast"
	"go/build"
	"go/importer"
	"go/parser"
	"go/token"
	"go/types"
	"os"
	"path/filepath"
	"sort"
	"strings"
	"sync"

	"apigate/conformance/internal/imports"
)

const lastRelease = 21

var sizes = types.SizesFor("gc", "amd64")

func context() build.Context {
	context := build.Default
	context.GOOS, context.GOARCH = "linux", "amd64"
	context.Compiler, context.CgoEnabled, context.ToolTags, context.ReleaseTags = "gc", false, nil, nil
	for release := 1; release <= lastRelease; release++ {
		context.ReleaseTags = append(context.ReleaseTags, fmt.Sprintf("go1.%d", release))
	}
	return context
}

// qualifiers are the names that stand before a dot outside of bodies.
func qualifiers(file *ast.File) map[string]bool {
	found := map[string]bool{}
	ast.Inspect(file, func(node ast.Node) bool {
		switch node := node.(type) {
		case *ast.BlockStmt:
			return false
		case *ast.SelectorExpr:
			if name, is := node.X.(*ast.Ident); is {
				found[name.Name] = true
			}
		}
		return true
	})
	return found
}

// filesOf are the chosen files of a folder.
func filesOf(set *token.FileSet, folder string) (files []*ast.File, err error) {
	entries, err := os.ReadDir(folder)
	if err != nil {
		return nil, err
	}
	context := context()
	for _, entry := range entries {
		name := entry.Name()
		if entry.IsDir() || !strings.HasSuffix(name, ".go") || strings.HasSuffix(name, "_test.go") || name[0] == '.' || name[0] == '_' {
			continue
		}
		if matches, err := context.MatchFile(folder, name); err != nil {
			return nil, err
		} else if !matches {
			continue
		}
		file, err := parser.ParseFile(set, filepath.Join(folder, name), nil, parser.SkipObjectResolution)
		if err != nil {
			return nil, err
		}
		cgo := false
		for _, spec := range file.Imports {
			cgo = cgo || spec.Path.Value == `"C"`
		}
		if !cgo {
			files = append(files, file)
		}
	}
	return files, nil
}

func pathOf(spec *ast.ImportSpec) string { return strings.Trim(spec.Path.Value, "\"`") }

// onlyUsed drops the imports that no declaration names outside of bodies.
func onlyUsed(files []*ast.File, imported types.Importer) {
	for _, file := range files {
		found := qualifiers(file)
		imports.KeepImports(file, func(spec *ast.ImportSpec) bool {
			path := pathOf(spec)
			name := path[strings.LastIndex(path, "/")+1:]
			if spec.Name != nil {
				name = spec.Name.Name
			} else if !found[name] && len(found) > 0 {
				if pack, err := imported.Import(path); err == nil {
					name = pack.Name()
				}
			}
			return name != "_" && found[name]
		})
	}
}

// typed types the files as a package, without bodies; faults are the errors.
func typed(set *token.FileSet, path string, files []*ast.File, imported types.Importer) (pack *types.Package, faults []string) {
	defer func() {
		if wrong := recover(); wrong != nil {
			faults = append(faults, fmt.Sprint("Go's type checker fails: ", wrong))
		}
	}()
	onlyUsed(files, imported)
	settings := types.Config{Importer: imported, IgnoreFuncBodies: true, Sizes: sizes, Error: func(err error) { faults = append(faults, err.Error()) }}
	pack, _ = settings.Check(path, set, files, nil)
	return pack, faults
}

// A standard has the packages outside of modules: those of a folder with declarations, or Go's own. They are typed once for all pairs.
type standard struct {
	sync.Mutex
	folder string
	set    *token.FileSet
	built  map[string]*types.Package
	own    types.Importer
}

func newStandard(folder string) *standard {
	s := &standard{folder: folder, set: token.NewFileSet(), built: map[string]*types.Package{}}
	if folder == "-" {
		build.Default.CgoEnabled = false
		s.own = importer.ForCompiler(s.set, "source", nil)
	}
	return s
}

func (s *standard) Import(path string) (*types.Package, error) {
	s.Lock()
	defer s.Unlock()
	return unlocked{s}.Import(path)
}

// unlocked is a standard that is locked already.
type unlocked struct{ *standard }

func (s unlocked) Import(path string) (*types.Package, error) {
	if s.own != nil {
		return s.own.Import(path)
	}
	pack, is := s.built[path]
	if !is {
		s.built[path] = nil
		if files, err := filesOf(s.set, filepath.Join(s.folder, path)); err == nil && len(files) > 0 {
			pack, _ = typed(s.set, path, files, s)
			s.built[path] = pack
		}
	}
	if pack == nil {
		return nil, fmt.Errorf("no package %s", path)
	}
	return pack, nil
}

// A tree is a module with its packages.
type tree struct {
	module string
	set    *token.FileSet
	files  map[string][]*ast.File
	built  map[string]*types.Package
	std    *standard
	public []*types.Package
	faults []string
}

func (t *tree) Import(path string) (*types.Package, error) {
	if path != t.module && !strings.HasPrefix(path, t.module+"/") {
		return t.std.Import(path)
	}
	pack, is := t.built[path]
	if !is && len(t.files[path]) > 0 {
		t.built[path] = nil
		var faults []string
		pack, faults = typed(t.set, path, t.files[path], t)
		t.built[path], t.faults = pack, append(t.faults, faults...)
	}
	if pack == nil {
		return nil, fmt.Errorf("no package %s", path)
	}
	return pack, nil
}

func isElement(word string) bool {
	for _, one := range []byte(word) {
		letter := 'a' <= one && one <= 'z' || 'A' <= one && one <= 'Z' || '0' <= one && one <= '9'
		if !letter && !strings.ContainsRune("-._~", rune(one)) {
			return false
		}
	}
	return word != "" && word[0] != '-' && word[0] != '.' && word[0] != '_' && word != "testdata" && word != "vendor"
}

func (t *tree) walk(folder, path string) error {
	files, err := filesOf(t.set, folder)
	if err != nil {
		return err
	}
	t.files[path] = files
	entries, err := os.ReadDir(folder)
	if err != nil {
		return err
	}
	for _, entry := range entries {
		below := filepath.Join(folder, entry.Name())
		if !entry.IsDir() || !isElement(entry.Name()) {
			continue
		}
		if _, err := os.Stat(filepath.Join(below, "go.mod")); err == nil {
			continue
		}
		if err := t.walk(below, path+"/"+entry.Name()); err != nil {
			return err
		}
	}
	return nil
}

func isPublic(pack *types.Package) bool {
	return pack.Name() != "main" && !strings.Contains("/"+pack.Path()+"/", "/internal/")
}

// exportedTypes are the exported names of types.
func (t *tree) exportedTypes() (all []*types.TypeName) {
	for _, pack := range t.public {
		for _, name := range pack.Scope().Names() {
			if object, is := pack.Scope().Lookup(name).(*types.TypeName); is && object.Exported() {
				all = append(all, object)
			}
		}
	}
	return all
}

// load types all packages of a module.
func load(folder string, std *standard) (*tree, error) {
	text, err := os.ReadFile(filepath.Join(folder, "go.mod"))
	if err != nil {
		return nil, err
	}
	t := &tree{set: token.NewFileSet(), files: map[string][]*ast.File{}, built: map[string]*types.Package{}, std: std}
	for _, line := range strings.Split(string(text), "\n") {
		if words := strings.Fields(line); len(words) > 1 && words[0] == "module" {
			t.module = strings.Trim(words[1], "\"`")
		}
	}
	if err := t.walk(folder, t.module); err != nil {
		return nil, err
	}
	var paths []string
	for path, files := range t.files {
		if len(files) > 0 {
			paths = append(paths, path)
		}
	}
	sort.Strings(paths)
	for _, path := range paths {
		if pack, err := t.Import(path); err == nil && isPublic(pack) {
			t.public = append(t.public, pack)
		}
	}
	if len(t.faults) > 0 {
		return nil, fmt.Errorf("%s", t.faults[0])
	}
	return t, nil
}
