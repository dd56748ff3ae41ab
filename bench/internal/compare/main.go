//go:build apidiff

// Go's own tools over an old and a new tree of a module, in one process: its parser and type checker, golang.org/x/exp/apidiff package by
// package, and with the word `lines` the feature lines of both, written by the rules of cmd/api. Files are chosen for linux-amd64, and
// bodies aren't looked into. Its words are OLD, NEW, STD, a folder of the packages that the trees import, or `-` for none, and
// perhaps `lines`. It prints the numbers of the new tree's packages and of what apidiff calls incompatible, and with `lines` those of
// the new tree's lines and of the old ones that are lost.
package main

import (
	"fmt"
	"go/ast"
	"go/build"
	"go/parser"
	"go/token"
	"go/types"
	"io/fs"
	"os"
	"path"
	"path/filepath"
	"sort"
	"strings"

	"golang.org/x/exp/apidiff"

	"apigate/internal/featurelines"
	"apigate/internal/worlds"
)

func fail(err error) {
	if err != nil {
		fmt.Fprintln(os.Stderr, err)
		os.Exit(1)
	}
}

// world is a tree over another one, and its packages that are typed so far.
type world struct {
	folders map[string]string
	std     *world
	set     *token.FileSet
	typed   worlds.Packages
	checks  types.Config
}

var chooser = build.Context{GOOS: "linux", GOARCH: "amd64", Compiler: "gc", CgoEnabled: true, ReleaseTags: build.Default.ReleaseTags}

// within finds the folders of a tree that hold files of Go, by the import paths of their packages; some are left out, as by the command go.
func within(top, start string) map[string]string {
	found := map[string]string{}
	fail(filepath.WalkDir(top, func(place string, entry fs.DirEntry, err error) error {
		fail(err)
		name := entry.Name()
		if entry.IsDir() {
			if place == top {
				return nil
			}
			if _, err := os.Stat(filepath.Join(place, "go.mod")); err == nil || strings.HasPrefix(name, ".") || strings.HasPrefix(name, "_") || name == "testdata" || name == "vendor" {
				return fs.SkipDir
			}
		} else if strings.HasSuffix(name, ".go") && !strings.HasSuffix(name, "_test.go") {
			below, err := filepath.Rel(top, filepath.Dir(place))
			fail(err)
			found[path.Join(start, filepath.ToSlash(below))] = filepath.Dir(place)
		}
		return nil
	}))
	return found
}

func newWorld(top, start string, std *world, set *token.FileSet) *world {
	w := &world{folders: within(top, start), std: std, set: set, typed: worlds.Packages{}}
	w.checks = types.Config{Importer: w, IgnoreFuncBodies: true, Sizes: types.SizesFor("gc", "amd64")}
	return w
}

func (w *world) chosen(folder string) (names []string) {
	entries, err := os.ReadDir(folder)
	fail(err)
	for _, entry := range entries {
		name := entry.Name()
		if !strings.HasSuffix(name, ".go") || strings.HasSuffix(name, "_test.go") {
			continue
		}
		chosen, err := chooser.MatchFile(folder, name)
		fail(err)
		if chosen {
			names = append(names, name)
		}
	}
	return names
}

// Import types a package when it is first asked for. One that isn't there, as that of an import that only bodies use, is empty.
func (w *world) Import(at string) (*types.Package, error) {
	if pack := w.typed[at]; pack != nil {
		return pack, nil
	}
	folder, is := w.folders[at]
	if !is && w.std != nil {
		return w.std.Import(at)
	}
	if at == "unsafe" {
		return types.Unsafe, nil
	}
	if !is {
		pack := types.NewPackage(at, path.Base(at))
		pack.MarkComplete()
		return pack, nil
	}
	var files []*ast.File
	for _, name := range w.chosen(folder) {
		file, err := parser.ParseFile(w.set, filepath.Join(folder, name), nil, parser.SkipObjectResolution)
		fail(err)
		files = append(files, file)
	}
	pack, err := w.checks.Check(at, w.set, files, nil)
	if err == nil {
		w.typed[at] = pack
	}
	return pack, err
}

// all types every package of the tree that has chosen files.
func (w *world) all() (paths []string) {
	for at, folder := range w.folders {
		if w.typed[at] != nil || len(w.chosen(folder)) > 0 {
			_, err := w.Import(at)
			fail(err)
			paths = append(paths, at)
		}
	}
	sort.Strings(paths)
	return paths
}

func isPublic(at string, pack *types.Package) bool {
	for _, part := range strings.Split(at, "/") {
		if part == "internal" {
			return false
		}
	}
	return pack.Name() != "main"
}

// lines are those of the public packages, in order.
func (w *world) lines(paths []string) (found []string) {
	for _, at := range paths {
		pack := w.typed[at]
		if !isPublic(at, pack) {
			continue
		}
		for _, name := range pack.Scope().Names() {
			if object := pack.Scope().Lookup(name); object.Exported() {
				for _, line := range featurelines.Lines(pack, object) {
					found = append(found, "pkg "+at+", "+line)
				}
			}
		}
	}
	sort.Strings(found)
	return found
}

func moduleOf(top string) string {
	text, err := os.ReadFile(filepath.Join(top, "go.mod"))
	fail(err)
	for _, line := range strings.Split(string(text), "\n") {
		if words := strings.Fields(line); len(words) >= 2 && words[0] == "module" {
			return strings.Trim(words[1], `"`)
		}
	}
	fail(fmt.Errorf("no module line in %s", top))
	return ""
}

// breaksOf counts what apidiff calls incompatible. A package that the new tree lacks has lost all that it exports.
func breaksOf(old, new *types.Package) (count int) {
	if new == nil {
		new = types.NewPackage(old.Path(), old.Name())
	}
	out := os.Stdout
	os.Stdout = os.Stderr // where apidiff writes notes of its own
	report := apidiff.Changes(old, new)
	os.Stdout = out
	for _, change := range report.Changes {
		if !change.Compatible {
			count++
		}
	}
	return count
}

// lost counts the lines of the one ordered list that the other lacks.
func lost(old, new []string) (count int) {
	at := 0
	for _, line := range old {
		for at < len(new) && new[at] < line {
			at++
		}
		if at == len(new) || new[at] != line {
			count++
		}
	}
	return count
}

func main() {
	words := os.Args[1:]
	set := token.NewFileSet()
	var std *world
	if words[2] != "-" {
		std = newWorld(words[2], "", nil, set)
	}
	old, new := newWorld(words[0], moduleOf(words[0]), std, set), newWorld(words[1], moduleOf(words[1]), std, set)
	oldPaths, newPaths := old.all(), new.all()
	breaks := 0
	for _, at := range oldPaths {
		if isPublic(at, old.typed[at]) {
			breaks += breaksOf(old.typed[at], new.typed[at])
		}
	}
	fmt.Printf("packages %d\nbreaks %d\n", len(newPaths), breaks)
	if len(words) > 3 {
		was, is := old.lines(oldPaths), new.lines(newPaths)
		fmt.Printf("lines %d\nlost %d\n", len(is), lost(was, is))
	}
}
