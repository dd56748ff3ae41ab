// Go's parser and type checker over a module and a folder of declarations, as --new and --std name them; writes the merged feature lines
// on platforms, in order. Its words are MODULE STD PLATFORMS, and perhaps `shared`: then a package with the same files over the same
// packages is typed once for all platforms of a word size, as cmd/api does; else each platform is typed for itself. Files are read and
// parsed once. No error is told.
package main

import (
	"bufio"
	"bytes"
	"fmt"
	"go/ast"
	"go/build"
	"go/parser"
	"go/token"
	"go/types"
	"io"
	"os"
	"path/filepath"
	"sort"
	"strings"

	"apigate/internal/featurelines"
)

func fail(err error) {
	if err != nil {
		panic(err)
	}
}

// A source is a file with its tree, once that was asked for.
type source struct {
	place string
	text  []byte
	tree  *ast.File
}

// A place is a folder with Go files.
type place struct {
	path    string
	sources []*source
}

// A package is one on a platform: typed, or nothing.
type pack struct {
	typed *types.Package
	lines []string
}

// tree are all that is read.
type tree struct {
	module  string
	places  map[string]*place
	own     []string
	set     *token.FileSet
	shared  bool
	kept    map[string]*pack
	numbers map[*pack]int
}

func (t *tree) read(folder, path string) {
	entries, err := os.ReadDir(folder)
	if err != nil {
		return
	}
	found := &place{path: path}
	for _, entry := range entries {
		name := entry.Name()
		if entry.Type().IsRegular() && strings.HasSuffix(name, ".go") && !strings.HasSuffix(name, "_test.go") && name[0] != '.' && name[0] != '_' {
			text, err := os.ReadFile(filepath.Join(folder, name))
			fail(err)
			found.sources = append(found.sources, &source{place: filepath.Join(folder, name), text: text})
		}
	}
	t.places[path] = found
}

func (t *tree) walk(folder, path string) {
	entries, err := os.ReadDir(folder)
	fail(err)
	t.read(folder, path)
	if len(t.places[path].sources) > 0 {
		t.own = append(t.own, path)
	}
	for _, entry := range entries {
		name := entry.Name()
		if !entry.IsDir() || name[0] == '.' || name[0] == '_' || name == "testdata" || name == "vendor" {
			continue
		}
		if _, err := os.Stat(filepath.Join(folder, name, "go.mod")); err == nil {
			continue
		}
		t.walk(filepath.Join(folder, name), path+"/"+name)
	}
}

// platform is a run of the type checker over all packages.
type platform struct {
	*tree
	name    string
	std     string
	context build.Context
	sizes   types.Sizes
	packs   map[string]*pack
}

func (p *platform) Import(path string) (*types.Package, error) {
	if found := p.pack(path); found != nil && found.typed != nil {
		return found.typed, nil
	}
	return nil, fmt.Errorf("no package %s", path)
}

// chosen are the trees of the files that the platform chooses.
func (p *platform) chosen(from *place) (files []*source) {
	for _, one := range from.sources {
		p.context.OpenFile = func(string) (io.ReadCloser, error) { return io.NopCloser(bytes.NewReader(one.text)), nil }
		if is, err := p.context.MatchFile(filepath.Dir(one.place), filepath.Base(one.place)); err != nil || !is {
			continue
		}
		if one.tree == nil {
			tree, err := parser.ParseFile(p.set, one.place, one.text, parser.SkipObjectResolution)
			fail(err)
			one.tree = tree
		}
		files = append(files, one)
	}
	return files
}

func (p *platform) pack(path string) *pack {
	if found, is := p.packs[path]; is {
		return found
	}
	p.packs[path] = nil
	from := p.places[path]
	if from == nil && p.std != "" && path != p.module && !strings.HasPrefix(path, p.module+"/") {
		p.read(filepath.Join(p.std, path), path)
		from = p.places[path]
	}
	if from == nil {
		return nil
	}
	files := p.chosen(from)
	if len(files) == 0 {
		return nil
	}
	key := ""
	if p.shared {
		key = p.key(path, files)
		if found := p.kept[key]; found != nil {
			p.packs[path] = found
			return found
		}
	}
	var trees []*ast.File
	for _, one := range files {
		trees = append(trees, one.tree)
	}
	settings := types.Config{Importer: p, IgnoreFuncBodies: true, FakeImportC: true, Sizes: p.sizes, Error: func(error) {}}
	found := &pack{}
	found.typed, _ = settings.Check(path, p.set, trees, nil)
	p.packs[path] = found
	if p.shared {
		p.numbers[found] = len(p.numbers)
		p.kept[key] = found
	}
	return found
}

// key says by what a package is: its files, the packages that it imports, and the size of a word.
func (p *platform) key(path string, files []*source) string {
	key := &strings.Builder{}
	fmt.Fprintf(key, "%s %d", path, p.sizes.Sizeof(types.Typ[types.Int]))
	for _, one := range files {
		fmt.Fprintf(key, " %s", filepath.Base(one.place))
		for _, spec := range one.tree.Imports {
			if below := p.pack(strings.Trim(spec.Path.Value, "\"`")); below != nil {
				fmt.Fprintf(key, " %d", p.numbers[below])
			}
		}
	}
	return key.String()
}

// features are the lines of a package.
func (one *pack) features(path string) []string {
	if one.lines == nil {
		one.lines = []string{}
		for _, name := range one.typed.Scope().Names() {
			if object := one.typed.Scope().Lookup(name); object.Exported() {
				for _, line := range featurelines.Lines(one.typed, object) {
					one.lines = append(one.lines, "pkg "+path+", "+line)
				}
			}
		}
	}
	return one.lines
}

func (t *tree) on(name, std string, having map[string][]string) {
	system, architecture, _ := strings.Cut(name, "-")
	p := &platform{tree: t, name: name, std: std, context: build.Default, sizes: types.SizesFor("gc", architecture), packs: map[string]*pack{}}
	p.context.GOOS, p.context.GOARCH, p.context.CgoEnabled, p.context.ToolTags, p.context.ReleaseTags = system, architecture, false, nil, nil
	for release := 1; release <= 21; release++ {
		p.context.ReleaseTags = append(p.context.ReleaseTags, fmt.Sprintf("go1.%d", release))
	}
	for _, path := range t.own {
		found := p.pack(path)
		if found == nil || found.typed.Name() == "main" || strings.Contains("/"+path+"/", "/internal/") {
			continue
		}
		for _, line := range found.features(path) {
			having[line] = append(having[line], name)
		}
	}
}

func main() {
	words := os.Args[1:]
	t := &tree{places: map[string]*place{}, set: token.NewFileSet(), shared: len(words) > 3, kept: map[string]*pack{}, numbers: map[*pack]int{}}
	text, err := os.ReadFile(filepath.Join(words[0], "go.mod"))
	fail(err)
	t.module = strings.Fields(string(text))[1]
	t.walk(words[0], t.module)
	sort.Strings(t.own)
	names, having := strings.Split(words[2], ","), map[string][]string{}
	for _, name := range names {
		t.on(name, words[1], having)
	}
	var lines []string
	for line, on := range having {
		if len(on) == len(names) {
			lines = append(lines, line)
			continue
		}
		at := strings.Index(line, ",")
		for _, name := range on {
			lines = append(lines, line[:at]+" ("+name+")"+line[at:])
		}
	}
	sort.Strings(lines)
	out := bufio.NewWriter(os.Stdout)
	for _, line := range lines {
		fmt.Fprintln(out, line)
	}
	fail(out.Flush())
}
