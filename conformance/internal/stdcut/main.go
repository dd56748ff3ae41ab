// Compares a folder that tools/stdcut cut with Go's own packages, which it reads through go/importer, on the platform of GOOS and
// GOARCH. Its words are the folder, a file with what stdcut told, and then folders of modules; `stubs`, a folder that is to serve
// instead of the cut one, and a module; `client`, a client's folder and its module; or `whole` and import paths of which all has to
// be there. It prints lines with a tab: `wrong` and what differs, `count` and what was compared, and
// `cut`, `real` or `stubs` before each feature line of the modules.
package main

import (
	"fmt"
	"go/ast"
	"go/build"
	"go/constant"
	"go/importer"
	"go/parser"
	"go/token"
	"go/types"
	"io/fs"
	"os"
	"path/filepath"
	"regexp"
	"sort"
	"strings"

	"apigate/internal/featurelines"
	"apigate/internal/worlds"
)

var (
	counts = map[string]int{}
	files  = token.NewFileSet()
	sizes  = types.SizesFor("gc", build.Default.GOARCH)
	told   = map[string]bool{} // `dropped` or `replaced` and the name, as stdcut told
)

func wrong(format string, words ...interface{}) {
	fmt.Printf("wrong\t%s\n", fmt.Sprintf(format, words...))
}

func fail(err error) {
	if err != nil {
		panic(err)
	}
}

// folder reads packages below a folder by their import paths, and through `next` what lies elsewhere.
type folder struct {
	top, path string
	next      types.Importer
	known     map[string]*types.Package
	clean     bool // whether it is a cut folder, with one file for each package
}

func (f *folder) Import(path string) (*types.Package, error) {
	if f.known[path] != nil {
		return f.known[path], nil
	}
	place := path
	if f.path != "" {
		if place = strings.TrimPrefix(path, f.path); place == path || place != "" && place[0] != '/' {
			return f.next.Import(path)
		}
	}
	trees := f.trees(filepath.Join(f.top, place))
	if len(trees) == 0 {
		return nil, fmt.Errorf("no files for %s", path)
	}
	settings := types.Config{Importer: f, IgnoreFuncBodies: !f.clean, Sizes: sizes, Error: func(err error) { f.error(path, err) }}
	f.known[path], _ = settings.Check(path, files, trees, nil)
	return f.known[path], nil
}

var noSuchName = regexp.MustCompile(`: (?:(\w+) not declared by package (\w+)|undefined: (\w+)\.(\w+))$`)

// error tells an error of typing. None is want of a name that stdcut told to be dropped, nor of an import: where a module uses it, its
// features show that.
func (f *folder) error(path string, err error) {
	if f.next != nil && strings.Contains(err.Error(), ": could not import ") {
		counts["imports that a module doesn't use"]++
		return
	}
	if found := noSuchName.FindStringSubmatch(err.Error()); found != nil {
		for line := range told {
			if strings.HasPrefix(line, "dropped ") && strings.HasSuffix(line, found[2]+found[3]+"."+found[1]+found[4]) {
				counts["names that a module misses since they are dropped"]++
				return
			}
		}
	}
	wrong("%s: %v", path, err)
}

func (f *folder) trees(place string) []*ast.File {
	entries, _ := os.ReadDir(place)
	var trees []*ast.File
	for _, entry := range entries {
		if is, _ := build.Default.MatchFile(place, entry.Name()); !is || !strings.HasSuffix(entry.Name(), ".go") || strings.HasSuffix(entry.Name(), "_test.go") {
			continue
		}
		tree, err := parser.ParseFile(files, filepath.Join(place, entry.Name()), nil, parser.ParseComments)
		fail(err)
		trees = append(trees, tree)
		if f.clean {
			lookOver(tree)
		}
	}
	if f.clean && len(trees) > 1 {
		wrong("%s: %d files are chosen", place, len(trees))
	}
	return trees
}

// lookOver looks for what a cut file doesn't have: bodies, comments but a build line, and whole numbers of more than 127 bits.
func lookOver(tree *ast.File) {
	ast.Inspect(tree, func(node ast.Node) bool {
		place := ""
		if node != nil {
			place = files.Position(node.Pos()).String()
		}
		switch node := node.(type) {
		case *ast.BlockStmt:
			wrong("%s: a body", place)
		case *ast.BasicLit:
			if value := constant.MakeFromLiteral(node.Value, node.Kind, 0); value.Kind() == constant.Int && constant.BitLen(value) > 127 {
				wrong("%s: %s", place, node.Value)
			}
		}
		return true
	})
	for _, group := range tree.Comments {
		if !strings.HasPrefix(group.List[0].Text, "//go:build ") || len(group.List) > 1 {
			wrong("%s: a comment", files.Position(group.Pos()))
		}
	}
}

// paths are the import paths of the folders with chosen files.
func (f *folder) paths() (paths []string) {
	fail(filepath.WalkDir(f.top, func(place string, entry fs.DirEntry, err error) error {
		if err == nil && entry.IsDir() && len(f.trees(place)) > 0 {
			below, _ := filepath.Rel(f.top, place)
			paths = append(paths, strings.TrimSuffix(strings.TrimPrefix(f.path+"/"+filepath.ToSlash(below), "/"), "/."))
		}
		return err
	}))
	return paths
}

// pointerName is the type that stands for unsafe.Pointer in what a package keeps to itself.
var pointerName = regexp.MustCompile(`\S+\.unsafePointer_*`)

// asReal is the text of a cut type as that of the real one has to be.
func asReal(text string) string { return pointerName.ReplaceAllString(text, "Pointer") }

// world are all objects of the cut packages that are not only in the cut, by path and name, beside the real ones.
type world struct {
	cut, real map[string]types.Object
	names     []string
}

func newWorld(cut *folder, real types.Importer) *world {
	w := &world{cut: map[string]types.Object{}, real: map[string]types.Object{}}
	for _, path := range cut.paths() {
		counts["packages"]++
		mine, err := cut.Import(path)
		fail(err)
		its, err := real.Import(path)
		fail(err)
		if mine.Name() != its.Name() {
			wrong("%s: package %s, and really %s", path, mine.Name(), its.Name())
		}
		for _, name := range mine.Scope().Names() {
			other := its.Scope().Lookup(name)
			if other == nil {
				if !pointerName.MatchString(path + "." + name) {
					wrong("%s.%s isn't there", path, name)
				}
				continue
			}
			w.cut[path+"."+name], w.real[path+"."+name] = mine.Scope().Lookup(name), other
			w.names = append(w.names, path+"."+name)
		}
	}
	sort.Strings(w.names)
	return w
}

// isOutside says whether a type has a part that the profile or this cut doesn't have.
func (w *world) isOutside(t types.Type) bool {
	switch t := t.(type) {
	case *types.Basic:
		return t.Kind() == types.UnsafePointer
	case *types.Named:
		return t.TypeArgs().Len() > 0 || t.TypeParams().Len() > 0 || t.Obj().Pkg() != nil && w.cut[worlds.Name(t)] == nil
	case *types.Pointer:
		return w.isOutside(t.Elem())
	case *types.Slice:
		return w.isOutside(t.Elem())
	case *types.Array:
		return w.isOutside(t.Elem())
	case *types.Chan:
		return w.isOutside(t.Elem())
	case *types.Map:
		return w.isOutside(t.Key()) || w.isOutside(t.Elem())
	case *types.Tuple:
		for i := 0; i < t.Len(); i++ {
			if w.isOutside(t.At(i).Type()) {
				return true
			}
		}
		return false
	case *types.Signature:
		return t.TypeParams().Len() > 0 || w.isOutside(t.Params()) || w.isOutside(t.Results())
	case *types.Struct:
		for i := 0; i < t.NumFields(); i++ {
			if w.isOutside(t.Field(i).Type()) {
				return true
			}
		}
		return false
	case *types.Interface:
		for i := 0; i < t.NumMethods(); i++ {
			if w.isOutside(t.Method(i).Type()) {
				return true
			}
		}
		return !t.IsMethodSet()
	}
	return true
}

func (w *world) compare(name string) {
	mine, its := w.cut[name], w.real[name]
	counts["objects"]++
	switch {
	case isDefined(mine) != isDefined(its):
		wrong("%s: a defined type on one side alone", name)
	case !isDefined(mine):
		if worlds.Entity("", mine) != worlds.Entity("", its) {
			wrong("%s: %s, and really %s", name, worlds.Entity("", mine), worlds.Entity("", its))
		}
	default:
		counts["defined types"]++
		one, other := mine.Type(), its.Type()
		w.compareUnder(name, one.Underlying(), other.Underlying())
		if types.Comparable(one) != types.Comparable(other) {
			wrong("%s: comparable on one side alone", name)
		}
		w.compareSets(name, one, other)
		w.compareSets(name, types.NewPointer(one), types.NewPointer(other))
		w.compareFinds(name, one, other)
	}
}

func isDefined(object types.Object) bool {
	declared, is := object.(*types.TypeName)
	return is && !declared.IsAlias()
}

func (w *world) compareUnder(name string, mine, its types.Type) {
	one, is := mine.(*types.Struct)
	other, isToo := its.(*types.Struct)
	if !is || !isToo || one.NumFields() != other.NumFields() {
		if asReal(worlds.Term(mine)) != worlds.Term(its) {
			wrong("%s: %s, and really %s", name, worlds.Term(mine), worlds.Term(its))
		}
		return
	}
	for i := 0; i < one.NumFields(); i++ {
		counts["fields"]++
		field, real := one.Field(i), other.Field(i)
		if told["replaced "+name+"."+real.Name()] {
			counts["fields that are replaced"]++
			if field.Exported() || !w.isOutside(real.Type()) || types.Comparable(field.Type()) != types.Comparable(real.Type()) {
				wrong("%s.%s: replaced by %s, and really %s", name, real.Name(), field, real)
			}
			continue
		}
		same := field.Id() == real.Id() && field.Embedded() == real.Embedded() && one.Tag(i) == other.Tag(i)
		if !same || asReal(worlds.Term(field.Type())) != worlds.Term(real.Type()) || field.Exported() && w.isOutside(real.Type()) {
			wrong("%s: field %s, and really %s", name, field, real)
		}
	}
}

func (w *world) compareSets(name string, mine, its types.Type) {
	one, other := types.NewMethodSet(mine), types.NewMethodSet(its)
	found := map[string]string{}
	for i := 0; i < one.Len(); i++ {
		found[one.At(i).Obj().Id()] = asReal(worlds.Term(one.At(i).Type()))
	}
	counts["methods in sets"] += len(found)
	for i := 0; i < other.Len(); i++ {
		method := other.At(i).Obj()
		text, is := found[method.Id()]
		switch {
		case is && text != worlds.Term(method.Type()):
			wrong("%s: method %s is %s, and really %s", name, method.Id(), text, worlds.Term(method.Type()))
		case !is && w.isOutside(method.Type()) && told["dropped "+declared(method)]:
			counts["methods missing in sets since they are dropped"]++
		case !is:
			wrong("%s: no method %s", name, method.Id())
		}
		delete(found, method.Id())
	}
	for id := range found {
		wrong("%s: a method %s that isn't there", name, id)
	}
}

// declared is the name by which stdcut tells of a method: path, type and method.
func declared(method types.Object) string {
	t := method.Type().(*types.Signature).Recv().Type()
	if pointer, is := t.(*types.Pointer); is {
		t = pointer.Elem()
	}
	if named, is := t.(*types.Named); is {
		return worlds.Name(named) + "." + method.Name()
	}
	return method.Name()
}

// names gathers the names of fields and methods at any depth.
func names(t types.Type, seen map[types.Type]bool, found map[string]*types.Package) {
	if pointer, is := t.(*types.Pointer); is {
		t = pointer.Elem()
	}
	if seen[t] {
		return
	}
	seen[t] = true
	if named, is := t.(*types.Named); is {
		for i := 0; i < named.NumMethods(); i++ {
			found[named.Method(i).Name()] = named.Method(i).Pkg()
		}
	}
	if under, is := t.Underlying().(*types.Struct); is {
		for i := 0; i < under.NumFields(); i++ {
			if found[under.Field(i).Name()] = under.Field(i).Pkg(); under.Field(i).Embedded() {
				names(under.Field(i).Type(), seen, found)
			}
		}
	}
}

// compareFinds compares what each name is in a type: a field or a method, how deep, and whether through a pointer.
func (w *world) compareFinds(name string, mine, its types.Type) {
	sought := map[string]*types.Package{}
	names(its, map[types.Type]bool{}, sought)
	for selector, pack := range sought {
		real, path, through := types.LookupFieldOrMethod(its, false, pack, selector)
		if real == nil {
			continue
		}
		counts["selectors"]++
		here := mine.(*types.Named).Obj().Pkg()
		if pack != nil && pack.Path() != here.Path() {
			here = types.NewPackage(pack.Path(), pack.Name())
		}
		found, place, step := types.LookupFieldOrMethod(mine, false, here, selector)
		_, method := real.(*types.Func)
		_, methodToo := found.(*types.Func)
		if found != nil && (method != methodToo || len(path) != len(place) || through != step) {
			wrong("%s: selector %s finds %v", name, selector, found)
		}
		if found == nil && !(w.isOutside(real.Type()) && (!method || told["dropped "+declared(real)])) {
			wrong("%s: selector %s finds nothing", name, selector)
		}
	}
}

// compareWhole asks whether all that a package exports is there, or was dropped for a reason that holds.
func (w *world) compareWhole(real *types.Package) {
	for _, name := range real.Scope().Names() {
		object := real.Scope().Lookup(name)
		name = real.Path() + "." + name
		switch {
		case !object.Exported() || w.cut[name] != nil:
		case !told["dropped "+name]:
			wrong("%s isn't in the folder, and nothing was told", name)
		case !w.isOutside(object.Type()) && !w.isOutside(object.Type().Underlying()) && !isFloating(object):
			wrong("%s was dropped", name)
		default:
			counts["exported objects that are dropped"]++
		}
	}
}

func isFloating(object types.Object) bool {
	basic, is := object.Type().Underlying().(*types.Basic)
	_, isConst := object.(*types.Const)
	return isConst && is && basic.Info()&(types.IsFloat|types.IsComplex) != 0
}

// compareImplementing asks of each type and each interface with methods whether the one implements the other, on both sides.
func (w *world) compareImplementing() {
	type pair struct{ mine, its types.Type }
	var all []pair
	var interfaces []pair
	for _, name := range w.names {
		if isDefined(w.cut[name]) && isDefined(w.real[name]) {
			one := pair{w.cut[name].Type(), w.real[name].Type()}
			if under, is := one.its.Underlying().(*types.Interface); is && under.NumMethods() > 0 {
				interfaces = append(interfaces, one)
			}
			all = append(all, one, pair{types.NewPointer(one.mine), types.NewPointer(one.its)})
		}
	}
	for _, one := range all {
		for _, other := range interfaces {
			counts["questions on implementing"]++
			mine := types.Implements(one.mine, other.mine.Underlying().(*types.Interface))
			its := types.Implements(one.its, other.its.Underlying().(*types.Interface))
			if mine != its {
				wrong("%v implements %v: %v, and really %v", one.its, other.its, mine, its)
			}
			if its {
				counts["that hold"]++
			}
		}
	}
}

// moduleAt is the module in a folder, over what the importer gives.
func moduleAt(top string, next types.Importer) *folder {
	text, err := os.ReadFile(filepath.Join(top, "go.mod"))
	fail(err)
	return &folder{top: top, path: moduleLine.FindStringSubmatch(string(text))[1], next: next, known: map[string]*types.Package{}}
}

var moduleLine = regexp.MustCompile(`(?m)^module "?([^"\s]+)`)

// typeClient types a client whole, over a module that is typed over what the importer gives.
func typeClient(top, module string, next types.Importer) {
	over := moduleAt(module, next)
	settings := types.Config{Importer: over, Sizes: sizes, Error: func(err error) { wrong("client: %v", err) }}
	settings.Check("client", files, over.trees(top), nil)
	counts["clients"]++
}

// tellFeatures prints the feature lines of a module over what the importer gives.
func tellFeatures(side, top string, next types.Importer) {
	module := moduleAt(top, next)
	for _, path := range module.paths() {
		pack, err := module.Import(path)
		fail(err)
		if pack.Name() == "main" || strings.Contains("/"+path+"/", "/internal/") {
			continue
		}
		for _, name := range pack.Scope().Names() {
			if object := pack.Scope().Lookup(name); object.Exported() {
				for _, line := range featurelines.Lines(pack, object) {
					fmt.Printf("%s\tpkg %s, %s\n", side, path, line)
				}
			}
		}
	}
}

func main() {
	text, err := os.ReadFile(os.Args[2])
	fail(err)
	for _, line := range strings.Split(string(text), "\n") {
		if words := strings.Fields(line); len(words) > 1 {
			told[words[0]+" "+strings.TrimSuffix(words[1], ":")] = true
		}
	}
	real := importer.ForCompiler(files, "source", nil)
	cut := &folder{top: os.Args[1], known: map[string]*types.Package{}, clean: true}
	world := newWorld(cut, real)
	for _, name := range world.names {
		world.compare(name)
	}
	world.compareImplementing()
	for words := os.Args[3:]; len(words) > 0; words = words[1:] {
		if words[0] == "whole" {
			for _, path := range strings.Split(words[1], ",") {
				pack, err := real.Import(path)
				fail(err)
				world.compareWhole(pack)
			}
			words = words[1:]
			continue
		}
		if words[0] == "client" {
			typeClient(words[1], words[2], cut)
			words = words[2:]
			continue
		}
		if words[0] == "stubs" {
			tellFeatures("stubs", words[2], &folder{top: words[1], known: map[string]*types.Package{}})
			words = words[2:]
			continue
		}
		tellFeatures("real", words[0], real)
		tellFeatures("cut", words[0], cut)
	}
	for what, number := range counts {
		fmt.Printf("count\t%s\t%d\n", what, number)
	}
}
