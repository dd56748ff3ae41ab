package main

import (
	"fmt"
	"go/ast"
	"go/parser"
	"go/token"
	"go/types"
	"math/rand"
	"strings"

	"apigate/conformance/internal/generator"
	"apigate/internal/profile"
	"apigate/internal/worlds"
)

// A drawer makes clients and asks about them, on both sizes of a word.
type drawer struct {
	set    *token.FileSet
	own    string
	worlds []worlds.Packages
	maker  *maker
	again  *rand.Rand // of shuffles
	parts  []part     // of the client's own declarations
	number int
}

var sizes = []struct {
	platform string
	bytes    int64
}{{"linux-amd64", 8}, {"linux-386", 4}}

func newDrawer(given input) *drawer {
	d := &drawer{set: token.NewFileSet(), own: given.Packages[len(given.Packages)-1].Source, again: rand.New(rand.NewSource(given.Seed))}
	for _, size := range sizes {
		known := worlds.Packages{}
		for _, one := range given.Packages[:len(given.Packages)-1] {
			file, err := parser.ParseFile(d.set, one.Path, one.Source, parser.SkipObjectResolution)
			fail(err)
			known[one.Path], err = (&types.Config{Importer: known, Sizes: &types.StdSizes{WordSize: size.bytes, MaxAlign: size.bytes}}).Check(one.Path, d.set, []*ast.File{file}, nil)
			fail(err)
		}
		d.worlds = append(d.worlds, known)
	}
	own, _, _ := d.checked(d.own, 0)
	known := d.worlds[0]
	all := worlds.Packages{profile.ClientPath: own}
	for path, pack := range known {
		all[path] = pack
	}
	d.parts = partsOf(d.own)
	d.maker = &maker{Generator: generator.NewGenerator(given.Seed, all, own)}
	d.maker.Depth = given.Depth
	for _, imported := range own.Imports() {
		d.maker.outer = append(d.maker.outer, generator.Exported(imported)...)
	}
	for _, name := range own.Scope().Names() {
		if name != "_" {
			d.maker.outer = append(d.maker.outer, generator.Known{Name: name, Object: own.Scope().Lookup(name)})
		}
	}
	return d
}

// checked types a client's text on the number of a size; without a package where it can't be parsed.
func (d *drawer) checked(text string, size int) (*types.Package, answer, bool) {
	return d.checkedFiles(map[string]string{"c.go": text}, size)
}

func (d *drawer) checkedFiles(texts map[string]string, size int) (*types.Package, answer, bool) {
	set := token.NewFileSet()
	var files []*ast.File
	for _, name := range sortedNames(texts) {
		file, err := parser.ParseFile(set, name, texts[name], parser.SkipObjectResolution)
		if err != nil {
			return nil, answer{Line: "refused", Said: []string{err.Error()}}, false
		}
		files = append(files, file)
	}
	info := newInfo()
	var errors []types.Error
	pack, failed := d.tried(d.settings(size, &errors), set, files, info)
	if failed {
		return nil, answer{Line: "failed"}, false
	}
	found := answered(set, sizes[size].platform, files, pack, info, errors)
	if class := taken(files, info, errors); class != "" {
		errors, info = nil, newInfo()
		if again, failed := d.tried(d.settings(size, &errors), set, files, info); !failed {
			asked := answered(set, sizes[size].platform, files, again, info, errors)
			found.Else = append(append(found.Else, other{asked.Line, class}), asked.Else...)
		}
	}
	return pack, found, true
}

func newInfo() *types.Info {
	return &types.Info{
		Types: map[ast.Expr]types.TypeAndValue{}, Defs: map[*ast.Ident]types.Object{}, Uses: map[*ast.Ident]types.Object{}, Implicits: map[ast.Node]types.Object{},
	}
}

// settings are those of the checker for a size, which gathers errors.
func (d *drawer) settings(size int, errors *[]types.Error) *types.Config {
	return &types.Config{Importer: d.worlds[size], Sizes: &types.StdSizes{WordSize: sizes[size].bytes, MaxAlign: sizes[size].bytes}, Error: func(err error) {
		*errors = append(*errors, err.(types.Error))
	}}
}

// tried guards against a checker that fails by itself.
func (d *drawer) tried(settings *types.Config, set *token.FileSet, files []*ast.File, info *types.Info) (pack *types.Package, failed bool) {
	defer func() {
		if fault := recover(); fault != nil {
			failed = true
		}
	}()
	pack, _ = settings.Check(profile.ClientPath, set, files, info)
	return pack, false
}

// body draws a function.
func (d *drawer) body(depth int) string {
	d.number++
	m := d.maker
	m.scopes, m.count = nil, 0
	m.open()
	first, second, result := m.Any(), m.Any(), m.Any()
	m.declare("a", first)
	m.declare("b", second)
	results := []types.Type{result}
	text := fmt.Sprintf("func f%d(a %s, b %s) %s {\n", d.number, generator.Written(first), generator.Written(second), generator.Written(result))
	text += m.list(depth, results) + m.returns(depth-1, results) + "\n}\n"
	m.close()
	return text
}

// A part is a declaration of the client's own: the text, the names that it declares or is a method of, and those that stand in it.
type part struct {
	text        string
	names, uses map[string]bool
}

func identifiers(tree ast.Node) map[string]bool {
	found := map[string]bool{}
	ast.Inspect(tree, func(node ast.Node) bool {
		if name, is := node.(*ast.Ident); is {
			found[name.Name] = true
		}
		return true
	})
	return found
}

// partsOf are the parts of a text; the first is what stands before the declarations.
func partsOf(text string) (found []part) {
	set := token.NewFileSet()
	file, err := parser.ParseFile(set, "", text, parser.SkipObjectResolution)
	fail(err)
	offset := func(at token.Pos) int { return set.File(file.Pos()).Offset(at) }
	add := func(tree ast.Node, word string, names ...*ast.Ident) {
		one := part{word + text[offset(tree.Pos()):offset(tree.End())] + "\n", map[string]bool{}, identifiers(tree)}
		for _, name := range names {
			one.names[name.Name] = true
		}
		found = append(found, one)
	}
	end := 0
	for _, decl := range file.Decls {
		group, is := decl.(*ast.GenDecl)
		switch {
		case !is && decl.(*ast.FuncDecl).Recv != nil:
			for name := range identifiers(decl.(*ast.FuncDecl).Recv) {
				add(decl, "", ast.NewIdent(name))
			}
		case !is:
			add(decl, "", decl.(*ast.FuncDecl).Name)
		case group.Tok == token.IMPORT:
			end = offset(group.End())
		case group.Tok == token.CONST:
			var all []*ast.Ident
			for _, spec := range group.Specs {
				all = append(all, names(spec)...)
			}
			add(decl, "", all...)
		default:
			for _, spec := range group.Specs {
				add(spec, group.Tok.String()+" ", names(spec)...)
			}
		}
	}
	return append([]part{{text: text[:end] + "\n"}}, found...)
}

// around is a client of a text and those of its own declarations to which names in it lead.
func (d *drawer) around(text string) string {
	_, file, is := parsed(text)
	if !is {
		return d.own + text
	}
	known, taken := identifiers(file), map[int]bool{0: true}
	for changed := true; changed; {
		changed = false
		for i, one := range d.parts {
			if taken[i] {
				continue
			}
			for name := range one.names {
				taken[i] = taken[i] || known[name]
			}
			for name := range one.uses {
				known[name] = known[name] || taken[i]
			}
			changed = changed || taken[i]
		}
	}
	whole := ""
	for i, one := range d.parts {
		if taken[i] {
			whole += one.text
		}
	}
	return whole + text
}

// faults are the places of errors that Go's checker finds in each of some functions, and whether they have something of a class of differences.
func (d *drawer) faults(texts []string, size int) (at [][]token.Position, differs []bool) {
	at, differs = make([][]token.Position, len(texts)), make([]bool, len(texts))
	ends, whole := []int{strings.Count(d.own, "\n")}, d.own
	for _, text := range texts {
		whole += text
		ends = append(ends, ends[len(ends)-1]+strings.Count(text, "\n"))
	}
	note := func(place token.Position, differ bool) {
		for i := range texts {
			if ends[i] < place.Line && place.Line <= ends[i+1] {
				place.Line -= ends[i]
				if differ {
					differs[i] = true
				} else {
					at[i] = append(at[i], place)
				}
				return
			}
		}
	}
	set := token.NewFileSet()
	file, err := parser.ParseFile(set, "c.go", whole, parser.SkipObjectResolution)
	fail(err)
	info := newInfo()
	var errors []types.Error
	if _, failed := d.tried(d.settings(size, &errors), set, []*ast.File{file}, info); failed {
		for i := range texts {
			differs[i] = true
		}
		return at, differs
	}
	for _, each := range errors {
		if !profile.LeftOut(each.Msg) {
			note(set.Position(each.Pos), false)
		}
	}
	for _, each := range differing(&survey{files: []*ast.File{file}, info: info}) {
		note(set.Position(each), true)
	}
	return at, differs
}

// mended are drawn functions without the statements in which Go's checker finds an error; those that can't be had so are left out.
func (d *drawer) mended(texts []string) (found []string) {
	for tries := 0; tries < 12 && len(texts) > 0; tries++ {
		at, differs := d.faults(texts, 0)
		var left []string
		for i, text := range texts {
			if differs[i] {
				continue
			}
			if len(at[i]) == 0 {
				found = append(found, text)
			} else if less, is := without(text, at[i]); is {
				left = append(left, less)
			}
		}
		texts = left
	}
	return found
}

// draw makes clients until the number of bodies is had: half of them together without a fault, and each other by itself with one.
func (d *drawer) draw(given input) {
	d.maker.see()
	for made := 0; made < given.Count; {
		var drawn []string
		for len(drawn) < given.Together {
			if text := d.body(2 + d.maker.Intn(given.Depth-1)); isFunction(text) {
				drawn = append(drawn, text)
			}
		}
		texts := d.mended(drawn)
		var wide []string
		narrow, _ := d.faults(texts, 1)
		for i, text := range texts {
			if len(narrow[i]) > 0 {
				d.tell(d.around(text), text, true, 1)
			} else {
				wide = append(wide, text)
			}
		}
		if len(wide) > 0 {
			d.tell(d.own+strings.Join(wide, ""), strings.Join(wide, ""), false, len(wide))
		}
		made += len(texts)
		waiting := append([]string{}, texts...)
		for tries := 0; tries < 8 && len(waiting) > 0; tries++ {
			var spoiled, from []string
			for _, text := range waiting {
				if other := d.spoiled(text); isFunction(other) {
					spoiled, from = append(spoiled, other), append(from, text)
				}
			}
			at, differs := d.faults(spoiled, 0)
			waiting = nil
			for i, text := range spoiled {
				if len(at[i]) > 0 || differs[i] || tries == 7 {
					made++
					d.tell(d.around(text), text, true, 1)
				} else {
					waiting = append(waiting, from[i])
				}
			}
		}
	}
}

func isFunction(text string) bool {
	_, file, is := parsed(text)
	return is && len(file.Decls) == 1
}

func (d *drawer) tell(text, own string, faulty bool, bodies int) {
	one := told{Text: text, Own: own, Faulty: faulty, Bodies: bodies}
	for size := range sizes {
		_, found, _ := d.checked(one.Text, size)
		one.Answers = append(one.Answers, found)
	}
	if one.Again = shuffled(d.again, map[string]string{"c.go": one.Text}); one.Again != nil {
		for size := range sizes {
			_, found, _ := d.checkedFiles(one.Again.Files, size)
			one.Again.Answers = append(one.Again.Answers, found)
		}
	}
	tell(one)
}
