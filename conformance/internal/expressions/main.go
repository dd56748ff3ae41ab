// Asks Go's type checker what expressions are. It reads as JSON sources of packages, the last of which is the client's,
// and a seed, and makes expressions that stand where the client has the statement `here`. It prints lines with a word and
// a tab before: `world`, the packages before the client; `place`, the number of a place and what is known there; and for
// each expression `ask`, its place, the answers on 64 bits, on 32 bits and on 64 bits in a client of the profile, and the
// classes of differences of each, with semicolons between, then Go's errors and the expression, all parted by tabs.
package main

import (
	"bufio"
	"encoding/json"
	"fmt"
	"go/ast"
	"go/parser"
	"go/token"
	"go/types"
	"os"
	"strconv"
	"strings"

	"apigate/conformance/internal/differences"
	"apigate/conformance/internal/generator"
	"apigate/internal/profile"
	"apigate/internal/worlds"
)

type input struct {
	Packages []struct{ Path, Source string }
	Seed     int64
	Count    int
	Depth    int
	Texts    []struct {
		Place int
		Text  string
	}
}

// place is where expressions stand: the block that has them, and the value of iota there, or -1.
type place struct {
	block *ast.BlockStmt
	own   int
	iota  int
	known []generator.Known
}

// asked is an expression, with what each word size says of it, and whether a client of the profile hasn't one of its steps.
type asked struct {
	place   int
	text    string
	tree    ast.Expr
	errors  []string
	answers []string
	classes []string
	barred  bool
}

var (
	out   = bufio.NewWriter(os.Stdout)
	files = token.NewFileSet()
)

func fail(err error) {
	if err != nil {
		panic(err)
	}
}

// answer is what the checker has noted of an expression, or untyped.
func answer(tree ast.Expr, info *types.Info) string {
	noted, is := info.Types[tree]
	if !is || noted.Type == types.Typ[types.Invalid] && !noted.IsBuiltin() {
		return "untyped"
	}
	switch {
	case noted.IsVoid():
		return "no-value"
	case noted.IsBuiltin():
		name := profile.Unparen(tree).(*ast.Ident).Name
		return "builtin " + strings.ToUpper(name[:1]) + name[1:]
	case noted.IsType():
		return "type " + worlds.Term(noted.Type)
	case noted.IsNil():
		return "nil"
	case noted.Value != nil:
		if basic, is := noted.Type.Underlying().(*types.Basic); is && basic.Info()&(types.IsFloat|types.IsComplex) != 0 {
			if basic.Info()&types.IsUntyped != 0 {
				return "untyped"
			}
			return "value " + worlds.Term(noted.Type)
		}
		return "constant " + worlds.ConstantOf(noted.Type) + " " + worlds.Value(noted.Value)
	}
	if tuple, is := noted.Type.(*types.Tuple); is {
		text := "tuple"
		for i := 0; i < tuple.Len(); i++ {
			text += " " + worlds.Term(tuple.At(i).Type())
		}
		return text
	}
	word := "value "
	if noted.Addressable() {
		word = "variable "
	} else if noted.Assignable() {
		word = "map-element "
	}
	return word + worlds.ConstantOf(noted.Type)
}

// usage is what the checker says of a statement that is an expression and not a call.
func usage(tree ast.Expr, info *types.Info) string {
	noted := info.Types[tree]
	switch {
	case noted.IsBuiltin():
		return " must be called"
	case noted.IsType():
		return " is not an expression"
	}
	return " is not used"
}

// faults are the errors of an expression but for its use as a statement.
func faults(one *asked, info *types.Info) []string {
	word := usage(one.tree, info)
	for i := len(one.errors) - 1; i >= 0; i-- {
		if strings.HasSuffix(one.errors[i], word) {
			return append(append([]string{}, one.errors[:i]...), one.errors[i+1:]...)
		}
	}
	return one.errors
}

func classes(one *asked, info *types.Info, left []string) string {
	var found []string
	add := func(class string) {
		for _, known := range found {
			if known == class {
				return
			}
		}
		found = append(found, class)
	}
	if channel, is := one.tree.(*ast.ChanType); is && channel.Dir == ast.RECV {
		add(differences.Unwritten)
	}
	ast.Inspect(one.tree, func(node ast.Node) bool {
		if class := differences.OfNode(node, info); class != "" {
			add(class)
		}
		if !differences.IsWritten(node) {
			add(differences.Unwritten)
		}
		return true
	})
	for class, words := range map[string][]string{
		differences.Twice:   {"duplicate key", "duplicate index"},
		differences.Besides: {"invalid map key type", "incomparable map key type", "redeclared", "duplicate method", "embedded field type", "invalid recursive type", "other declaration"},
	} {
		all := len(left) > 0
		for _, fault := range left {
			any := false
			for _, word := range words {
				any = any || strings.Contains(fault, word)
			}
			all = all && any
		}
		if all {
			add(class)
		}
	}
	return strings.Join(found, ";")
}

func isHere(statement ast.Stmt) bool {
	alone, is := statement.(*ast.ExprStmt)
	if !is {
		return false
	}
	name, is := alone.X.(*ast.Ident)
	return is && name.Name == "here"
}

// places are where the client has the statement here, which is taken out.
func places(client *ast.File) []*place {
	var found []*place
	for _, declaration := range client.Decls {
		number := -1
		if group, is := declaration.(*ast.GenDecl); is && group.Tok == token.CONST {
			number = 0
		}
		ast.Inspect(declaration, func(node ast.Node) bool {
			if _, is := node.(*ast.ValueSpec); is && number >= 0 {
				number++
			}
			block, is := node.(*ast.BlockStmt)
			if is && len(block.List) > 0 && isHere(block.List[len(block.List)-1]) {
				block.List = block.List[:len(block.List)-1]
				found = append(found, &place{block: block, own: len(block.List), iota: number - 1})
			}
			return true
		})
	}
	for _, one := range found {
		if one.iota < -1 {
			one.iota = -1
		}
	}
	return found
}

// checked types all packages, and hands each error of an expression to it.
func checked(trees []*ast.File, paths []string, bits int64, all []*asked) (worlds.Packages, *types.Info) {
	known := worlds.Packages{}
	info := &types.Info{Types: map[ast.Expr]types.TypeAndValue{}, Uses: map[*ast.Ident]types.Object{}, Scopes: map[ast.Node]*types.Scope{}}
	for i, tree := range trees {
		config := types.Config{
			Importer: known,
			Sizes:    &types.StdSizes{WordSize: bits / 8, MaxAlign: bits / 8},
			Error: func(err error) {
				one := err.(types.Error)
				name := files.Position(one.Pos).Filename
				if !strings.HasPrefix(name, "expression ") {
					if !one.Soft && !strings.Contains(one.Msg, "is not used") && !strings.Contains(one.Msg, "not constant") {
						panic(err)
					}
					return
				}
				number, err := strconv.Atoi(name[len("expression "):])
				fail(err)
				all[number].errors = append(all[number].errors, strings.Join(strings.Fields(one.Msg), " "))
			},
		}
		pack, _ := config.Check(paths[i], files, []*ast.File{tree}, info)
		known[paths[i]] = pack
	}
	return known, info
}

// scopes are those around a block inside of the package's, the innermost first.
func scopes(block *ast.BlockStmt, pack *types.Package, info *types.Info) []*types.Scope {
	var found []*types.Scope
	var within func(scope *types.Scope) bool
	within = func(scope *types.Scope) bool {
		for i := 0; i < scope.NumChildren(); i++ {
			if within(scope.Child(i)) {
				found = append(found, scope.Child(i))
				return true
			}
		}
		return scope == info.Scopes[block]
	}
	file := pack.Scope().Child(0)
	within(file)
	if inner := info.Scopes[block]; inner == nil {
		// the block of a function has the scope of the function's type, which the position tells
		inner = file.Innermost(block.Rbrace)
		for scope := inner; scope != nil && scope != file; scope = scope.Parent() {
			found = append(found, scope)
		}
	}
	return found
}

// tell prints what is known at a place.
func tell(number int, one *place, client *types.Package, info *types.Info) {
	line := func(text string) { fmt.Fprintf(out, "place\t%d\t%s\n", number, text) }
	for _, imported := range client.Imports() {
		line("import 0 " + imported.Name() + " " + imported.Path())
	}
	for _, name := range client.Scope().Names() {
		if name != "_" {
			line(worlds.Entity("", client.Scope().Lookup(name)))
		}
	}
	if one.iota >= 0 {
		line("iota " + strconv.Itoa(one.iota))
	}
	around := scopes(one.block, client, info)
	for i := len(around) - 1; i >= 0; i-- {
		if around[i].Len() == 0 {
			continue
		}
		line("open")
		for _, name := range around[i].Names() {
			line(worlds.Entity("local-", around[i].Lookup(name)))
		}
	}
}

// visible are the names that expressions at a place may have.
func visible(one *place, client *types.Package, info *types.Info) []generator.Known {
	var all []generator.Known
	for _, imported := range client.Imports() {
		all = append(all, generator.Exported(imported)...)
	}
	around := append(scopes(one.block, client, info), client.Scope())
	seen := map[string]bool{}
	for _, scope := range around {
		for _, name := range scope.Names() {
			if !seen[name] && name != "_" && !strings.HasPrefix(name, "place") {
				all = append(all, generator.Known{Name: name, Object: scope.Lookup(name)})
			}
			seen[name] = true
		}
	}
	return all
}

// answerSome asks the checker of some questions together. Where that fails by itself, it asks each half of them.
func answerSome(trees []*ast.File, paths []string, bits int64, where []*place, all []*asked, from, to int) {
	some := all[from:to]
	for _, one := range where {
		one.block.List = one.block.List[:one.own]
	}
	for _, one := range some {
		one.errors = nil
		if one.tree != nil {
			block := where[one.place].block
			block.List = append(block.List, &ast.ExprStmt{X: one.tree})
		}
	}
	info, told := tried(trees, paths, bits, all)
	if told && len(some) == 1 {
		some[0].answers, some[0].classes = append(some[0].answers, "untyped"), append(some[0].classes, differences.Failing)
		return
	}
	if told {
		middle := from + (to-from)/2
		answerSome(trees, paths, bits, where, all, from, middle)
		answerSome(trees, paths, bits, where, all, middle, to)
		return
	}
	for _, one := range some {
		if one.tree == nil {
			one.answers, one.classes = append(one.answers, "no expression"), append(one.classes, differences.Unwritten)
			continue
		}
		left, told := faults(one, info), "untyped"
		if len(left) == 0 {
			told = answer(one.tree, info)
		}
		one.answers, one.classes = append(one.answers, told), append(one.classes, classes(one, info, left))
		one.errors = left
		if len(left) == 0 {
			one.barred = profile.IsBarred(one.tree, info)
		}
	}
}

// tried is what the checker notes, and whether it failed by itself.
func tried(trees []*ast.File, paths []string, bits int64, all []*asked) (info *types.Info, failed bool) {
	defer func() {
		if fault := recover(); fault != nil {
			failed = true
		}
	}()
	_, info = checked(trees, paths, bits, all)
	return info, false
}

func main() {
	var given input
	fail(json.NewDecoder(os.Stdin).Decode(&given))
	var trees []*ast.File
	var paths []string
	for _, one := range given.Packages {
		tree, err := parser.ParseFile(files, one.Path, one.Source, 0)
		fail(err)
		trees, paths = append(trees, tree), append(paths, one.Path)
	}
	where := places(trees[len(trees)-1])
	all, info := checked(trees, paths, 64, nil)
	client := all[profile.ClientPath]
	for _, path := range paths[:len(paths)-1] {
		pack := all[path]
		fmt.Fprintf(out, "world\tpackage %s %s\n", path, pack.Name())
		for _, name := range pack.Scope().Names() {
			fmt.Fprintf(out, "world\t%s\n", worlds.Entity("", pack.Scope().Lookup(name)))
		}
		fmt.Fprintf(out, "world\tend\n")
	}
	for i, one := range where {
		tell(i, one, client, info)
		one.known = visible(one, client, info)
	}
	g := generator.NewGenerator(given.Seed, all, client)
	var questions []*asked
	for _, one := range given.Texts {
		questions = append(questions, &asked{place: one.Place, text: one.Text})
	}
	for len(questions) < given.Count {
		number := g.Intn(len(where))
		g.Known = where[number].known
		questions = append(questions, &asked{place: number, text: g.Next(given.Depth)})
	}
	for i, one := range questions {
		tree, err := parser.ParseExprFrom(files, "expression "+strconv.Itoa(i), one.text, 0)
		if err == nil {
			one.tree = tree
		}
	}
	for _, bits := range []int64{64, 32} {
		for at := 0; at < len(questions); at += 2000 {
			end := at + 2000
			if end > len(questions) {
				end = len(questions)
			}
			answerSome(trees, paths, bits, where, questions, at, end)
		}
	}
	for _, one := range questions {
		in := one.answers[0]
		if one.barred {
			in = "untyped"
		}
		words := []string{"ask", strconv.Itoa(one.place), one.answers[0], one.answers[1], in, one.classes[0], one.classes[1], one.classes[0], strings.Join(one.errors, "; "), one.text}
		fmt.Fprintln(out, strings.Join(words, "\t"))
	}
	out.Flush()
}
