// Asks Go's type checker how types relate. It reads a world as JSON: sources of packages in the order of
// their imports, and the types, pairs and selectors to ask about. It prints the world and each question in
// the form of the crate relations, a line each, with Go's answer after a tab, and after another tab the step
// that the profile's rules leave out, where Go's answer stands on one.
package main

import (
	"bufio"
	"encoding/json"
	"fmt"
	"go/ast"
	"go/parser"
	"go/token"
	"go/types"
	"os"
	"strings"

	"apigate/internal/profile"
	"apigate/internal/worlds"
)

type input struct {
	Client    string
	Packages  []struct{ Path, Source string }
	Types     []struct{ Path, Name string }
	Pairs     [][2]int
	Selectors []struct{ Path, Name string }
}

var out = bufio.NewWriter(os.Stdout)

// owner is the defined type that a method is declared for, or the word interface.
func owner(f *types.Func) string {
	receiver := f.Type().(*types.Signature).Recv().Type()
	if pointer, is := receiver.(*types.Pointer); is {
		receiver = pointer.Elem()
	}
	if types.IsInterface(receiver) {
		return "interface"
	}
	return worlds.Name(receiver.(*types.Named))
}

// found is what the selector finds. The variable's address is taken, so that a method counts whatever
// its receiver is.
func found(t types.Type, pack *types.Package, name string) string {
	object, index, through := types.LookupFieldOrMethod(t, true, pack, name)
	way := "direct"
	if through {
		way = "through"
	}
	switch object := object.(type) {
	case *types.Var:
		return fmt.Sprintf("field %d %s %s", len(index)-1, way, worlds.Term(object.Type()))
	case *types.Func:
		receiver := "on-value"
		if worlds.OnPointer(object) {
			receiver = "on-pointer"
		}
		return fmt.Sprintf("method %d %s %s %s %s", len(index)-1, way, receiver, owner(object), worlds.Term(object.Type()))
	}
	if index != nil {
		return "ambiguous"
	}
	return "nothing"
}

func methodSet(t types.Type) string {
	set := types.NewMethodSet(t)
	var methods []*types.Func
	for i := 0; i < set.Len(); i++ {
		methods = append(methods, set.At(i).Obj().(*types.Func))
	}
	words := []string{}
	for _, method := range worlds.Ordered(methods) {
		words = append(words, "method:"+worlds.Selector(method.Pkg(), method.Name())+" "+worlds.Term(method.Type()))
	}
	if len(words) == 0 {
		return "empty"
	}
	return strings.Join(words, " ")
}

func tell(question string, answer interface{}, barred string) {
	fmt.Fprintf(out, "%s\t%v\t%s\n", question, answer, barred)
}

func main() {
	var asked input
	if err := json.NewDecoder(os.Stdin).Decode(&asked); err != nil {
		panic(err)
	}
	known := worlds.Packages{}
	files := token.NewFileSet()
	for _, one := range asked.Packages {
		file, err := parser.ParseFile(files, one.Path, one.Source, 0)
		if err != nil {
			panic(err)
		}
		config := types.Config{Importer: known}
		pack, err := config.Check(one.Path, files, []*ast.File{file}, nil)
		if err != nil {
			panic(err)
		}
		known[one.Path] = pack
		for _, name := range pack.Scope().Names() {
			object := pack.Scope().Lookup(name).(*types.TypeName)
			if !object.IsAlias() {
				tell(worlds.Definition(object.Type().(*types.Named)), "", "-")
			}
		}
	}
	var all []types.Type
	for _, one := range asked.Types {
		all = append(all, known[one.Path].Scope().Lookup(one.Name).Type())
	}
	for _, t := range all {
		tell("comparable "+worlds.Term(t), types.Comparable(t), "-")
		tell("method_set "+worlds.Term(t), methodSet(t), "-")
		for _, one := range asked.Selectors {
			pack := known[one.Path]
			tell("find "+worlds.Selector(pack, one.Name)+" "+worlds.Term(t), found(t, pack, one.Name), "-")
		}
	}
	for _, pair := range asked.Pairs {
		from, to := all[pair[0]], all[pair[1]]
		both := worlds.Term(from) + " " + worlds.Term(to)
		tell("identical "+both, types.Identical(from, to), "-")
		tell("implements "+both, profile.Implements(from, to), "-")
		tell("assignable plain "+both, types.AssignableTo(from, to), "-")
		tell("assignable profile "+both, types.AssignableTo(from, to), profile.BarredAssignment(asked.Client, from, to))
		tell("convertible plain "+both, types.ConvertibleTo(from, to), profile.BarredConversion(asked.Client, false, from, to))
		tell("convertible profile "+both, types.ConvertibleTo(from, to), profile.BarredConversion(asked.Client, true, from, to))
	}
	out.Flush()
}
