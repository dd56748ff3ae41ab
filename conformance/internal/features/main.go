// Tells what features packages have. It reads as JSON worlds, each a list of packages as Go source, those first that others
// import. It prints lines with a word and a tab before: `world`, a line of a package in the form that the library worlds
// reads; `feature`, a feature line, written from Go's package go/types by the rules of its cmd/api, in order, and at the end of a
// world `end`.
package main

import (
	"bufio"
	"encoding/json"
	"fmt"
	"go/ast"
	"go/parser"
	"go/token"
	"go/types"
	"os"
	"sort"

	"apigate/internal/featurelines"
	"apigate/internal/worlds"
)

type source struct{ Path, Source string }

func fail(err error) {
	if err != nil {
		panic(err)
	}
}

func tell(out *bufio.Writer, sources []source) {
	all, files := worlds.Packages{}, token.NewFileSet()
	settings := types.Config{Importer: all, IgnoreFuncBodies: true, Sizes: types.SizesFor("gc", "amd64")}
	var features []string
	for _, one := range sources {
		tree, err := parser.ParseFile(files, one.Path, one.Source, 0)
		fail(err)
		pack, err := settings.Check(one.Path, files, []*ast.File{tree}, nil)
		fail(err)
		all[one.Path] = pack
		fmt.Fprintf(out, "world\tpackage %s %s\n", one.Path, pack.Name())
		for _, name := range pack.Scope().Names() {
			object := pack.Scope().Lookup(name)
			fmt.Fprintf(out, "world\t%s\n", worlds.Entity("", object))
			if object.Exported() {
				for _, line := range featurelines.Lines(pack, object) {
					features = append(features, "pkg "+one.Path+", "+line)
				}
			}
		}
		fmt.Fprintf(out, "world\tend\n")
	}
	sort.Strings(features)
	for _, line := range features {
		fmt.Fprintf(out, "feature\t%s\n", line)
	}
	fmt.Fprintf(out, "end\t\n")
}

func main() {
	var worlds [][]source
	fail(json.NewDecoder(os.Stdin).Decode(&worlds))
	out := bufio.NewWriter(os.Stdout)
	for _, one := range worlds {
		tell(out, one)
	}
	out.Flush()
}
