// Go's parser and type checker over the packages of one module, whose files are told line by line as the crate units reads them. It
// prints `typed`, or the first error. Packages stand behind those that they import; bodies aren't looked into.
package main

import (
	"bufio"
	"fmt"
	"go/ast"
	"go/parser"
	"go/token"
	"go/types"
	"os"
	"path"
	"strings"
)

type packages map[string]*types.Package

func (p packages) Import(path string) (*types.Package, error) {
	if p[path] == nil {
		return nil, fmt.Errorf("no package %s", path)
	}
	return p[path], nil
}

func main() {
	lines := bufio.NewReaderSize(os.Stdin, 1<<16)
	texts := map[string]*strings.Builder{}
	var places []string
	var last *strings.Builder
	for {
		line, err := lines.ReadString('\n')
		if err != nil {
			break
		}
		if line[0] == '|' {
			last.WriteString(line[1:])
		} else if word, place, _ := strings.Cut(strings.TrimSpace(line), " "); word == "new" {
			last = &strings.Builder{}
			texts[place] = last
			if strings.HasSuffix(place, ".go") {
				places = append(places, place)
			}
		}
	}
	set, all := token.NewFileSet(), packages{}
	var first error
	settings := types.Config{Importer: all, IgnoreFuncBodies: true, Sizes: types.SizesFor("gc", "amd64"), Error: func(err error) {
		if first == nil {
			first = err
		}
	}}
	for at := 0; at < len(places) && first == nil; {
		folder := path.Dir(places[at])
		var files []*ast.File
		for ; at < len(places) && path.Dir(places[at]) == folder; at++ {
			file, err := parser.ParseFile(set, places[at], texts[places[at]].String(), parser.SkipObjectResolution)
			if err != nil {
				fmt.Println(err)
				return
			}
			files = append(files, file)
		}
		all["m/"+folder], _ = settings.Check("m/"+folder, set, files, nil)
	}
	if first != nil {
		fmt.Println(first)
		return
	}
	fmt.Println("typed")
}
