package typed

import (
	"go/ast"
	"go/parser"
	"go/token"
	"go/types"
	"path/filepath"
	"sort"

	"apigate/internal/profile"
	"apigate/internal/trees"
)

// Client reads and types the package in a folder over the world, with the bodies of its functions, as apigate's mode vet does. It may import
// the packages of the module, and is nil where no file of it remains.
func (w *World) Client(folder string) *Package {
	one := &Package{Path: profile.ClientPath, Folder: folder}
	for _, name := range w.chosen(folder) {
		file, err := parser.ParseFile(w.Set, name, nil, parser.ParseComments|parser.SkipObjectResolution)
		if file != nil && !trees.ImportsC(file) {
			one.Files = append(one.Files, &File{filepath.Base(name), file, err})
		}
	}
	if len(one.Files) == 0 {
		return nil
	}
	var files []*ast.File
	for _, file := range one.Files {
		files = append(files, file.Tree)
	}
	one.Info = &types.Info{
		Types: map[ast.Expr]types.TypeAndValue{}, Defs: map[*ast.Ident]types.Object{}, Uses: map[*ast.Ident]types.Object{},
		Implicits: map[ast.Node]types.Object{},
	}
	settings := types.Config{Importer: w, Sizes: w.Platform.Sizes(), FakeImportC: true, Error: func(err error) {
		if said, is := err.(types.Error); is {
			one.Faults = append(one.Faults, Fault{said.Pos, said.Msg})
		}
	}}
	one.Types, _ = settings.Check(one.Path, w.Set, files, one.Info)
	sort.SliceStable(one.Faults, func(i, j int) bool { return one.Faults[i].Pos < one.Faults[j].Pos })
	return one
}

// Hard are the faults of a client by the rules that apigate looks at too.
func (one *Package) Hard() (found []Fault) {
	for _, fault := range one.Faults {
		if !profile.LeftOut(fault.Message) {
			found = append(found, fault)
		}
	}
	return found
}

// In says whether a place is in a node.
func In(node ast.Node, at token.Pos) bool { return node.Pos() <= at && at < node.End() }
