// Which imports of a file are kept: those that are used outside of the bodies of functions.
package main

import (
	"go/ast"
	"go/token"
	"strconv"

	"apigate/internal/trees"
)

// dropValues drops the values of variables that have a written type: nothing stands on them.
func dropValues(file *ast.File) {
	for _, decl := range file.Decls {
		if group, is := decl.(*ast.GenDecl); is && group.Tok == token.VAR {
			for _, spec := range group.Specs {
				if spec, is := spec.(*ast.ValueSpec); is && spec.Type != nil {
					spec.Values = nil
				}
			}
		}
	}
}

// keepUsed leaves only those imports in a file that are used; in a client, which is read whole, all.
func (l *loader) keepUsed(file *ast.File, from seeker, whole bool) {
	used := trees.Qualifiers(file, whole)
	isUsed := func(spec *ast.ImportSpec) bool {
		path, err := strconv.Unquote(spec.Path.Value)
		switch {
		case err != nil:
			return false
		case whole || spec.Name != nil && spec.Name.Name == ".":
			return true
		case spec.Name != nil:
			return used[spec.Name.Name]
		case path == "unsafe":
			return used[path]
		}
		if at, is := l.locate(path, from); is {
			if name := l.nameIn(at.folder, at.seeker.inside); name != "" {
				return used[name]
			}
		}
		return used[trees.AssumedName(path)]
	}
	kept := file.Imports[:0]
	for _, spec := range file.Imports {
		if isUsed(spec) {
			kept = append(kept, spec)
		}
	}
	file.Imports = kept
	decls := file.Decls[:0]
	for _, decl := range file.Decls {
		if group, is := decl.(*ast.GenDecl); !is || group.Tok != token.IMPORT {
			decls = append(decls, decl)
		} else if group.Specs = among(group.Specs, kept); len(group.Specs) > 0 {
			decls = append(decls, decl)
		}
	}
	file.Decls = decls
}

// among are those specs of a group that are kept.
func among(specs []ast.Spec, kept []*ast.ImportSpec) []ast.Spec {
	found := specs[:0]
	for _, spec := range specs {
		for _, one := range kept {
			if spec == ast.Spec(one) {
				found = append(found, spec)
			}
		}
	}
	return found
}
