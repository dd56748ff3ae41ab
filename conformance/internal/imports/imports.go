package imports

import (
	"go/ast"
	"go/token"
)

// KeepImports leaves only those imports of a file that are kept, and no group without one.
func KeepImports(file *ast.File, isKept func(*ast.ImportSpec) bool) {
	var decls []ast.Decl
	for _, decl := range file.Decls {
		group, is := decl.(*ast.GenDecl)
		if !is || group.Tok != token.IMPORT {
			decls = append(decls, decl)
			continue
		}
		copied := *group
		copied.Specs = nil
		for _, spec := range group.Specs {
			if isKept(spec.(*ast.ImportSpec)) {
				copied.Specs = append(copied.Specs, spec)
			}
		}
		if len(copied.Specs) > 0 {
			decls = append(decls, &copied)
		}
	}
	file.Decls = decls
}
