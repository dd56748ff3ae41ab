// Which imports of a file count: those that are used outside of the bodies of functions.
package trees

import (
	"go/ast"
	"strings"
)

// ImportsC says whether a file imports "C", so that it's none for apigate.
func ImportsC(file *ast.File) bool {
	for _, spec := range file.Imports {
		if spec.Path.Value == `"C"` || spec.Path.Value == "`C`" {
			return true
		}
	}
	return false
}

// Qualifiers are the names that stand before a dot, outside of bodies unless `whole` is said.
func Qualifiers(file *ast.File, whole bool) map[string]bool {
	found := map[string]bool{}
	look := func(node ast.Node) bool {
		switch node := node.(type) {
		case *ast.BlockStmt:
			return whole
		case *ast.SelectorExpr:
			if name, is := node.X.(*ast.Ident); is {
				found[name.Name] = true
			}
		}
		return true
	}
	for _, decl := range file.Decls {
		ast.Inspect(decl, look)
	}
	return found
}

// AssumedName is the name that apigate assumes of a package that isn't found.
func AssumedName(path string) string {
	elements := strings.Split(path, "/")
	last := elements[len(elements)-1]
	if digits := strings.TrimPrefix(last, "v"); len(elements) > 1 && digits != last && digits != "" && strings.Trim(digits, "0123456789") == "" {
		last = elements[len(elements)-2]
	}
	last = strings.TrimPrefix(last, "go-")
	for i := 0; i < len(last); i++ {
		b := last[i]
		if !('a' <= b && b <= 'z' || 'A' <= b && b <= 'Z' || '0' <= b && b <= '9' || b == '_') {
			return last[:i]
		}
	}
	return last
}
