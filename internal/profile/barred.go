// The steps from one type to another that a client of the profile hasn't.
package profile

import (
	"go/ast"
	"go/types"
)

// ClientPath is the path of the client, or of the package that is asked about in its place.
var ClientPath = "-client"

// Unparen is an expression without the parentheses round it.
func Unparen(tree ast.Expr) ast.Expr {
	if within, is := tree.(*ast.ParenExpr); is {
		return Unparen(within.X)
	}
	return tree
}

// Implements is false where the other type isn't an interface, of which Go's function can't be asked.
func Implements(from, to types.Type) bool {
	other, is := to.Underlying().(*types.Interface)
	return is && types.Implements(from, other)
}

// imported says whether a type is defined in another package than the client, over a struct or, where open
// is set, an interface.
func imported(client string, t types.Type, open bool) bool {
	named, is := t.(*types.Named)
	if !is || named.Obj().Pkg() == nil || named.Obj().Pkg().Path() == client {
		return false
	}
	switch named.Underlying().(type) {
	case *types.Struct:
		return true
	case *types.Interface:
		return open
	}
	return false
}

const (
	Assigned  = "no defined struct of another package is assigned by its underlying type"
	Converted = "no defined struct or interface of another package is converted by its underlying type"
	pointed   = "no pointer is converted where a base is a defined struct or interface of another package"
	Array     = "no slice is converted to a pointer to an array"
)

// BarredAssignment is the step that alone makes the assignment, and that a client of the profile hasn't.
func BarredAssignment(client string, from, to types.Type) string {
	if types.AssignableTo(from, to) && !types.Identical(from, to) && !Implements(from, to) && (imported(client, from, false) || imported(client, to, false)) {
		return Assigned
	}
	return "-"
}

// BarredConversion is the same for a conversion.
func BarredConversion(client string, profile bool, from, to types.Type) string {
	if !types.ConvertibleTo(from, to) {
		return "-"
	}
	if _, is := from.Underlying().(*types.Slice); is {
		if pointer, is := to.Underlying().(*types.Pointer); is {
			if _, is := pointer.Elem().Underlying().(*types.Array); is {
				return Array
			}
		}
	}
	if !profile || types.AssignableTo(from, to) && BarredAssignment(client, from, to) == "-" {
		return "-"
	}
	if imported(client, from, true) || imported(client, to, true) {
		return Converted
	}
	left, isLeft := from.(*types.Pointer)
	right, isRight := to.(*types.Pointer)
	if isLeft && isRight && !types.IdenticalIgnoreTags(from, to) && (imported(client, left.Elem(), true) || imported(client, right.Elem(), true)) {
		return pointed
	}
	return "-"
}
