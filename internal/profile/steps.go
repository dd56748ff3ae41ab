// The steps of an expression that a client of the profile hasn't.
package profile

import (
	"go/ast"
	"go/token"
	"go/types"
)

// IsMoved says whether a value is moved from its type to another by a step that a client of the profile hasn't.
func IsMoved(tree ast.Expr, to types.Type, info *types.Info) bool {
	from := info.Types[tree].Type
	return from != nil && to != nil && BarredAssignment(ClientPath, from, to) != "-"
}

// InCall says so of the arguments of a call.
func InCall(call *ast.CallExpr, info *types.Info) bool {
	called := info.Types[call.Fun]
	if called.IsType() {
		from := info.Types[call.Args[0]].Type
		return from != nil && BarredConversion(ClientPath, true, from, called.Type) != "-"
	}
	if called.IsBuiltin() {
		name := Unparen(call.Fun).(*ast.Ident).Name
		switch under := info.Types[call.Args[0]].Type.Underlying().(type) {
		case *types.Slice:
			for _, tree := range call.Args[1:] {
				if name == "append" && !call.Ellipsis.IsValid() && IsMoved(tree, under.Elem(), info) {
					return true
				}
			}
		case *types.Map:
			return name == "delete" && IsMoved(call.Args[1], under.Key(), info)
		}
		return false
	}
	signature := called.Type.Underlying().(*types.Signature)
	parameter := func(i int) types.Type {
		last := signature.Params().Len() - 1
		if signature.Variadic() && i >= last && !call.Ellipsis.IsValid() {
			return signature.Params().At(last).Type().(*types.Slice).Elem()
		}
		return signature.Params().At(i).Type()
	}
	if len(call.Args) == 1 {
		if results, is := info.Types[call.Args[0]].Type.(*types.Tuple); is {
			for i := 0; i < results.Len(); i++ {
				if BarredAssignment(ClientPath, results.At(i).Type(), parameter(i)) != "-" {
					return true
				}
			}
			return false
		}
	}
	for i, tree := range call.Args {
		if IsMoved(tree, parameter(i), info) {
			return true
		}
	}
	return false
}

// InLiteral says so of the elements of a composite literal; those of an imported struct aren't given without keys.
func InLiteral(literal *ast.CompositeLit, info *types.Info) bool {
	of := info.Types[literal].Type
	if of == nil {
		// what has no type is told by the checker
		return false
	}
	if pointer, is := of.Underlying().(*types.Pointer); is && literal.Type == nil {
		of = pointer.Elem()
	}
	for i, tree := range literal.Elts {
		pair, keyed := tree.(*ast.KeyValueExpr)
		var element types.Type
		switch under := of.Underlying().(type) {
		case *types.Struct:
			if !keyed {
				if imported(ClientPath, of, false) {
					return true
				}
				element = under.Field(i).Type()
				break
			}
			for i := 0; i < under.NumFields(); i++ {
				if under.Field(i).Name() == pair.Key.(*ast.Ident).Name {
					element = under.Field(i).Type()
				}
			}
		case *types.Map:
			if IsMoved(pair.Key, under.Key(), info) {
				return true
			}
			element = under.Elem()
		case *types.Array:
			element = under.Elem()
		case *types.Slice:
			element = under.Elem()
		}
		if keyed {
			tree = pair.Value
		}
		if IsMoved(tree, element, info) {
			return true
		}
	}
	return false
}

// InComparison says so of both ways in which two values may be compared.
func InComparison(tree *ast.BinaryExpr, info *types.Info) bool {
	left, right := info.Types[tree.X].Type, info.Types[tree.Y].Type
	if tree.Op != token.EQL && tree.Op != token.NEQ || left == nil || right == nil {
		return false
	}
	one := types.AssignableTo(left, right)
	other := types.AssignableTo(right, left)
	return (one || other) && (!one || BarredAssignment(ClientPath, left, right) != "-") && (!other || BarredAssignment(ClientPath, right, left) != "-")
}

// IsBarred says whether a client of the profile hasn't one of the steps of a typed expression.
func IsBarred(tree ast.Expr, info *types.Info) bool {
	found := false
	ast.Inspect(tree, func(node ast.Node) bool {
		switch node := node.(type) {
		case *ast.FuncLit:
			return false
		case *ast.CallExpr:
			found = found || len(node.Args) > 0 && InCall(node, info)
		case *ast.CompositeLit:
			found = found || InLiteral(node, info)
		case *ast.BinaryExpr:
			found = found || InComparison(node, info)
		case *ast.IndexExpr:
			if of := info.Types[node.X].Type; of != nil {
				if under, is := of.Underlying().(*types.Map); is {
					found = found || IsMoved(node.Index, under.Key(), info)
				}
			}
		}
		return !found
	})
	return found
}
