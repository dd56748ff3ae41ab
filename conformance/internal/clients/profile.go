// Whether a client is one of the profile: each of its steps is looked at, as Go's type checker types it.
package main

import (
	"go/ast"
	"go/constant"
	"go/token"
	"go/types"
	"math/big"

	"apigate/conformance/internal/differences"
	"apigate/internal/profile"
)

func isWide(value constant.Value) bool {
	if value == nil || value.Kind() != constant.Int {
		return false
	}
	exact, is := constant.Val(value).(*big.Int)
	return is && exact.BitLen() > 127
}

func isFraction(t types.Type) bool {
	basic, is := t.Underlying().(*types.Basic)
	return is && basic.Info()&(types.IsFloat|types.IsComplex) != 0
}

// valued names what constants or constraints of a node a client of the profile hasn't.
func valued(node ast.Node, info *types.Info) string {
	switch node := node.(type) {
	case *ast.BasicLit:
		if node.Kind == token.FLOAT || node.Kind == token.IMAG {
			return "no constant is a fraction"
		}
	case *ast.BinaryExpr:
		if differences.OfNode(node, info) == differences.Shifted {
			return "no untyped constant is shifted by a count that is no constant"
		}
	case *ast.InterfaceType:
		for _, field := range node.Methods.List {
			if of := info.Types[field.Type].Type; len(field.Names) == 0 && of != nil && !types.IsInterface(of) {
				return "no interface is a constraint"
			}
		}
	case *ast.Ident:
		if object, is := info.Defs[node].(*types.Const); is && isFraction(object.Type()) {
			return "no constant is a fraction"
		}
	}
	if tree, is := node.(ast.Expr); is {
		if typed, is := info.Types[tree]; is && isWide(typed.Value) {
			return "no constant has more than 128 bits"
		}
	}
	return ""
}

// outside names the steps of a typed declaration that a client of the profile hasn't, and then what constants it hasn't.
func outside(decl ast.Decl, info *types.Info) (found []string) {
	for _, step := range profile.Outside(decl, info) {
		found = append(found, step.Rule)
	}
	return append(found, unvalued(decl, info)...)
}

// unvalued names the constants and constraints of a typed declaration or file that a client of the profile hasn't.
func unvalued(tree ast.Node, info *types.Info) (found []string) {
	ast.Inspect(tree, func(node ast.Node) bool {
		if node != nil {
			if why := valued(node, info); why != "" {
				found = append(found, why)
			}
		}
		return true
	})
	return found
}
