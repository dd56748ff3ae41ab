// Classes of differences between Go's type checker and this gate over expressions that are on purpose.
package differences

import (
	"go/ast"
	"go/constant"
	"go/token"
	"go/types"

	"apigate/internal/profile"
)

const (
	Past      = "a constant past 128 bits"
	Inexact   = "a constant of a float or complex type"
	Shifted   = "an untyped constant shifted by what is no constant"
	Twice     = "a constant key that stands twice"
	Unwritten = "a grammar that differs"
	Besides   = "what a type form is asked besides"
	Far       = "a shift by more than 1,074"
	spread    = "the results of a call as the arguments of a builtin function"
	Failing   = "an expression over which Go's checker itself fails"
)

// ofUntyped says whether an expression is by its form an untyped constant.
func ofUntyped(tree ast.Expr, info *types.Info) bool {
	switch tree := tree.(type) {
	case *ast.BasicLit:
		return true
	case *ast.ParenExpr:
		return ofUntyped(tree.X, info)
	case *ast.UnaryExpr:
		return ofUntyped(tree.X, info)
	case *ast.BinaryExpr:
		return ofUntyped(tree.X, info) && (tree.Op == token.SHL || tree.Op == token.SHR || ofUntyped(tree.Y, info))
	case *ast.SelectorExpr:
		return ofUntyped(tree.Sel, info)
	case *ast.Ident:
		object, is := info.Uses[tree].(*types.Const)
		if !is {
			return false
		}
		basic, is := object.Type().(*types.Basic)
		return is && basic.Info()&types.IsUntyped != 0
	}
	return false
}

func IsPast(v constant.Value) bool {
	if v == nil || v.Kind() == constant.Bool || v.Kind() == constant.String {
		return false
	}
	if v = constant.ToInt(v); v.Kind() != constant.Int {
		return false
	}
	limit := constant.Shift(constant.MakeInt64(1), token.SHL, 127)
	return constant.Compare(v, token.GEQ, limit) || constant.Compare(v, token.LSS, constant.UnaryOp(token.SUB, limit, 0))
}

func IsInexact(t types.Type) bool {
	if t == nil {
		return false
	}
	basic, is := t.Underlying().(*types.Basic)
	return is && basic.Info()&(types.IsFloat|types.IsComplex) != 0
}

// OfNode is the class of difference that a node of an expression is of.
func OfNode(node ast.Node, info *types.Info) string {
	tree, is := node.(ast.Expr)
	if !is {
		return ""
	}
	noted := info.Types[tree]
	switch tree := tree.(type) {
	case *ast.BasicLit:
		if tree.Kind == token.FLOAT || tree.Kind == token.IMAG {
			return Inexact
		}
	case *ast.CallExpr:
		if called := info.Types[tree.Fun]; called.IsType() && len(tree.Args) == 1 {
			if IsInexact(called.Type) && info.Types[tree.Args[0]].Value != nil {
				return Inexact
			}
			from := info.Types[tree.Args[0]].Type
			pointer, points := called.Type.Underlying().(*types.Pointer)
			if from != nil && points {
				_, slices := from.Underlying().(*types.Slice)
				_, arrays := pointer.Elem().Underlying().(*types.Array)
				if slices && arrays {
					return profile.Array
				}
			}
		}
		if len(tree.Args) == 1 && info.Types[tree.Fun].IsBuiltin() {
			if _, is := info.Types[tree.Args[0]].Type.(*types.Tuple); is {
				return spread
			}
		}
	case *ast.BinaryExpr:
		if tree.Op != token.SHL && tree.Op != token.SHR {
			break
		}
		count := info.Types[tree.Y].Value
		if count == nil && ofUntyped(tree.X, info) {
			return Shifted
		}
		if count != nil && count.Kind() == constant.Int && constant.Compare(count, token.GTR, constant.MakeInt64(1074)) {
			return Far
		}
	}
	if lit, is := tree.(*ast.BasicLit); is && lit.Kind == token.INT && IsPast(constant.MakeFromLiteral(lit.Value, token.INT, 0)) || IsPast(noted.Value) {
		return Past
	}
	return ""
}

// IsWritten says whether the grammar of this gate has a type's name, or a receiving channel's type, where it stands.
func IsWritten(node ast.Node) bool {
	long := func(tree ast.Expr) bool {
		selector, is := tree.(*ast.SelectorExpr)
		if !is {
			return false
		}
		_, is = selector.X.(*ast.Ident)
		return !is
	}
	receives := func(tree ast.Expr) bool {
		channel, is := tree.(*ast.ChanType)
		return is && channel.Dir == ast.RECV
	}
	switch node := node.(type) {
	case *ast.CompositeLit:
		return !long(node.Type)
	case *ast.ArrayType:
		return !long(node.Elt)
	case *ast.MapType:
		return !long(node.Key) && !long(node.Value)
	case *ast.ChanType:
		return !long(node.Value)
	case *ast.Field:
		return !long(node.Type)
	case *ast.Ellipsis:
		return !long(node.Elt)
	case *ast.TypeAssertExpr:
		return !long(node.Type)
	case *ast.StarExpr:
		return !receives(node.X)
	case *ast.UnaryExpr:
		return !receives(node.X)
	case *ast.SelectorExpr:
		_, is := node.X.(*ast.ChanType)
		return !is
	case *ast.IndexListExpr:
		return false
	}
	return true
}
