package main

import (
	"go/ast"
	"go/token"
	"math"
)

// nowhere is the place of statements that are all typed.
const nowhere = token.Pos(math.MaxInt32)

// A seeker finds the untyped place of statements by the errors of Go's checker in them. A statement stands in context where those before it in
// its block are typed, and the headers round it; the place is the least start of one in context that isn't typed and holds none that isn't.
type seeker struct {
	errors []token.Pos
	listed []token.Pos // types that a type switch lists a second time, which hides nothing in its clauses
}

// own says whether there is an error in a node, outside of the nodes beside it and of the bodies of function literals.
func (s *seeker) own(node ast.Node, without ...ast.Node) bool {
	if absent(node) {
		return false
	}
	var bodies []ast.Node
	ast.Inspect(node, func(below ast.Node) bool {
		if literal, is := below.(*ast.FuncLit); is {
			bodies = append(bodies, literal.Body)
			return false
		}
		return true
	})
	for _, at := range s.errors {
		if !contains(node, at) {
			continue
		}
		outside := true
		for _, other := range append(bodies, without...) {
			outside = outside && (absent(other) || !contains(other, at))
		}
		if outside {
			return true
		}
	}
	return false
}

func contains(node ast.Node, at token.Pos) bool { return node.Pos() <= at && at < node.End() }

// absent says whether a part of a tree isn't there, of whatever type it is.
func absent(node ast.Node) bool {
	switch node := node.(type) {
	case nil:
		return true
	case *ast.BlockStmt:
		return node == nil
	}
	return false
}

// literals is the least place in the bodies of the function literals of a node.
func (s *seeker) literals(nodes ...ast.Node) token.Pos {
	found := nowhere
	for _, node := range nodes {
		if absent(node) {
			continue
		}
		ast.Inspect(node, func(below ast.Node) bool {
			if literal, is := below.(*ast.FuncLit); is {
				if !s.own(literal.Type.Params) && (literal.Type.Results == nil || !s.own(literal.Type.Results)) {
					found = least(found, s.list(literal.Body.List))
				}
				return false
			}
			return true
		})
	}
	return found
}

func least(one, other token.Pos) token.Pos {
	if other < one {
		return other
	}
	return one
}

// list is the place among the statements of a block: that of the first one with a place.
func (s *seeker) list(statements []ast.Stmt) token.Pos {
	for _, each := range statements {
		if at := s.of(each); at < nowhere {
			return at
		}
	}
	return nowhere
}

// or is the place of what stands inside of a statement, or else that of the statement, where it isn't typed.
func or(inside token.Pos, statement ast.Stmt, failing bool) token.Pos {
	if inside < nowhere || !failing {
		return inside
	}
	return statement.Pos()
}

// header is the place in the parts of a header, and whether it is typed: a statement in it, and expressions behind that.
func (s *seeker) header(init ast.Stmt, nodes ...ast.Node) (inside token.Pos, typed bool) {
	if init != nil {
		if at := s.of(init); at < nowhere {
			return at, false
		}
	}
	inside, typed = s.literals(nodes...), true
	for _, node := range nodes {
		typed = typed && !s.own(node)
	}
	return inside, typed && inside == nowhere
}

// of is the place in a statement, itself included.
func (s *seeker) of(statement ast.Stmt) token.Pos {
	switch it := statement.(type) {
	case *ast.LabeledStmt:
		return s.of(it.Stmt)
	case *ast.BlockStmt:
		return s.list(it.List)
	case *ast.DeclStmt:
		for _, spec := range it.Decl.(*ast.GenDecl).Specs {
			if at := s.literals(spec); at < nowhere {
				return at
			}
			if s.own(spec) {
				return it.Pos()
			}
		}
		return nowhere
	case *ast.IfStmt:
		inside, typed := s.header(it.Init, it.Cond)
		if typed {
			inside = least(inside, s.list(it.Body.List))
			if it.Else != nil {
				inside = least(inside, s.of(it.Else))
			}
		}
		return or(inside, it, !typed)
	case *ast.ForStmt:
		inside, typed := s.header(it.Init, node(it.Cond))
		if typed {
			// what declares isn't a post statement, whatever it declares
			post := nowhere
			if it.Post != nil {
				post = s.of(it.Post)
			}
			define, is := it.Post.(*ast.AssignStmt)
			declares := is && define.Tok == token.DEFINE
			if inside = least(inside, post); post == nowhere && !declares {
				inside = least(inside, s.list(it.Body.List))
			}
			typed = !declares
		}
		return or(inside, it, !typed)
	case *ast.RangeStmt:
		inside, failing := s.literals(node(it.Key), node(it.Value), it.X), s.own(it, it.Body)
		if !failing && inside == nowhere {
			inside = s.list(it.Body.List)
		}
		return or(inside, it, failing)
	case *ast.SwitchStmt:
		return s.ofSwitch(it)
	case *ast.TypeSwitchStmt:
		return s.ofTypeSwitch(it)
	case *ast.SelectStmt:
		inside := nowhere
		for _, each := range it.Body.List {
			clause := each.(*ast.CommClause)
			at := nowhere
			if clause.Comm != nil {
				at = s.of(clause.Comm)
			}
			if at == nowhere {
				at = s.list(clause.Body)
			}
			inside = least(inside, at)
		}
		return inside
	}
	return or(s.literals(statement), statement, s.own(statement))
}

// node is an expression as a node, or none.
func node(tree ast.Expr) ast.Node {
	if tree == nil {
		return nil
	}
	return tree
}

// ofSwitch looks at the clauses behind a typed tag, whatever their own values are.
func (s *seeker) ofSwitch(it *ast.SwitchStmt) token.Pos {
	inside, typed := s.header(it.Init, node(it.Tag))
	failing := !typed
	if typed {
		for _, each := range it.Body.List {
			clause := each.(*ast.CaseClause)
			for _, value := range clause.List {
				inside = least(inside, s.literals(value))
				failing = failing || s.own(value)
			}
			inside = least(inside, s.list(clause.Body))
		}
	}
	return or(inside, it, failing)
}

// ofTypeSwitch looks at the clauses behind a typed guard whose types are typed.
func (s *seeker) ofTypeSwitch(it *ast.TypeSwitchStmt) token.Pos {
	inside, typed := s.header(it.Init)
	if typed {
		inside, typed = s.literals(it.Assign), !s.own(it.Assign)
	}
	failing := !typed
	if typed && inside == nowhere {
		for _, each := range it.Body.List {
			clause := each.(*ast.CaseClause)
			listed := true
			for _, value := range clause.List {
				inside = least(inside, s.literals(value))
				listed = listed && !s.own(value)
				for _, at := range s.listed {
					failing = failing || contains(value, at)
				}
			}
			failing = failing || !listed
			if listed {
				inside = least(inside, s.list(clause.Body))
			}
		}
	}
	return or(inside, it, failing)
}
