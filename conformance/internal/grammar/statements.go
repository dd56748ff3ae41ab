package grammar

import (
	"go/ast"
	"go/token"
)

// block looks at the statements of a block and gives its height.
func (g *grammar) block(b *ast.BlockStmt) int { return 1 + g.statements(b.List) }

func (g *grammar) statements(list []ast.Stmt) int {
	height := 0
	for _, s := range list {
		height = most(height, g.statement(s))
	}
	return height
}

func (g *grammar) exprs(list []ast.Expr) int {
	height := 0
	for _, x := range list {
		height = most(height, g.expr(x))
	}
	return height
}

// clause looks at a statement in a header, which may be missing.
func (g *grammar) clause(s ast.Stmt) int {
	if s == nil {
		return 0
	}
	return g.statement(s)
}

func (g *grammar) statement(s ast.Stmt) int {
	switch s := s.(type) {
	case *ast.EmptyStmt, *ast.BadStmt:
		return 0
	case *ast.ExprStmt:
		return 1 + g.expr(s.X)
	case *ast.SendStmt:
		return 1 + most(g.expr(s.Chan), g.expr(s.Value))
	case *ast.IncDecStmt:
		return 1 + g.expr(s.X)
	case *ast.AssignStmt:
		return g.assignment(s)
	case *ast.DeclStmt:
		return g.declaration(s.Decl.(*ast.GenDecl))
	case *ast.LabeledStmt:
		return 1 + g.statement(s.Stmt)
	case *ast.GoStmt:
		return 1 + g.expr(s.Call)
	case *ast.DeferStmt:
		return 1 + g.expr(s.Call)
	case *ast.ReturnStmt:
		if len(s.Results) == 0 {
			return 0
		}
		return 1 + g.exprs(s.Results)
	case *ast.BranchStmt:
		if s.Label == nil && s.Tok == token.GOTO {
			return g.refuse("a goto without a label")
		} else if s.Label == nil {
			return 0
		}
		return 1
	case *ast.BlockStmt:
		return g.block(s)
	case *ast.IfStmt:
		return 1 + most(most(g.clause(s.Init), g.expr(s.Cond)), most(g.block(s.Body), g.clause(s.Else)))
	case *ast.SwitchStmt:
		height := most(g.clause(s.Init), g.expr(s.Tag))
		for _, one := range s.Body.List {
			clause := one.(*ast.CaseClause)
			height = most(height, most(g.exprs(clause.List), g.statements(clause.Body)))
		}
		return 1 + height
	case *ast.TypeSwitchStmt:
		_, operand := guard(s)
		height := most(g.clause(s.Init), g.expr(operand))
		for _, one := range s.Body.List {
			clause := one.(*ast.CaseClause)
			for _, of := range clause.List {
				height = most(height, g.typ(of))
			}
			height = most(height, g.statements(clause.Body))
		}
		return 1 + height
	case *ast.SelectStmt:
		height := 0
		for _, one := range s.Body.List {
			clause := one.(*ast.CommClause)
			height = most(height, most(g.communication(clause.Comm), g.statements(clause.Body)))
		}
		return 1 + height
	case *ast.ForStmt:
		return 1 + most(most(g.clause(s.Init), g.expr(s.Cond)), most(g.clause(s.Post), g.block(s.Body)))
	case *ast.RangeStmt:
		height := most(g.expr(s.X), g.block(s.Body))
		if targets := ranged(s); s.Tok == token.DEFINE {
			g.names(targets)
		} else {
			height = most(height, g.exprs(targets))
		}
		return 1 + height
	}
	return g.refuse("another statement")
}

// names looks at what stands left of `:=`.
func (g *grammar) names(list []ast.Expr) {
	for _, x := range list {
		if _, is := x.(*ast.Ident); !is {
			g.refuse("no name left of :=")
		}
	}
}

func (g *grammar) assignment(s *ast.AssignStmt) int {
	height := g.exprs(s.Rhs)
	switch {
	case s.Tok == token.DEFINE:
		g.names(s.Lhs)
	case s.Tok != token.ASSIGN && len(s.Lhs)+len(s.Rhs) > 2:
		return g.refuse("an operation with several operands")
	default:
		height = most(height, g.exprs(s.Lhs))
	}
	return 1 + height
}

func (g *grammar) declaration(group *ast.GenDecl) int {
	if group.Tok == token.TYPE {
		return g.refuse("a type that is declared in a function")
	}
	height := 0
	for _, spec := range group.Specs {
		value := spec.(*ast.ValueSpec)
		if group.Tok == token.CONST && value.Type != nil && value.Values == nil {
			g.refused = true // as Go does
		}
		if value.Type != nil {
			height = most(height, g.typ(value.Type))
		}
		height = most(height, g.exprs(value.Values))
	}
	return 1 + height
}

// communication looks at what a case of a select waits for, if anything.
func (g *grammar) communication(s ast.Stmt) int {
	waits := func(x ast.Expr) int {
		inner := x
		for {
			paren, is := inner.(*ast.ParenExpr)
			if !is {
				break
			}
			inner = paren.X
		}
		if unary, is := inner.(*ast.UnaryExpr); !is || unary.Op != token.ARROW {
			return g.refuse("a case of a select that waits for nothing")
		}
		return g.expr(x)
	}
	switch s := s.(type) {
	case nil:
		return 0
	case *ast.ExprStmt:
		return 1 + waits(s.X)
	case *ast.AssignStmt:
		return most(g.assignment(s), 1+waits(s.Rhs[0]))
	}
	return g.statement(s)
}

// guard is the name that a type switch binds, if any, and its operand.
func guard(s *ast.TypeSwitchStmt) (*ast.Ident, ast.Expr) {
	switch of := s.Assign.(type) {
	case *ast.AssignStmt:
		name, _ := of.Lhs[0].(*ast.Ident)
		return name, of.Rhs[0].(*ast.TypeAssertExpr).X
	case *ast.ExprStmt:
		return nil, of.X.(*ast.TypeAssertExpr).X
	}
	return nil, nil
}

// ranged is what a range assigns to.
func ranged(s *ast.RangeStmt) []ast.Expr {
	var found []ast.Expr
	for _, x := range []ast.Expr{s.Key, s.Value} {
		if x != nil {
			found = append(found, x)
		}
	}
	return found
}
