package grammar

import (
	"fmt"
	"go/ast"
	"go/parser"
	"go/scanner"
	"go/token"
	"sort"
	"strings"
)

// What Go's parser alone refuses in bodies, by the beginning of its message.
var stricterInBodies = map[string]string{
	"function must be invoked in":    "no call behind go or defer",
	"expression in go must be":       "no call behind go or defer",
	"expression in defer must be":    "no call behind go or defer",
	"expected at most 2 expressions": "more than two names before range",
	"expected 1 or 2 expressions":    "more than two names before a receive",
	"missing constant value":         stricter["missing constant value"],
	"invalid import path":            stricter["invalid import path"],
	"expected expression":            "a type as a value",
	"expected 'expression'":          "a type as a value",
	"exceeded max nesting depth":     stricter["exceeded max nesting depth"],
}

// Blocks is what the gate owes of the blocks of a source, and the named differences from Go. The answer is empty where Go's
// parser alone refuses the source.
func Blocks(source []byte) (string, notes) {
	outline, met := Verdict(source)
	if outline != "ok" {
		return outline, met
	}
	r := read(source)
	g := &grammar{files: token.NewFileSet(), text: r.text, met: notes{}, inside: true}
	file, err := parser.ParseFile(g.files, "", r.text, mode)
	if err != nil {
		answer, met := refusedBlocks(err)
		if other := parenthesized(r.text, tokensOf(r.text)); answer != "" && other != nil {
			if _, err := parser.ParseFile(token.NewFileSet(), "", other, mode); err == nil {
				return "", notes{indexOfType: true}
			} else if again, more := refusedBlocks(err); again == "" {
				more[indexOfType] = true
				return "", more
			}
		}
		return answer, met
	}
	t := &tree{files: g.files, r: r, source: source, g: g}
	t.WriteString("(blocks")
	for _, one := range blocksOf(file, g) {
		t.part(fmt.Sprintf("block@%d", t.offset(one.Lbrace)), func() { t.statements(one.List) })
	}
	if g.refused {
		return "no-blocks", g.met
	}
	return t.String() + ")", g.met
}

// refusedBlocks is the answer where Go's parser refuses the source.
func refusedBlocks(err error) (string, notes) {
	met := notes{}
	list, isList := err.(scanner.ErrorList)
	for _, one := range list {
		name := ""
		for beginning, of := range stricterInBodies {
			if strings.HasPrefix(one.Msg, beginning) {
				name = of
			}
		}
		if name == "" {
			return "no-blocks", notes{}
		}
		met[name] = true
	}
	if !isList {
		return "no-blocks", notes{}
	}
	return "", met
}

// blocksOf are the blocks of a file's functions and function literals, in the order of their places. Those that stand in no other are measured.
func blocksOf(file *ast.File, g *grammar) []*ast.BlockStmt {
	var found []*ast.BlockStmt
	ast.Inspect(file, func(node ast.Node) bool {
		var body *ast.BlockStmt
		switch node := node.(type) {
		case *ast.FuncDecl:
			body = node.Body
		case *ast.FuncLit:
			body = node.Body
		}
		if body != nil {
			found = append(found, body)
		}
		return true
	})
	sort.Slice(found, func(i, j int) bool { return found[i].Lbrace < found[j].Lbrace })
	end := token.NoPos
	for _, body := range found {
		if end <= body.Lbrace {
			g.high(g.block(body))
			end = body.Rbrace
		}
	}
	return found
}

func (t *tree) statements(list []ast.Stmt) {
	for _, s := range list {
		t.statement(s)
	}
}

func (t *tree) do(block *ast.BlockStmt) {
	t.part("do", func() { t.statements(block.List) })
}

// behind is the token after the keyword at a place, and whether it is a semicolon.
func (t *tree) behind(keyword token.Pos) (lexeme, bool) {
	i := t.g.at(t.g.offset(keyword)) + 1
	return t.g.tokens[i], t.g.tokens[i].kind == token.SEMICOLON
}

// init writes the statement that a keyword's header begins with, if any.
func (t *tree) init(keyword token.Pos, s ast.Stmt) {
	if semicolon, is := t.behind(keyword); is {
		fmt.Fprintf(t, " (empty@%d)", t.r.original(semicolon.start))
		return
	}
	t.clause(s)
}

func (t *tree) clause(s ast.Stmt) {
	if s == nil {
		t.WriteString(" -")
		return
	}
	t.statement(s)
}

func (t *tree) label(name *ast.Ident) {
	if name == nil {
		t.WriteString(" -")
		return
	}
	t.name(name)
}

func (t *tree) list(word string, list []ast.Expr) {
	t.part(word, func() { t.exprs(list) })
}

// defined writes names as such, and else targets.
func (t *tree) defined(list []ast.Expr, are bool) {
	if !are {
		t.list("targets", list)
		return
	}
	t.list("names", list)
}

func (t *tree) statement(s ast.Stmt) {
	at := s.Pos()
	write := func(word string, rest func()) { t.part(fmt.Sprintf("%s@%d", word, t.offset(at)), rest) }
	switch s := s.(type) {
	case *ast.EmptyStmt:
		write("empty", func() {})
	case *ast.ExprStmt:
		write("expression", func() { t.expr(s.X) })
	case *ast.SendStmt:
		write("send", func() { t.exprs([]ast.Expr{s.Chan, s.Value}) })
	case *ast.IncDecStmt:
		write("step", func() {
			t.WriteString(" " + s.Tok.String())
			t.expr(s.X)
		})
	case *ast.AssignStmt:
		switch s.Tok {
		case token.ASSIGN, token.DEFINE:
			write(map[token.Token]string{token.ASSIGN: "assign", token.DEFINE: "define"}[s.Tok], func() {
				t.defined(s.Lhs, s.Tok == token.DEFINE)
				t.list("values", s.Rhs)
			})
		default:
			write("operate", func() {
				t.WriteString(" " + strings.TrimSuffix(s.Tok.String(), "="))
				t.exprs(append(append([]ast.Expr{}, s.Lhs...), s.Rhs...))
			})
		}
	case *ast.DeclStmt:
		write("declare", func() { t.decl(s.Decl) })
	case *ast.LabeledStmt:
		write("labeled", func() {
			t.name(s.Label)
			t.statement(s.Stmt)
		})
	case *ast.GoStmt:
		write("go", func() { t.expr(s.Call) })
	case *ast.DeferStmt:
		write("defer", func() { t.expr(s.Call) })
	case *ast.ReturnStmt:
		write("return", func() { t.exprs(s.Results) })
	case *ast.BranchStmt:
		write(s.Tok.String(), func() {
			if s.Tok != token.FALLTHROUGH {
				t.label(s.Label)
			}
		})
	case *ast.BlockStmt:
		write("block", func() { t.do(s) })
	case *ast.IfStmt:
		write("if", func() {
			t.init(s.If, s.Init)
			t.expr(s.Cond)
			t.do(s.Body)
			t.clause(s.Else)
		})
	case *ast.SwitchStmt:
		write("switch", func() {
			t.init(s.Switch, s.Init)
			t.optional(s.Tag)
			for _, one := range s.Body.List {
				clause := one.(*ast.CaseClause)
				t.clauses(clause.List == nil, func() { t.list("values", clause.List) }, clause.Body)
			}
		})
	case *ast.TypeSwitchStmt:
		write("type-switch", func() {
			name, operand := guard(s)
			t.init(s.Switch, s.Init)
			t.label(name)
			t.expr(operand)
			for _, one := range s.Body.List {
				clause := one.(*ast.CaseClause)
				t.clauses(clause.List == nil, func() {
					t.part("types", func() {
						for _, of := range clause.List {
							t.typ(of)
						}
					})
				}, clause.Body)
			}
		})
	case *ast.SelectStmt:
		write("select", func() {
			for _, one := range s.Body.List {
				clause := one.(*ast.CommClause)
				t.clauses(clause.Comm == nil, func() { t.statement(clause.Comm) }, clause.Body)
			}
		})
	case *ast.ForStmt:
		_, parted := t.behind(s.For)
		if s.Init == nil && s.Post == nil && !parted {
			write("while", func() {
				t.optional(s.Cond)
				t.do(s.Body)
			})
			return
		}
		write("for", func() {
			t.clause(s.Init)
			t.optional(s.Cond)
			t.clause(s.Post)
			t.do(s.Body)
		})
	case *ast.RangeStmt:
		word := map[token.Token]string{token.ILLEGAL: "range", token.ASSIGN: "range-assign", token.DEFINE: "range-define"}[s.Tok]
		write(word, func() {
			if s.Key != nil {
				t.defined(ranged(s), s.Tok == token.DEFINE)
			}
			t.expr(s.X)
			t.do(s.Body)
		})
	default:
		fmt.Fprintf(t, " %T", s)
	}
}

// clauses writes a clause: `default`, or `case` with what stands in it, and the statements.
func (t *tree) clauses(bare bool, what func(), body []ast.Stmt) {
	word := "case"
	if bare {
		word = "default"
	}
	t.part(word, func() {
		if !bare {
			what()
		}
		t.statements(body)
	})
}
