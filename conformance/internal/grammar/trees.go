package grammar

import (
	"encoding/hex"
	"fmt"
	"go/ast"
	"go/parser"
	"go/token"
	"strconv"
	"strings"
)

// tree writes Go's tree of a file as the crate syntax writes its own.
type tree struct {
	strings.Builder
	files  *token.FileSet
	r      *readable
	source []byte
	g      *grammar // where statements are written
	// differs is set where Go reads type parameters in place of the length of an array.
	differs bool
}

// FileTree is Go's tree of a source, and whether Go's parser takes all of it as the grammar reads it.
func FileTree(source []byte) (string, bool) {
	r := read(source)
	if r.bad != nil {
		return "", false
	}
	t := &tree{files: token.NewFileSet(), r: r, source: source}
	file, err := parser.ParseFile(t.files, "", r.text, mode)
	if err != nil {
		return "", false
	}
	t.WriteString("(file")
	t.name(file.Name)
	for _, decl := range file.Decls {
		t.decl(decl)
	}
	if t.differs {
		return "", false
	}
	return t.String() + ")", true
}

func (t *tree) offset(at token.Pos) int {
	return t.r.original(t.files.Position(at).Offset)
}

// part writes a word in parentheses and what the function writes after it.
func (t *tree) part(word string, rest func()) {
	t.WriteString(" (" + word)
	rest()
	t.WriteString(")")
}

func (t *tree) name(name *ast.Ident) {
	fmt.Fprintf(t, " %s@%d", name.Name, t.offset(name.Pos()))
}

func (t *tree) names(names []*ast.Ident) {
	t.part("names", func() {
		for _, name := range names {
			t.name(name)
		}
	})
}

// value is a literal as the source has it, with the byte order marks that the text read has another character for.
func (t *tree) value(literal *ast.BasicLit) string {
	if !strings.Contains(literal.Value, "\u20ac") {
		return literal.Value
	}
	rest := string(t.source[t.offset(literal.Pos()):])
	if rest[0] != '`' {
		return rest[:len(literal.Value)]
	}
	return strings.ReplaceAll(rest[:strings.IndexByte(rest[1:], '`')+2], "\r", "")
}

func (t *tree) text(literal *ast.BasicLit) {
	if literal == nil {
		t.WriteString(" -")
		return
	}
	text, err := strconv.Unquote(t.value(literal))
	if err != nil {
		panic(err)
	}
	t.WriteString(" text:" + hex.EncodeToString([]byte(text)))
}

func (t *tree) body(block *ast.BlockStmt) {
	if block == nil {
		t.WriteString(" -")
		return
	}
	fmt.Fprintf(t, " (body %d %d)", t.offset(block.Lbrace), t.offset(block.Rbrace)+1)
}

func (t *tree) decl(decl ast.Decl) {
	if function, is := decl.(*ast.FuncDecl); is {
		t.part("func", func() {
			if function.Recv == nil {
				t.WriteString(" -")
			} else {
				t.parameters(function.Recv)
			}
			t.name(function.Name)
			t.signature(function.Type)
			t.body(function.Body)
		})
		return
	}
	group := decl.(*ast.GenDecl)
	if group.Tok == token.IMPORT {
		for _, spec := range group.Specs {
			t.spec(spec)
		}
		return
	}
	word := map[token.Token]string{token.CONST: "const", token.VAR: "var", token.TYPE: "types"}[group.Tok]
	t.part(word, func() {
		for _, spec := range group.Specs {
			t.spec(spec)
		}
	})
}

func (t *tree) spec(spec ast.Spec) {
	switch spec := spec.(type) {
	case *ast.ImportSpec:
		t.part("import", func() {
			if spec.Name == nil {
				t.WriteString(" -")
			} else {
				t.name(spec.Name)
			}
			t.text(spec.Path)
			fmt.Fprintf(t, " %d", t.offset(spec.Path.Pos()))
		})
	case *ast.ValueSpec:
		t.part("spec", func() {
			t.names(spec.Names)
			if spec.Type == nil {
				t.WriteString(" -")
			} else {
				t.typ(spec.Type)
			}
			t.part("values", func() { t.exprs(spec.Values) })
		})
	case *ast.TypeSpec:
		t.differs = t.differs || spec.TypeParams != nil
		word := "define"
		if spec.Assign.IsValid() {
			word = "alias"
		}
		t.part(word, func() {
			t.name(spec.Name)
			t.typ(spec.Type)
		})
	}
}

func (t *tree) parameters(fields *ast.FieldList) {
	for _, field := range fields.List {
		word, of := "parameter", field.Type
		if many, is := of.(*ast.Ellipsis); is {
			word, of = "variadic", many.Elt
		}
		t.part(word, func() {
			t.names(field.Names)
			t.typ(of)
		})
	}
}

func (t *tree) signature(function *ast.FuncType) {
	t.part("signature", func() {
		t.part("parameters", func() { t.parameters(function.Params) })
		switch results := function.Results; {
		case results == nil:
			t.WriteString(" -")
		case results.Opening.IsValid():
			t.part("results", func() { t.parameters(results) })
		default:
			t.typ(results.List[0].Type)
		}
	})
}

// typ writes a type where only a type can stand.
func (t *tree) typ(e ast.Expr) {
	within := func(word string, of ...ast.Expr) {
		t.part(word, func() {
			for _, one := range of {
				t.typ(one)
			}
		})
	}
	switch e := e.(type) {
	case *ast.Ident:
		t.name(e)
	case *ast.SelectorExpr:
		within("of", e.X, e.Sel)
	case *ast.ParenExpr:
		within("paren", e.X)
	case *ast.StarExpr:
		within("pointer", e.X)
	case *ast.ArrayType:
		if e.Len == nil {
			within("slice", e.Elt)
			return
		}
		t.part("array", func() {
			t.expr(e.Len)
			t.typ(e.Elt)
		})
	case *ast.MapType:
		within("map", e.Key, e.Value)
	case *ast.ChanType:
		within(map[ast.ChanDir]string{ast.SEND | ast.RECV: "chan", ast.SEND: "send", ast.RECV: "receive"}[e.Dir], e.Value)
	case *ast.FuncType:
		t.signature(e)
	case *ast.StructType:
		t.part("struct", func() {
			for _, field := range e.Fields.List {
				t.field(field)
			}
		})
	case *ast.InterfaceType:
		t.part("interface", func() {
			for _, method := range e.Methods.List {
				if len(method.Names) == 0 {
					t.typ(method.Type)
					continue
				}
				t.part("method", func() {
					t.name(method.Names[0])
					t.typ(method.Type)
				})
			}
		})
	default:
		fmt.Fprintf(t, " %T", e)
	}
}

func (t *tree) field(field *ast.Field) {
	word, of := "embedded", field.Type
	if star, is := of.(*ast.StarExpr); is {
		word, of = "embedded-pointer", star.X
	}
	if len(field.Names) > 0 {
		word, of = "field", field.Type
	}
	t.part(word, func() {
		if len(field.Names) > 0 {
			t.names(field.Names)
		}
		t.typ(of)
		t.text(field.Tag)
	})
}

func (t *tree) exprs(list []ast.Expr) {
	for _, e := range list {
		t.expr(e)
	}
}

func (t *tree) optional(e ast.Expr) {
	if e == nil {
		t.WriteString(" -")
		return
	}
	t.expr(e)
}

func chainOf(op token.Token) string {
	switch op {
	case token.LOR:
		return "or"
	case token.LAND:
		return "and"
	case token.ADD, token.SUB, token.OR, token.XOR:
		return "sum"
	case token.EQL, token.NEQ, token.LSS, token.LEQ, token.GTR, token.GEQ:
		return "compare"
	}
	return "product"
}

// chain writes operators of one strength with all their operands.
func (t *tree) chain(e *ast.BinaryExpr) {
	word, operands, operators := chainOf(e.Op), []ast.Expr{e.Y}, " "+e.Op.String()
	first := e.X
	for {
		left, is := first.(*ast.BinaryExpr)
		if !is || chainOf(left.Op) != word {
			break
		}
		operands, operators, first = append(operands, left.Y), " "+left.Op.String()+operators, left.X
	}
	t.part(word, func() {
		if word != "or" && word != "and" {
			t.WriteString(" (operators" + operators + ")")
		}
		t.expr(first)
		for i := len(operands) - 1; i >= 0; i-- {
			t.expr(operands[i])
		}
	})
}

// posts writes what follows an operand, and gives the operand first.
func (t *tree) posts(e ast.Expr) (operand ast.Expr, write func()) {
	var before ast.Expr
	var own func()
	switch e := e.(type) {
	case *ast.SelectorExpr:
		before, own = e.X, func() { t.part("selector", func() { t.name(e.Sel) }) }
	case *ast.IndexExpr:
		before, own = e.X, func() { t.part("index", func() { t.expr(e.Index) }) }
	case *ast.SliceExpr:
		before, own = e.X, func() {
			t.part("slice", func() {
				t.optional(e.Low)
				t.optional(e.High)
				if e.Slice3 {
					t.expr(e.Max)
				}
			})
		}
	case *ast.TypeAssertExpr:
		before, own = e.X, func() { t.part("assertion", func() { t.typ(e.Type) }) }
	case *ast.CallExpr:
		before, own = e.Fun, func() { t.call(e) }
	default:
		of, indices := withoutIndices(e)
		return of, func() {
			for _, index := range indices {
				t.part("index", func() { t.expr(index) })
			}
		}
	}
	operand, earlier := t.posts(before)
	return operand, func() {
		earlier()
		own()
	}
}

// withoutIndices is a type that an operand is, without the indices behind it that Go reads as type arguments of its last name, and these.
func withoutIndices(e ast.Expr) (ast.Expr, []ast.Expr) {
	var indices []ast.Expr
	last := func(inner ast.Expr) ast.Expr {
		if index, is := inner.(*ast.IndexExpr); is {
			indices = append(indices, index.Index)
			return index.X
		}
		of, found := withoutIndices(inner)
		indices = append(indices, found...)
		return of
	}
	switch e := e.(type) {
	case *ast.StarExpr:
		of := *e
		of.X = last(e.X)
		return &of, indices
	case *ast.ArrayType:
		of := *e
		of.Elt = last(e.Elt)
		return &of, indices
	case *ast.MapType:
		of := *e
		of.Value = last(e.Value)
		return &of, indices
	case *ast.ChanType:
		of := *e
		of.Value = last(e.Value)
		return &of, indices
	case *ast.FuncType:
		if e.Results != nil && !e.Results.Opening.IsValid() {
			of, result := *e, *e.Results.List[0]
			result.Type = last(result.Type)
			of.Results = &ast.FieldList{List: []*ast.Field{&result}}
			return &of, indices
		}
	}
	return e, nil
}

func (t *tree) call(e *ast.CallExpr) {
	word := "call"
	if e.Ellipsis.IsValid() {
		word = "call-variadic"
	}
	t.part(word, func() {
		rest := e.Args
		if len(rest) > 0 {
			if channel, is := rest[0].(*ast.ChanType); is && channel.Dir == ast.RECV {
				t.typ(channel)
				rest = rest[1:]
			}
		}
		t.exprs(rest)
	})
}

func (t *tree) elements(list []ast.Expr) {
	value := func(e ast.Expr) {
		if inner, is := e.(*ast.CompositeLit); is && inner.Type == nil {
			t.part("elements", func() { t.elements(inner.Elts) })
			return
		}
		t.expr(e)
	}
	for _, e := range list {
		if pair, is := e.(*ast.KeyValueExpr); is {
			t.part("keyed", func() {
				value(pair.Key)
				value(pair.Value)
			})
			continue
		}
		value(e)
	}
}

func (t *tree) composite(e *ast.CompositeLit) {
	if array, is := e.Type.(*ast.ArrayType); is {
		if _, open := array.Len.(*ast.Ellipsis); open {
			t.part("composite-array", func() {
				t.typ(array.Elt)
				t.elements(e.Elts)
			})
			return
		}
	}
	t.part("composite", func() {
		t.typ(e.Type)
		t.elements(e.Elts)
	})
}

func (t *tree) expr(e ast.Expr) {
	switch e := e.(type) {
	case *ast.BinaryExpr:
		t.chain(e)
	case *ast.UnaryExpr:
		t.part("prefix "+e.Op.String(), func() { t.expr(e.X) })
	case *ast.StarExpr:
		t.part("prefix *", func() { t.expr(e.X) })
	case *ast.ParenExpr:
		if channel, is := e.X.(*ast.ChanType); is && channel.Dir == ast.RECV {
			t.part("paren-receive", func() { t.typ(channel.Value) })
			return
		}
		t.part("paren", func() { t.expr(e.X) })
	case *ast.Ident:
		t.name(e)
	case *ast.BasicLit:
		t.literal(e)
	case *ast.FuncLit:
		t.part("function", func() {
			t.signature(e.Type)
			t.body(e.Body)
		})
	case *ast.CompositeLit:
		t.composite(e)
	case *ast.SelectorExpr, *ast.IndexExpr, *ast.SliceExpr, *ast.TypeAssertExpr, *ast.CallExpr:
		operand, write := t.posts(e)
		t.part("primary", func() {
			t.expr(operand)
			write()
		})
	default:
		of, indices := withoutIndices(e)
		if len(indices) == 0 {
			t.part("type", func() { t.typ(e) })
			return
		}
		t.part("primary", func() {
			t.expr(of)
			for _, index := range indices {
				t.part("index", func() { t.expr(index) })
			}
		})
	}
}

func (t *tree) literal(e *ast.BasicLit) {
	switch e.Kind {
	case token.FLOAT:
		t.WriteString(" float")
	case token.IMAG:
		t.WriteString(" imaginary")
	case token.STRING:
		t.text(e)
	case token.CHAR:
		t.WriteString(" rune:" + said(e.Kind, t.value(e))[1:])
	default:
		t.WriteString(said(e.Kind, e.Value))
	}
}
