package profile

import (
	"go/ast"
	"go/token"
	"go/types"
)

// What a client of the profile hasn't, besides the steps from one type to another.
const (
	Defined  = "no type is defined by the name of another package's struct or interface"
	Embedded = "no type of another package is embedded"
	Unkeyed  = "no struct of another package is written without keys"
)

// A Step is a place of a client where it does what a client of the profile doesn't.
type Step struct {
	Pos  token.Pos
	Rule string
}

// A walker gathers the steps of typed declarations that a client of the profile hasn't.
type walker struct {
	info  *types.Info
	found []Step
}

// Outside lists the steps of a typed file, declaration or statement that a client of the profile hasn't, as its text has them.
func Outside(node ast.Node, info *types.Info) []Step {
	w := &walker{info: info}
	w.walk(node, nil)
	return w.found
}

func (w *walker) bar(at ast.Node, rule string) {
	w.found = append(w.found, Step{at.Pos(), rule})
}

// moved is a value that goes to a place of a type.
func (w *walker) moved(tree ast.Expr, to types.Type) {
	if IsMoved(tree, to, w.info) {
		w.bar(tree, Assigned)
	}
}

// movedType is the same where only the types are known.
func (w *walker) movedType(at ast.Node, from, to types.Type) {
	if from != nil && to != nil && BarredAssignment(ClientPath, from, to) != "-" {
		w.bar(at, Assigned)
	}
}

func (w *walker) typeOf(tree ast.Expr) types.Type {
	if name, is := tree.(*ast.Ident); is {
		if name.Name == "_" {
			return nil
		}
		if object := w.info.ObjectOf(name); object != nil {
			return object.Type()
		}
	}
	return w.info.Types[tree].Type
}

// several are values that go to places one by one, or all results of one call.
func (w *walker) several(values []ast.Expr, to []types.Type) {
	if len(values) == 1 && len(to) > 1 {
		if results, is := w.info.Types[values[0]].Type.(*types.Tuple); is {
			for i := range to {
				w.movedType(values[0], results.At(i).Type(), to[i])
			}
		}
		return
	}
	for i, tree := range values {
		if i < len(to) {
			w.moved(tree, to[i])
		}
	}
}

// HasIota says whether the predeclared iota stands in a tree.
func HasIota(tree ast.Node, info *types.Info) (has bool) {
	ast.Inspect(tree, func(node ast.Node) bool {
		name, is := node.(*ast.Ident)
		has = has || is && info.Uses[name] == types.Universe.Lookup("iota")
		return !has
	})
	return has
}

// isOwn says whether a type may be embedded in a client's: one that the client defines, or a predeclared one.
func isOwn(t types.Type) bool {
	if pointer, is := t.(*types.Pointer); is {
		t = pointer.Elem()
	}
	switch t := t.(type) {
	case *types.Basic:
		return true
	case *types.Named:
		return t.Obj().Pkg() == nil || t.Obj().Pkg().Path() == ClientPath
	case *types.Interface:
		return t.Empty()
	}
	return false
}

// definesImported says whether what a definition is written by is the name of another package's struct or interface, behind
// parentheses and aliases of the client.
func (w *walker) definesImported(tree ast.Expr) bool {
	switch tree := Unparen(tree).(type) {
	case *ast.SelectorExpr:
		switch w.info.Types[tree].Type.Underlying().(type) {
		case *types.Struct, *types.Interface:
			return true
		}
	case *ast.Ident:
		name, is := w.info.Uses[tree].(*types.TypeName)
		if is && name.IsAlias() && name.Pkg() != nil {
			// Go's checker keeps no aliases, so what one stands for is another package's where it isn't the client's.
			switch t := name.Type().(type) {
			case *types.Named:
				return imported(ClientPath, t, true)
			case *types.Struct, *types.Interface:
				return true
			}
		}
	}
	return false
}

// written looks at the types that are written in a client.
func (w *walker) written(node ast.Node) {
	embedded := func(list *ast.FieldList) {
		for _, field := range list.List {
			if len(field.Names) == 0 && !isOwn(w.info.Types[field.Type].Type) {
				w.bar(field, Embedded)
			}
		}
	}
	switch node := node.(type) {
	case *ast.TypeSpec:
		if !node.Assign.IsValid() && w.definesImported(node.Type) {
			w.bar(node, Defined)
		}
	case *ast.StructType:
		embedded(node.Fields)
	case *ast.InterfaceType:
		embedded(node.Methods)
	}
}

func (w *walker) statement(node ast.Node, results *types.Tuple) {
	switch node := node.(type) {
	case *ast.AssignStmt:
		to := make([]types.Type, len(node.Lhs))
		for i, tree := range node.Lhs {
			to[i] = w.typeOf(tree)
		}
		w.several(node.Rhs, to)
	case *ast.ValueSpec:
		if node.Type != nil {
			to := make([]types.Type, len(node.Names))
			for i := range to {
				to[i] = w.info.Types[node.Type].Type
			}
			w.several(node.Values, to)
		}
	case *ast.ReturnStmt:
		var to []types.Type
		for i := 0; results != nil && i < results.Len(); i++ {
			to = append(to, results.At(i).Type())
		}
		w.several(node.Results, to)
	case *ast.SendStmt:
		w.moved(node.Value, w.info.Types[node.Chan].Type.Underlying().(*types.Chan).Elem())
	case *ast.RangeStmt:
		if node.Tok == token.ASSIGN {
			key, value := rangedOver(w.info.Types[node.X].Type)
			if node.Key != nil {
				w.movedType(node.Key, key, w.typeOf(node.Key))
			}
			if node.Value != nil {
				w.movedType(node.Value, value, w.typeOf(node.Value))
			}
		}
	case *ast.SwitchStmt:
		if node.Tag == nil {
			break
		}
		for _, clause := range node.Body.List {
			for _, tree := range clause.(*ast.CaseClause).List {
				if InComparison(&ast.BinaryExpr{X: node.Tag, Op: token.EQL, Y: tree}, w.info) {
					w.bar(tree, Assigned)
				}
			}
		}
	}
}

// rangedOver are the types of what a range clause gives.
func rangedOver(t types.Type) (key, value types.Type) {
	whole := types.Typ[types.Int]
	under := t.Underlying()
	if pointer, is := under.(*types.Pointer); is {
		under = pointer.Elem().Underlying()
	}
	switch under := under.(type) {
	case *types.Array:
		return whole, under.Elem()
	case *types.Slice:
		return whole, under.Elem()
	case *types.Basic:
		return whole, types.Typ[types.Int32]
	case *types.Map:
		return under.Key(), under.Elem()
	case *types.Chan:
		return under.Elem(), nil
	}
	return nil, nil
}

func (w *walker) expression(node ast.Node) {
	switch node := node.(type) {
	case *ast.CallExpr:
		if len(node.Args) > 0 && InCall(node, w.info) {
			w.bar(node, inCallRule(node, w.info))
		}
	case *ast.CompositeLit:
		if InLiteral(node, w.info) {
			w.bar(node, inLiteralRule(node, w.info))
		}
	case *ast.BinaryExpr:
		if InComparison(node, w.info) {
			w.bar(node, Assigned)
		}
	case *ast.IndexExpr:
		if of := w.info.Types[node.X].Type; of != nil {
			if under, is := of.Underlying().(*types.Map); is {
				w.moved(node.Index, under.Key())
			}
		}
	}
}

// inCallRule is what a call does that InCall found: a conversion, or an argument that is moved.
func inCallRule(call *ast.CallExpr, info *types.Info) string {
	if called := info.Types[call.Fun]; called.IsType() {
		return BarredConversion(ClientPath, true, info.Types[call.Args[0]].Type, called.Type)
	}
	return Assigned
}

// inLiteralRule is what a literal does that InLiteral found: elements without keys, or one that is moved.
func inLiteralRule(literal *ast.CompositeLit, info *types.Info) string {
	of := info.Types[literal].Type
	if pointer, is := of.Underlying().(*types.Pointer); is && literal.Type == nil {
		of = pointer.Elem()
	}
	if _, keyed := literal.Elts[0].(*ast.KeyValueExpr); !keyed && imported(ClientPath, of, false) {
		return Unkeyed
	}
	return Assigned
}

func (w *walker) walk(node ast.Node, results *types.Tuple) {
	ast.Inspect(node, func(below ast.Node) bool {
		switch below := below.(type) {
		case nil:
			return true
		case *ast.FuncDecl:
			if below.Recv != nil {
				w.walk(below.Recv, nil)
			}
			w.walk(below.Type, nil)
			if below.Body != nil {
				w.walk(below.Body, w.info.Defs[below.Name].Type().(*types.Signature).Results())
			}
			return false
		case *ast.FuncLit:
			w.walk(below.Type, nil)
			w.walk(below.Body, w.info.Types[below].Type.(*types.Signature).Results())
			return false
		}
		w.written(below)
		w.statement(below, results)
		w.expression(below)
		return true
	})
}
