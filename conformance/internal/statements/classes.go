package main

import (
	"go/ast"
	"go/constant"
	"go/scanner"
	"go/token"
	"go/types"
	"os"
	"strings"

	"apigate/conformance/internal/differences"
	"apigate/internal/typed"
)

// Classes of differences over clients that are on purpose, besides those of expressions.
const (
	local     = "a type that is declared inside of a function"
	generic   = "type parameters and arguments"
	trailing  = "a comma behind an index"
	divided   = "a division by a zero that is no constant here, as it is of an inexact type"
	long      = "a constant text of more than 65,536 bytes"
	large     = "a file of more than 4 MiB"
	element   = "an element of an interface that is no name"
	received  = "a receiver that isn't one parameter"
	dotted    = "an import with a dot for its name"
	literally = "iota in a function literal"
	compared  = "a switch over what can't be compared, with values"
	inexactly = "a shift by a constant of a float or complex type, which Go's checker takes against the specification"
	imaginary = "complex, real and imag"
	embedding = "an interface that embeds what is none, or comparable"
	unparsed  = "what Go's parser alone refuses: more than two names before range, a type as a value, no call behind go or defer, and signs in the path of an import"
)

const (
	mostText = 65536
	mostFile = 4 << 20
)

// A difference is a place at which this program finds a fault by a class, where Go's checker finds none.
type difference struct {
	at    token.Pos
	class string
}

// differ gives an answer the lines by which this program may differ: where its grammar hasn't something, and where it finds faults at the nodes of some class.
func (found *answer) differ(s *survey) {
	var all []difference
	refused := ""
	for _, file := range s.files {
		var literals []*ast.FuncLit
		if s.set.File(file.Pos()).Size() > mostFile {
			refused = large
		}
		ast.Inspect(file, func(node ast.Node) bool {
			if node == nil {
				return true
			}
			if class := unwritten(node); class != "" && refused == "" {
				refused = class
			}
			if index, is := node.(*ast.IndexExpr); is && refused == "" && index.Rbrack > index.Index.End() && hasComma(s.set, index.Index.End(), index.Rbrack) {
				refused = trailing
			}
			if literal, is := node.(*ast.FuncLit); is {
				literals = append(literals, literal)
			}
			all = append(all, faultsAt(node, literals, s.info)...)
			return true
		})
	}
	if refused != "" {
		found.Else = append(found.Else, other{"refused", refused})
	}
	if len(all) == 0 {
		return
	}
	if line := s.line(places(all, "")...); line != found.Line {
		class := ""
		for _, one := range all {
			if class == "" && s.line(places(all, one.class)...) == line {
				class = one.class
			}
		}
		found.Else = append(found.Else, other{line, class})
	}
}

// taken changes what Go's checker refuses of constants and this program takes, and names the class: a shift by more than the checker's bound becomes one by that, which has the same value or one
// past 128 bits too, and a divisor that is a constant 0 beside or by an inexact type, where this program has no constant, becomes 1.
func taken(files []*ast.File, info *types.Info, errors []types.Error) (class string) {
	said := func(at token.Pos, message string) bool {
		for _, each := range errors {
			if each.Pos == at && strings.Contains(each.Msg, message) {
				return true
			}
		}
		return false
	}
	inexact := func(tree ast.Expr) (has bool) {
		ast.Inspect(tree, func(node ast.Node) bool {
			call, is := node.(*ast.CallExpr)
			has = has || is && differences.IsInexact(info.TypeOf(call))
			return !has
		})
		return has || differences.IsInexact(info.TypeOf(tree))
	}
	for _, file := range files {
		ast.Inspect(file, func(node ast.Node) bool {
			pair, is := node.(*ast.BinaryExpr)
			switch {
			case !is:
			case differences.OfNode(pair, info) == differences.Far && said(pair.Y.Pos(), "invalid shift count"):
				class, pair.Y = differences.Far, &ast.BasicLit{ValuePos: pair.Y.Pos(), Kind: token.INT, Value: "1074"}
			case (pair.Op == token.QUO || pair.Op == token.REM) && said(pair.Y.Pos(), "division by zero") && (inexact(pair.X) || inexact(pair.Y)):
				class, pair.Y = divided, &ast.BasicLit{ValuePos: pair.Y.Pos(), Kind: token.INT, Value: "1"}
			}
			return true
		})
	}
	return class
}

// hasComma says whether a comma stands in a part of a file without comments.
func hasComma(set *token.FileSet, from, to token.Pos) bool {
	text, err := os.ReadFile(set.Position(from).Filename)
	return err == nil && strings.Contains(string(text[set.Position(from).Offset:set.Position(to).Offset]), ",")
}

// differing are the places of all that is of a class.
func differing(s *survey) (found []token.Pos) {
	for _, file := range s.files {
		var literals []*ast.FuncLit
		ast.Inspect(file, func(node ast.Node) bool {
			if node == nil {
				return true
			}
			if literal, is := node.(*ast.FuncLit); is {
				literals = append(literals, literal)
			}
			if unwritten(node) != "" || differences.OfNode(node, s.info) != "" || len(faultsAt(node, literals, s.info)) > 0 {
				found = append(found, node.Pos())
			}
			return true
		})
	}
	return found
}

// places are the places of the differences of a class, or of all of them.
func places(all []difference, class string) (found []token.Pos) {
	for _, one := range all {
		if class == "" || one.class == class {
			found = append(found, one.at)
		}
	}
	return found
}

// unwritten is the class of a node that the grammar of the profile hasn't.
func unwritten(node ast.Node) string {
	switch node := node.(type) {
	case *ast.DeclStmt:
		if node.Decl.(*ast.GenDecl).Tok == token.TYPE {
			return local
		}
	case *ast.FuncDecl:
		if node.Recv != nil && node.Recv.NumFields() != 1 {
			return received
		}
	case *ast.FuncType:
		if node.TypeParams != nil {
			return generic
		}
	case *ast.TypeSpec:
		if node.TypeParams != nil {
			return generic
		}
	case *ast.Field:
		if isInstance(node.Type) {
			return generic
		}
	case *ast.InterfaceType:
		for _, field := range node.Methods.List {
			switch field.Type.(type) {
			case *ast.UnaryExpr, *ast.BinaryExpr:
				return generic
			case *ast.Ident, *ast.SelectorExpr, *ast.IndexExpr, *ast.IndexListExpr:
			default:
				if len(field.Names) == 0 {
					return element
				}
			}
		}
	case *ast.CompositeLit:
		if isInstance(node.Type) {
			return generic
		}
	case *ast.ValueSpec:
		if isInstance(node.Type) {
			return generic
		}
	case *ast.ImportSpec:
		if node.Name != nil && node.Name.Name == "." {
			return dotted
		}
	}
	if !differences.IsWritten(node) {
		return differences.Unwritten
	}
	return ""
}

// isInstance says whether a type is written with type arguments, behind pointers and the like too.
func isInstance(tree ast.Expr) bool {
	switch tree := tree.(type) {
	case *ast.IndexExpr, *ast.IndexListExpr:
		return true
	case *ast.StarExpr:
		return isInstance(tree.X)
	case *ast.ArrayType:
		return isInstance(tree.Elt)
	case *ast.MapType:
		return isInstance(tree.Key) || isInstance(tree.Value)
	case *ast.ChanType:
		return isInstance(tree.Value)
	}
	return false
}

// faultsAt are the differences of a node, which stands behind the beginnings of some function literals.
func faultsAt(node ast.Node, literals []*ast.FuncLit, info *types.Info) (found []difference) {
	// a constant that is converted to an inexact type has one, and is no constant any more
	if _, converts := node.(*ast.CallExpr); converts && differences.OfNode(node, info) == differences.Inexact {
		return nil
	}
	if class := differences.OfNode(node, info); class != "" && class != differences.Far {
		found = append(found, difference{node.Pos(), class})
	}
	if tree, is := node.(ast.Expr); is && info.Types[tree].Value != nil {
		if value := info.Types[tree].Value; value.Kind() == constant.String && len(constant.StringVal(value)) > mostText {
			found = append(found, difference{node.Pos(), long})
		}
	}
	switch node := node.(type) {
	case *ast.Ident:
		switch object := info.Uses[node]; {
		case object == nil || object.Parent() != types.Universe:
		case node.Name == "iota":
			for _, literal := range literals {
				if contains(literal, node.Pos()) {
					return append(found, difference{node.Pos(), literally})
				}
			}
		case node.Name == "complex" || node.Name == "real" || node.Name == "imag":
			found = append(found, difference{node.Pos(), imaginary})
		}
	case *ast.BinaryExpr:
		if (node.Op == token.SHL || node.Op == token.SHR) && differences.IsInexact(info.TypeOf(node.Y)) {
			found = append(found, difference{node.Y.Pos(), inexactly})
		}
	case *ast.AssignStmt:
		if (node.Tok == token.SHL_ASSIGN || node.Tok == token.SHR_ASSIGN) && differences.IsInexact(info.TypeOf(node.Rhs[0])) {
			found = append(found, difference{node.Rhs[0].Pos(), inexactly})
		}
	case *ast.ValueSpec:
		for _, name := range node.Names {
			if object, is := info.Defs[name].(*types.Const); is && differences.IsInexact(object.Type()) {
				found = append(found, difference{name.Pos(), differences.Inexact})
			}
		}
	case *ast.InterfaceType:
		// Go takes it for a constraint
		for _, field := range node.Methods.List {
			if of := info.TypeOf(field.Type); len(field.Names) == 0 && of != nil && !isMethods(of) {
				found = append(found, difference{field.Pos(), embedding})
			}
		}
	case *ast.SwitchStmt:
		// Go compares no value with a tag that can't be compared; this program compares each
		if tag := node.Tag; tag != nil && info.TypeOf(tag) != nil && !types.Comparable(info.TypeOf(tag)) && !hasNil(info.TypeOf(tag)) {
			for _, clause := range node.Body.List {
				for _, value := range clause.(*ast.CaseClause).List {
					found = append(found, difference{value.Pos(), compared})
				}
			}
		}
	}
	return found
}

// isMethods says whether a type is an interface that methods alone describe.
func isMethods(t types.Type) bool {
	it, is := t.Underlying().(*types.Interface)
	return is && it.IsMethodSet()
}

// hasNil says whether nil is a value of the type, with which Go then compares.
func hasNil(t types.Type) bool {
	switch t.Underlying().(type) {
	case *types.Slice, *types.Pointer, *types.Signature, *types.Map, *types.Chan, *types.Interface:
		return true
	}
	return false
}

// unparsedAt are the errors of statements and expressions that Go's parser refuses and the grammar has, and whether it refuses nothing in the file but these and paths of imports, of which the
// checker says so too.
func unparsedAt(file *typed.File) (found []types.Error, only bool) {
	said, is := file.Err.(scanner.ErrorList)
	if !is {
		return nil, false
	}
	for _, one := range said {
		known := one.Msg == "expected expression" || one.Msg == "expected at most 2 expressions"
		if !known && !strings.HasPrefix(one.Msg, "function must be invoked in ") && !strings.HasPrefix(one.Msg, "invalid import path: ") {
			return nil, false
		}
	}
	ast.Inspect(file.Tree, func(node ast.Node) bool {
		switch node.(type) {
		case *ast.BadStmt, *ast.BadExpr:
			found = append(found, types.Error{Pos: node.Pos(), Msg: unparsed})
		}
		return true
	})
	return found, true
}

// behindKey is the place of a map's element with a key that stands twice, and whether its value has a fault: Go's checker looks at it where the element is alone, and then notes its types.
func behindKey(s *survey, pack *types.Package, said types.Error) (at token.Pos, failing bool) {
	if !strings.HasPrefix(said.Msg, "duplicate key ") {
		return token.NoPos, false
	}
	for _, file := range s.files {
		ast.Inspect(file, func(node ast.Node) bool {
			literal, is := node.(*ast.CompositeLit)
			if !is || literal.Type == nil {
				return true
			}
			for _, element := range literal.Elts {
				if pair, is := element.(*ast.KeyValueExpr); is && contains(pair.Key, said.Pos) {
					alone := &ast.CompositeLit{Type: literal.Type, Lbrace: literal.Lbrace, Elts: []ast.Expr{pair}, Rbrace: literal.Rbrace}
					at, failing = pair.Value.Pos(), types.CheckExpr(s.set, pack, literal.Pos(), alone, s.info) != nil
				}
			}
			return true
		})
	}
	return at, failing
}
