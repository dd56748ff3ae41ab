package main

import (
	"bytes"
	"go/ast"
	"go/parser"
	"go/printer"
	"go/token"
)

// lists are the lists of statements in a function, each once.
func lists(tree ast.Node) (found []*[]ast.Stmt) {
	ast.Inspect(tree, func(node ast.Node) bool {
		switch node := node.(type) {
		case *ast.BlockStmt:
			found = append(found, &node.List)
		case *ast.CaseClause:
			found = append(found, &node.Body)
		case *ast.CommClause:
			found = append(found, &node.Body)
		}
		return true
	})
	return found
}

// parsed is a function by its text, in a file of its own.
func parsed(text string) (*token.FileSet, *ast.File, bool) {
	set := token.NewFileSet()
	file, err := parser.ParseFile(set, "", "package c\n"+text, parser.SkipObjectResolution)
	return set, file, err == nil
}

// printed is the function's text.
func printed(set *token.FileSet, file *ast.File) string {
	var out bytes.Buffer
	fail(printer.Fprint(&out, set, file.Decls[0]))
	return out.String() + "\n"
}

// without drops the innermost statements that hold one of the places, which are those of the function alone.
func without(text string, places []token.Position) (string, bool) {
	set, file, is := parsed(text)
	if !is {
		return "", false
	}
	dropped := false
	for _, place := range places {
		line := place.Line + 1
		if line < 2 || line > set.File(file.Pos()).LineCount() {
			return "", false
		}
		at := set.File(file.Pos()).LineStart(line) + token.Pos(place.Column-1)
		var list *[]ast.Stmt
		drop := -1
		for _, each := range lists(file.Decls[0]) {
			for i, statement := range *each {
				if statement.Pos() <= at && at < statement.End() {
					list, drop = each, i
				}
			}
		}
		if drop >= 0 {
			*list = append(append([]ast.Stmt{}, (*list)[:drop]...), (*list)[drop+1:]...)
			dropped = true
		}
	}
	return printed(set, file), dropped
}

// spoiled is a function with one fault: a token of it is another one, or a statement that breaks a rule stands somewhere before another one.
func (d *drawer) spoiled(text string) string {
	m := d.maker
	m.scopes = nil
	m.open()
	set, file, is := parsed(text)
	if !is {
		return text
	}
	var starts []int
	for _, list := range lists(file.Decls[0]) {
		for _, statement := range *list {
			starts = append(starts, set.Position(statement.Pos()).Offset-len("package c\n"))
		}
	}
	ast.Inspect(file.Decls[0], func(node ast.Node) bool {
		if define, is := node.(*ast.AssignStmt); is && define.Tok == token.DEFINE {
			for _, tree := range define.Lhs {
				if name, is := tree.(*ast.Ident); is {
					m.declare(name.Name, m.Any())
				}
			}
		}
		return true
	})
	m.declare("a", m.Any())
	m.see()
	if len(starts) == 0 || m.Chance(50) {
		return m.Spoiled(text)
	}
	at := starts[m.Intn(len(starts))]
	return text[:at] + m.wrong(2) + "\n" + text[at:]
}
