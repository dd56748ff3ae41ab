// Front tells whether what a note says of a place of a Go file is true, by Go's own parser and checker. It reads lines of a file, a line, a
// column and a cause, parted by tabs, and prints `true` for each, or what stands there instead.
package main

import (
	"bufio"
	"fmt"
	"go/ast"
	"go/constant"
	"go/importer"
	"go/parser"
	"go/token"
	"go/types"
	"os"
	"path/filepath"
	"strconv"
	"strings"
)

func main() {
	lines := bufio.NewScanner(os.Stdin)
	for lines.Scan() {
		words := strings.SplitN(lines.Text(), "\t", 4)
		line, _ := strconv.Atoi(words[1])
		column, _ := strconv.Atoi(words[2])
		fmt.Println(verdict(words[0], line, column, words[3]))
	}
}

func verdict(path string, line, column int, cause string) string {
	set := token.NewFileSet()
	file, err := parser.ParseFile(set, path, nil, parser.SkipObjectResolution)
	if err != nil {
		if strings.HasPrefix(cause, "go/parser: ") && strings.Contains(err.Error(), strings.TrimPrefix(cause, "go/parser: ")) {
			return "true"
		}
		return err.Error()
	}
	var here []ast.Node
	inBody := false
	ast.Inspect(file, func(node ast.Node) bool {
		if node == nil {
			return true
		}
		at := set.Position(node.Pos())
		if body, is := node.(*ast.BlockStmt); is && set.Position(body.Pos()).Offset < offset(set, file, line, column) && offset(set, file, line, column) < set.Position(body.End()).Offset {
			inBody = true
		}
		if at.Line == line && at.Column == column {
			here = append(here, node)
		}
		return true
	})
	if inBody {
		return "this is within a body"
	}
	for _, node := range here {
		if holds(set, file, node, cause) {
			return "true"
		}
	}
	return fmt.Sprintf("%d nodes stand there, none of which is that", len(here))
}

func offset(set *token.FileSet, file *ast.File, line, column int) int {
	at := set.File(file.Pos())
	if line > at.LineCount() {
		return -1
	}
	return at.Offset(at.LineStart(line)) + column - 1
}

// holds says whether a node is what a cause tells of.
func holds(set *token.FileSet, file *ast.File, node ast.Node, cause string) bool {
	if _, why, is := strings.Cut(cause, " isn't in the profile: "); is {
		_, isName := node.(*ast.Ident)
		return isName && hasValue(set, file, node, why)
	}
	switch {
	case strings.HasPrefix(cause, "a floating constant"), strings.HasPrefix(cause, "a complex constant"), cause == "a number past 128 bits":
		return hasValue(set, file, node, cause)
	case cause == "type parameters":
		switch node := node.(type) {
		case *ast.FuncType:
			return node.TypeParams != nil
		case *ast.FieldList:
			return true
		}
	case cause == "type arguments":
		switch node.(type) {
		case *ast.IndexExpr, *ast.IndexListExpr:
			return true
		}
	case cause == "a constraint":
		form, is := node.(*ast.InterfaceType)
		found := false
		if is {
			for _, field := range form.Methods.List {
				switch field.Type.(type) {
				case *ast.UnaryExpr, *ast.BinaryExpr:
					found = true
				}
			}
		}
		return found
	case strings.HasPrefix(cause, "unsafe."):
		selector, is := node.(*ast.SelectorExpr)
		return is && "unsafe."+selector.Sel.Name == cause && imports(file, "unsafe")
	case strings.HasPrefix(cause, "import . "):
		spec, is := node.(*ast.ImportSpec)
		return is && spec.Name != nil && spec.Name.Name == "." && cause == "import . "+spec.Path.Value
	}
	return false
}

func imports(file *ast.File, path string) bool {
	for _, spec := range file.Imports {
		if spec.Path.Value == strconv.Quote(path) {
			return true
		}
	}
	return false
}

// hasValue types the package of a file, and says whether a node has a value of the kind.
func hasValue(set *token.FileSet, file *ast.File, node ast.Node, cause string) bool {
	if literal, is := node.(*ast.BasicLit); is {
		return literal.Kind == token.FLOAT && strings.HasPrefix(cause, "a floating") || literal.Kind == token.IMAG && strings.HasPrefix(cause, "a complex")
	}
	info := &types.Info{Types: map[ast.Expr]types.TypeAndValue{}, Defs: map[*ast.Ident]types.Object{}, Uses: map[*ast.Ident]types.Object{}}
	files := []*ast.File{file}
	beside, _ := filepath.Glob(filepath.Join(filepath.Dir(set.Position(file.Pos()).Filename), "*.go"))
	for _, path := range beside {
		if path != set.Position(file.Pos()).Filename && !strings.HasSuffix(path, "_test.go") {
			if other, err := parser.ParseFile(set, path, nil, parser.SkipObjectResolution); err == nil && other.Name.Name == file.Name.Name {
				files = append(files, other)
			}
		}
	}
	settings := types.Config{IgnoreFuncBodies: true, Error: func(error) {}, Importer: importer.ForCompiler(set, "source", nil)}
	settings.Check("front", set, files, info)
	var value constant.Value
	var t types.Type
	if name, is := node.(*ast.Ident); is {
		for _, object := range []types.Object{info.Defs[name], info.Uses[name]} {
			if object, is := object.(*types.Const); is {
				value, t = object.Val(), object.Type()
			}
		}
	}
	if expr, is := node.(ast.Expr); is && value == nil {
		value, t = info.Types[expr].Value, info.TypeOf(expr)
	}
	if value == nil || t == nil {
		return false
	}
	basic, is := t.Underlying().(*types.Basic)
	switch {
	case !is:
		return false
	case strings.HasPrefix(cause, "a floating"):
		return basic.Info()&types.IsFloat != 0
	case strings.HasPrefix(cause, "a complex"):
		return basic.Info()&types.IsComplex != 0
	}
	return value.Kind() == constant.Int && constant.BitLen(value) > 127
}
