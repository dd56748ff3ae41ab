// Go's parser and type checker over expressions in one process. It reads lines, and of those that begin with
// "expression " it prints the type and the value, if any, of the rest, or why there is none.
package main

import (
	"bufio"
	"fmt"
	"go/ast"
	"go/parser"
	"go/token"
	"go/types"
	"os"
	"strings"
)

const source = "package c; var x int; var s []int; func f(n int) int { for {} }; type T struct { A, B, C, D int }"

func main() {
	files := token.NewFileSet()
	tree, err := parser.ParseFile(files, "", source, 0)
	if err != nil {
		panic(err)
	}
	pack, err := new(types.Config).Check("c", files, []*ast.File{tree}, nil)
	if err != nil {
		panic(err)
	}
	lines := bufio.NewScanner(os.Stdin)
	lines.Buffer(nil, 1<<24)
	out := bufio.NewWriter(os.Stdout)
	defer out.Flush()
	for lines.Scan() {
		text := strings.TrimPrefix(lines.Text(), "expression ")
		if text == lines.Text() {
			continue
		}
		expr, err := parser.ParseExprFrom(files, "", text, 0)
		if err != nil {
			fmt.Fprintln(out, "no expression")
			continue
		}
		info := &types.Info{Types: map[ast.Expr]types.TypeAndValue{}}
		if err := types.CheckExpr(files, pack, token.NoPos, expr, info); err != nil {
			fmt.Fprintln(out, "untyped")
			continue
		}
		fmt.Fprintln(out, info.Types[expr].Type)
	}
}
