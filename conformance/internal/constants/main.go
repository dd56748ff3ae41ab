// Asks Go's type checker for the values of constants. It reads an operation a line, in the form of the
// crate constants, and prints Go's answer to each: a value, none, true or false.
package main

import (
	"bufio"
	"encoding/hex"
	"fmt"
	"go/ast"
	"go/constant"
	"go/parser"
	"go/token"
	"go/types"
	"os"
	"strconv"
	"strings"
)

// literal is the value as an expression of the kind.
func literal(word, kind string) string {
	at := strings.IndexByte(word, ':')
	sort, rest := word[:at], word[at+1:]
	text := rest
	switch sort {
	case "int":
		text = "(" + rest + ")"
		if kind == "untyped-rune" {
			text = "('\\x00' + " + text + ")"
		}
	case "text":
		digits, count := rest, 1
		if star := strings.IndexByte(rest, '*'); star >= 0 {
			digits = rest[:star]
			count, _ = strconv.Atoi(rest[star+1:])
		}
		bytes, err := hex.DecodeString(digits)
		if err != nil {
			panic(err)
		}
		text = strconv.Quote(strings.Repeat(string(bytes), count))
	}
	if kind == "" || strings.HasPrefix(kind, "untyped-") {
		return text
	}
	return kind + "(" + text + ")"
}

// declaration is the operation as a declaration of its own line, and whether its value is asked for.
func declaration(name string, w []string) (text string, bits string) {
	switch w[0] {
	case "unary":
		return fmt.Sprintf("const %s = %s(%s)", name, w[1], literal(w[4], w[2])), w[3]
	case "binary":
		return fmt.Sprintf("const %s = %s %s %s", name, literal(w[4], w[2]), w[1], literal(w[5], w[2])), w[3]
	case "shift":
		return fmt.Sprintf("const %s = %s %s %s", name, literal(w[4], w[2]), w[1], literal(w[5], "")), w[3]
	case "compare":
		return fmt.Sprintf("const %s = %s %s %s", name, literal(w[2], ""), w[1], literal(w[3], "")), "64"
	case "representable":
		return fmt.Sprintf("var %s %s = %s", name, w[1], literal(w[3], "")), w[2]
	case "convert":
		return fmt.Sprintf("const %s = %s(%s)", name, w[2], literal(w[4], w[1])), w[3]
	}
	panic(w[0])
}

// shownText is a text in hexadecimal digits, or as one byte and a count.
func shownText(text string) string {
	if len(text) > 64 && strings.Count(text, text[:1]) == len(text) {
		return fmt.Sprintf("text:%x*%d", text[:1], len(text))
	}
	return "text:" + hex.EncodeToString([]byte(text))
}

func shown(value constant.Value) string {
	switch value.Kind() {
	case constant.Bool:
		return "truth:" + value.String()
	case constant.String:
		return shownText(constant.StringVal(value))
	case constant.Int:
		return "int:" + value.ExactString()
	case constant.Unknown:
		return "none"
	}
	if whole := constant.ToInt(value); whole.Kind() == constant.Int {
		return "int:" + whole.ExactString()
	}
	return "other:" + value.ExactString()
}

// ask gives Go's answers to the operations of one size of int.
func ask(architecture string, places []int, operations [][]string, answers []string) {
	var source strings.Builder
	source.WriteString("package p\n")
	for i, place := range places {
		text, _ := declaration("x"+strconv.Itoa(i), operations[place])
		source.WriteString(text + "\n")
	}
	files := token.NewFileSet()
	file, err := parser.ParseFile(files, "p.go", source.String(), 0)
	if err != nil {
		panic(err)
	}
	refused := map[int]bool{}
	config := types.Config{Sizes: types.SizesFor("gc", architecture), Error: func(err error) {
		refused[files.Position(err.(types.Error).Pos).Line-2] = true
	}}
	pack, _ := config.Check("p", files, []*ast.File{file}, nil)
	for i, place := range places {
		object := pack.Scope().Lookup("x" + strconv.Itoa(i))
		switch {
		case operations[place][0] == "representable":
			answers[place] = strconv.FormatBool(!refused[i])
		case refused[i]:
			answers[place] = "none"
		case operations[place][0] == "compare":
			answers[place] = object.(*types.Const).Val().String()
		default:
			answers[place] = shown(object.(*types.Const).Val())
		}
	}
}

func main() {
	lines := bufio.NewScanner(os.Stdin)
	lines.Buffer(nil, 1<<20)
	var operations [][]string
	var small, large []int
	for lines.Scan() {
		operation := strings.Split(lines.Text(), " ")
		if _, bits := declaration("x", operation); bits == "32" {
			small = append(small, len(operations))
		} else {
			large = append(large, len(operations))
		}
		operations = append(operations, operation)
	}
	answers := make([]string, len(operations))
	ask("386", small, operations, answers)
	ask("amd64", large, operations, answers)
	out := bufio.NewWriter(os.Stdout)
	defer out.Flush()
	for _, answer := range answers {
		fmt.Fprintln(out, answer)
	}
}
