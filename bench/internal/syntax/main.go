// Go's scanner and parser over many sources in one process. It reads frames: a line with the length of a
// source in bytes, then the bytes.
//
//	parse                parses each source whole, and prints ok or refused for each
//	declarations SIZE    prints one source of at most SIZE bytes: the declarations of the sources, but for
//	                     imports, one source behind the other
package main

import (
	"bufio"
	"fmt"
	"go/ast"
	"go/parser"
	"go/token"
	"os"
	"strconv"

	"apigate/internal/frames"
)

// declarations is the text of a source behind its imports.
func declarations(source []byte) []byte {
	files := token.NewFileSet()
	file, err := parser.ParseFile(files, "", source, parser.SkipObjectResolution)
	if err != nil {
		return nil
	}
	from := file.Name.End()
	for _, decl := range file.Decls {
		if imports, is := decl.(*ast.GenDecl); is && imports.Tok == token.IMPORT {
			from = decl.End()
		}
	}
	return append(source[files.Position(from).Offset:], '\n')
}

func main() {
	out := bufio.NewWriterSize(os.Stdout, 1<<16)
	defer out.Flush()
	switch {
	case len(os.Args) == 2 && os.Args[1] == "parse":
		frames.Frames(func(source []byte) bool {
			_, err := parser.ParseFile(token.NewFileSet(), "", source, 0)
			if err != nil {
				fmt.Fprintln(out, "refused")
			} else {
				fmt.Fprintln(out, "ok")
			}
			return true
		})
	case len(os.Args) == 3 && os.Args[1] == "declarations":
		left, err := strconv.Atoi(os.Args[2])
		if err != nil {
			os.Exit(2)
		}
		head := "package p\n"
		left -= len(head)
		out.WriteString(head)
		frames.Frames(func(source []byte) bool {
			if text := declarations(source); len(text) <= left {
				out.Write(text)
				left -= len(text)
			}
			return left > 0
		})
	default:
		os.Exit(2)
	}
}
