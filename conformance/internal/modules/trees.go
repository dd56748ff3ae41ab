// Modules in folders: what is read of them, and those that are made of declarations.
package main

import (
	"bytes"
	"fmt"
	"go/ast"
	"go/token"
	"os"
	"path"
	"path/filepath"
	"strings"

	"apigate/conformance/internal/answers"
)

// A moduleTree is what is read of a module: each file by its path, and what the limits count.
type moduleTree struct {
	module string
	files  map[string]string
	counts map[string]int
}

func isElement(word string) bool {
	for _, one := range []byte(word) {
		letter := 'a' <= one && one <= 'z' || 'A' <= one && one <= 'Z' || '0' <= one && one <= '9'
		if !letter && !strings.ContainsRune("-._~", rune(one)) {
			return false
		}
	}
	return word != "" && word[0] != '-' && word[0] != '.'
}

func isIgnored(name string, folder bool) bool {
	return name[0] == '.' || name[0] == '_' || folder && (name == "testdata" || name == "vendor" || !isElement(name))
}

func (t *moduleTree) walk(top, place string, module bool) {
	entries, err := os.ReadDir(filepath.Join(top, place))
	answers.Fail(err)
	t.counts["folders"]++
	if module && place != "" {
		for _, entry := range entries {
			if entry.Name() == "go.mod" && entry.Type().IsRegular() {
				return
			}
		}
	}
	holds := false
	for _, entry := range entries {
		name := entry.Name()
		below := path.Join(place, name)
		switch {
		case isIgnored(name, entry.IsDir()):
		case entry.IsDir():
			t.walk(top, below, module)
		case entry.Type().IsRegular() && strings.HasSuffix(name, ".go") && !strings.HasSuffix(name, "_test.go"):
			if !module && place == "" {
				continue
			}
			text, err := os.ReadFile(filepath.Join(top, below))
			answers.Fail(err)
			t.files[below] = string(text)
			t.counts["files"]++
			t.counts["bytes"] += len(text)
			if len(text) > t.counts["file-bytes"] {
				t.counts["file-bytes"] = len(text)
			}
			holds = true
		}
	}
	if holds {
		t.counts["packages"]++
	}
}

// readBelow reads the files below a folder; in a module folders with a go.mod are left out.
func readBelow(folder string, module bool) *moduleTree {
	t := &moduleTree{"", map[string]string{}, map[string]int{}}
	t.walk(folder, "", module)
	return t
}

// readModule reads the module in a folder.
func readModule(folder string) *moduleTree {
	t := readBelow(folder, true)
	text, err := os.ReadFile(filepath.Join(folder, "go.mod"))
	answers.Fail(err)
	for _, line := range strings.Split(string(text), "\n") {
		if words := strings.Fields(line); len(words) > 1 && words[0] == "module" {
			t.module = strings.Trim(words[1], "\"`")
		}
	}
	return t
}

func write(folder, place string, text []byte) {
	whole := filepath.Join(folder, place)
	answers.Fail(os.MkdirAll(filepath.Dir(whole), 0o777))
	answers.Fail(os.WriteFile(whole, text, 0o666))
}

// writeTree writes the packages of a folder as those of a module.
func writeTree(cut, module, folder string) {
	write(folder, "go.mod", []byte("module "+module+"\n"))
	for place, text := range readBelow(cut, false).files {
		renamed := answers.Moved(text, func(path string) string { return module + "/" + answers.Opened(path) })
		write(folder, path.Join(answers.Opened(path.Dir(place)), path.Base(place)), []byte(renamed))
	}
}

// buildLine is the line of a file with a build expression, if there is one.
func buildLine(text string) string {
	if strings.HasPrefix(text, "//go:build ") {
		line, _, _ := strings.Cut(text, "\n")
		return line + "\n\n"
	}
	return ""
}

// again declares anew what a file exports.
func again(file *ast.File) string {
	text := &bytes.Buffer{}
	for _, decl := range file.Decls {
		switch decl := decl.(type) {
		case *ast.FuncDecl:
			if decl.Recv == nil && decl.Name.IsExported() {
				fmt.Fprintf(text, "var %s = x.%[1]s\n", decl.Name.Name)
			}
		case *ast.GenDecl:
			for _, spec := range decl.Specs {
				switch spec := spec.(type) {
				case *ast.ValueSpec:
					word := map[token.Token]string{token.CONST: "const", token.VAR: "var"}[decl.Tok]
					for _, name := range spec.Names {
						if name.IsExported() {
							fmt.Fprintf(text, "%s %s = x.%[2]s\n", word, name.Name)
						}
					}
				case *ast.TypeSpec:
					if spec.Name.IsExported() {
						typeAgain(text, spec)
					}
				}
			}
		}
	}
	return text.String()
}

// typeAgain declares an alias of a type, a definition by it, and structs that embed it.
func typeAgain(text *bytes.Buffer, spec *ast.TypeSpec) {
	name := spec.Name.Name
	fmt.Fprintf(text, "type %s = x.%[1]s\n", name)
	fmt.Fprintf(text, "type %s_defined x.%[1]s\n", name)
	switch spec.Type.(type) {
	case *ast.StarExpr:
		return
	case *ast.StructType:
		fmt.Fprintf(text, "type %s_pointer struct { *x.%[1]s }\n", name)
	}
	fmt.Fprintf(text, "type %s_holder struct { x.%[1]s }\n", name)
}

// writeAgain writes a module that declares anew all that packages export. It has a file for each of theirs, for the same platforms.
func writeAgain(cut, module, folder string) {
	write(folder, "go.mod", []byte("module "+module+"\n"))
	for place, text := range readBelow(cut, false).files {
		from := path.Dir(place)
		if answers.Opened(from) != from {
			continue
		}
		file, _, err := answers.Parsed(text)
		answers.Fail(err)
		if declared := again(file); declared != "" && file.Name.Name != "main" {
			write(folder, place, []byte(fmt.Sprintf("%spackage p\n\nimport x %q\n\n%s", buildLine(text), from, declared)))
		}
	}
}
