package main

import (
	"fmt"
	"go/ast"
	"go/parser"
	"go/token"
	"math/rand"
	"os"
	"path/filepath"
	"sort"
	"strings"

	"apigate/internal/trees"
)

// A piece is an import or a declaration of a client, but of a group of types or variables each spec: its bytes in a file, and where it begins in the shuffled client.
type piece struct {
	File, To       string
	Start, End, At int
	Names          []string
	word           string // in front of a spec that stood in a group
}

// A shuffle is a client with its files and declarations in another order.
type shuffle struct {
	Files   map[string]string `json:",omitempty"`
	Pieces  []piece
	Answers []answer `json:",omitempty"`
}

// opened is a file taken apart: what stands before its package clause, the clause, the imports and the declarations.
type opened struct {
	head, clause       string
	imports, declaring []piece
	text               string
}

func sortedNames(texts map[string]string) (found []string) {
	for name := range texts {
		found = append(found, name)
	}
	sort.Strings(found)
	return found
}

func importedName(spec *ast.ImportSpec) string {
	if spec.Name != nil {
		return spec.Name.Name
	}
	return trees.AssumedName(strings.Trim(spec.Path.Value, "\"`"))
}

// open takes a file apart; one that Go's parser doesn't read, or that imports "C", isn't.
func open(name, text string) *opened {
	set := token.NewFileSet()
	file, err := parser.ParseFile(set, name, text, parser.ParseComments|parser.SkipObjectResolution)
	if err != nil || trees.ImportsC(file) {
		return nil
	}
	offset := func(at token.Pos) int { return set.File(file.Pos()).Offset(at) }
	found := &opened{head: text[:offset(file.Package)], clause: "package " + file.Name.Name + "\n", text: text}
	take := func(tree ast.Node, word string, names ...string) piece {
		return piece{File: name, Start: offset(tree.Pos()), End: offset(tree.End()), Names: names, word: word}
	}
	declared := func(specs ...ast.Spec) (found []string) {
		for _, spec := range specs {
			for _, each := range names(spec) {
				found = append(found, each.Name)
			}
		}
		return found
	}
	for _, decl := range file.Decls {
		group, is := decl.(*ast.GenDecl)
		switch {
		case !is:
			found.declaring = append(found.declaring, take(decl, "", decl.(*ast.FuncDecl).Name.Name))
		case group.Tok == token.IMPORT:
			for _, spec := range group.Specs {
				found.imports = append(found.imports, take(spec, "import ", importedName(spec.(*ast.ImportSpec))))
			}
		case group.Tok == token.CONST || !group.Lparen.IsValid():
			found.declaring = append(found.declaring, take(decl, "", declared(group.Specs...)...))
		default:
			for _, spec := range group.Specs {
				found.declaring = append(found.declaring, take(spec, group.Tok.String()+" ", declared(spec)...))
			}
		}
	}
	return found
}

// written are the texts of a file's parts, one behind another; each piece gets the place at which it begins.
func written(name string, one *opened, of map[string]*opened, imports, declaring []piece) (string, []piece) {
	var text strings.Builder
	var placed []piece
	text.WriteString(one.head + one.clause)
	for _, each := range append(append([]piece{}, imports...), declaring...) {
		text.WriteString("\n" + each.word)
		each.To, each.At = name, text.Len()
		text.WriteString(of[each.File].text[each.Start:each.End] + "\n")
		placed = append(placed, each)
	}
	return text.String(), placed
}

// shuffled is a client with its files by other names, and so in another order, and the declarations of each in another order. One file alone becomes up to three.
func shuffled(draw *rand.Rand, texts map[string]string) *shuffle {
	found := &shuffle{Files: map[string]string{}}
	of, known := map[string]*opened{}, sortedNames(texts)
	for _, name := range known {
		if of[name] = open(name, texts[name]); of[name] == nil {
			return nil
		}
	}
	places := draw.Perm(len(known))
	for i, name := range known {
		one := of[name]
		draw.Shuffle(len(one.declaring), func(i, j int) { one.declaring[i], one.declaring[j] = one.declaring[j], one.declaring[i] })
		parts := 1
		if len(known) == 1 {
			parts = 1 + draw.Intn(3)
		}
		for part := 0; part < parts; part++ {
			from, to := len(one.declaring)*part/parts, len(one.declaring)*(part+1)/parts
			into := fmt.Sprintf("s%03d%s", places[i]*parts+part, name)
			text, placed := written(into, one, of, one.imports, one.declaring[from:to])
			found.Files[into] = text
			if part > 0 {
				placed = placed[len(one.imports):] // an import is told where it stands first
			}
			found.Pieces = append(found.Pieces, placed...)
		}
	}
	return found
}

// shuffledFolder writes a folder's client anew into another one, and keeps the pieces alone.
func shuffledFolder(draw *rand.Rand, folder, into string) *shuffle {
	texts := map[string]string{}
	entries, err := os.ReadDir(folder)
	fail(err)
	for _, entry := range entries {
		name := entry.Name()
		if entry.Type().IsRegular() && strings.HasSuffix(name, ".go") && !strings.HasSuffix(name, "_test.go") && name[0] != '.' && name[0] != '_' {
			text, err := os.ReadFile(filepath.Join(folder, name))
			fail(err)
			texts[name] = string(text)
		}
	}
	found := shuffled(draw, texts)
	if found == nil {
		return nil
	}
	fail(os.MkdirAll(into, 0o777))
	for name, text := range found.Files {
		fail(os.WriteFile(filepath.Join(into, name), []byte(text), 0o666))
	}
	found.Files = nil
	return found
}
