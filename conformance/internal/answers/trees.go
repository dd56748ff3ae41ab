// Trees of packages: those that a folder holds, and how they are told.
package answers

import (
	"bytes"
	"fmt"
	"go/ast"
	"go/parser"
	"go/token"
	"io/fs"
	"os"
	"path"
	"path/filepath"
	"sort"
	"strconv"
	"strings"

	"apigate/conformance/internal/units"
)

// Fail ends the program where something that it reads isn't as it was made.
func Fail(err error) {
	if err != nil {
		panic(err)
	}
}

// A Piece is a file of a package.
type Piece struct {
	Path, Name, Text string
	Std              bool
}

// A Tree is a module with the standard library's packages beside it.
type Tree struct {
	Module string
	Pieces []Piece
}

// Write tells the tree line by line, and asks for its features.
func (t Tree) Write(out *bytes.Buffer, platform string) {
	fmt.Fprintf(out, "new go.mod\n|module %s\nstd none/none.txt\n", t.Module)
	for _, one := range t.Pieces {
		side, place := "std", one.Path
		if !one.Std {
			side, place = "new", strings.TrimPrefix(strings.TrimPrefix(one.Path, t.Module), "/")
		}
		fmt.Fprintf(out, "%s %s\n", side, path.Join(place, one.Name))
		for _, line := range strings.Split(strings.TrimSuffix(one.Text, "\n"), "\n") {
			fmt.Fprintf(out, "|%s\n", line)
		}
	}
	fmt.Fprintf(out, "features %s\n", platform)
}

// Opened is an import path whose every element is public and read.
func Opened(place string) string {
	elements := strings.Split(place, "/")
	for i, one := range elements {
		switch one {
		case "internal", "vendor", "testdata":
			elements[i] = one + "-open"
		}
	}
	return strings.Join(elements, "/")
}

func ParsedIn(set *token.FileSet, text string) (*ast.File, error) {
	return parser.ParseFile(set, "", text, parser.SkipObjectResolution)
}

func Parsed(text string) (*ast.File, *token.FileSet, error) {
	set := token.NewFileSet()
	file, err := ParsedIn(set, text)
	return file, set, err
}

// Moved is the text of a file with its import paths changed.
func Moved(text string, move func(string) string) string {
	file, set, err := Parsed(text)
	Fail(err)
	end := len(text)
	for i := len(file.Imports) - 1; i >= 0; i-- {
		literal := file.Imports[i].Path
		at := set.Position(literal.Pos()).Offset
		end = at + len(literal.Value)
		text = text[:at] + strconv.Quote(move(units.Unquoted(file.Imports[i]))) + text[end:]
	}
	return text
}

// PiecesBelow are the files below a folder that a platform chooses, but for those of commands.
func PiecesBelow(folder, platform string) (pieces []Piece) {
	Fail(filepath.WalkDir(folder, func(place string, entry fs.DirEntry, err error) error {
		if err != nil || entry.IsDir() || !strings.HasSuffix(place, ".go") {
			return err
		}
		data, err := os.ReadFile(place)
		Fail(err)
		below, err := filepath.Rel(folder, filepath.Dir(place))
		Fail(err)
		if one := units.Head(platform, place, string(data)); one.Allowed && one.Chosen && one.Clause != "main" {
			pieces = append(pieces, Piece{filepath.ToSlash(below), entry.Name(), string(data), false})
		}
		return nil
	}))
	sort.SliceStable(pieces, func(i, j int) bool { return pieces[i].Path < pieces[j].Path })
	return pieces
}

// Within are pieces as packages of a module.
func Within(module string, pieces []Piece) []Piece {
	move := func(place string) string { return module + "/" + Opened(place) }
	var all []Piece
	for _, one := range pieces {
		all = append(all, Piece{move(one.Path), one.Name, Moved(one.Text, move), false})
	}
	return all
}
