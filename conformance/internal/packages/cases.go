// Tells cases: trees of a few packages, each with a part that is changed so that most are in error.
package main

import (
	"bytes"
	"fmt"
	"math/rand"
	"os"
	"sort"
	"strings"

	"apigate/conformance/internal/answers"
	"apigate/conformance/internal/units"
	"apigate/internal/worlds"
)

var platforms = []string{"linux-amd64", "linux-386", "windows-amd64", "windows-386", "darwin-arm64"}

var packageNames = []string{"alpha", "beta", "gamma", "delta"}

// pieces are the files of the package: its declarations in another order, in groups, each file with the imports that it names.
func (m *maker) pieces(std bool) []answers.Piece {
	m.Shuffle(len(m.decls), func(i, j int) { m.decls[i], m.decls[j] = m.decls[j], m.decls[i] })
	count := 1 + m.Intn(3)
	bodies := make([][]string, count)
	for _, one := range m.decls {
		at := m.Intn(count)
		bodies[at] = append(bodies[at], one)
	}
	var all []answers.Piece
	for i, body := range bodies {
		text := "package " + m.name + "\n\n"
		for _, path := range m.imports {
			if strings.Contains(strings.Join(body, "\n"), m.over[path].Name()+".") || m.chance(10) {
				text += "import \"" + path + "\"\n"
			}
		}
		if m.chance(5) {
			text += m.one(`import "gone"`, `import _ "gone/v2"`, `import other "unsafe"`) + "\n"
		}
		for at := 0; at < len(body); at++ {
			word, rest, _ := strings.Cut(body[at], " ")
			if at+1 < len(body) && word != "func" && strings.HasPrefix(body[at+1], word+" ") && !strings.Contains(body[at]+body[at+1], "(\n") && m.chance(60) {
				text += "\n" + word + " (\n\t" + rest + "\n\t" + body[at+1][len(word)+1:] + "\n)\n"
				at++
				continue
			}
			text += "\n" + body[at] + "\n"
		}
		all = append(all, answers.Piece{Path: m.path, Name: fmt.Sprintf("%s%d.go", m.one("a", "p", "z"), i), Text: text, Std: std})
	}
	return all
}

// madeTree is a tree of packages that are made.
func madeTree(draw *rand.Rand) answers.Tree {
	made := answers.Tree{Module: []string{"m", "example.com/m"}[draw.Intn(2)]}
	over := worlds.Packages{}
	var before []string
	for i := 0; i < 1+draw.Intn(3); i++ {
		std := i == 0 && draw.Intn(4) == 0
		place := packageNames[i]
		if !std {
			place = made.Module + "/" + []string{"", "", "", "internal/"}[draw.Intn(4)] + place
		}
		one := &maker{Rand: draw, path: place, name: packageNames[i], over: over, imports: append([]string{}, before...)}
		one.make()
		made.Pieces = append(made.Pieces, one.pieces(std)...)
		before = append(before, place)
	}
	return made
}

// A shelf are packages of a folder, with what each of them imports.
type shelf struct {
	paths  []string
	byPath map[string][]answers.Piece
	needs  map[string][]string
}

func shelfOf(folder string) *shelf {
	s := &shelf{byPath: map[string][]answers.Piece{}, needs: map[string][]string{}}
	for _, one := range answers.PiecesBelow(folder, "linux-amd64") {
		if s.byPath[one.Path] == nil {
			s.paths = append(s.paths, one.Path)
		}
		s.byPath[one.Path] = append(s.byPath[one.Path], one)
		file, _, err := answers.Parsed(one.Text)
		answers.Fail(err)
		for _, spec := range file.Imports {
			s.needs[one.Path] = append(s.needs[one.Path], units.Unquoted(spec))
		}
	}
	return s
}

// closure are the packages that a package needs, itself too, and how long they are.
func (s *shelf) closure(place string) (all []string, size int) {
	seen := map[string]bool{place: true}
	all = []string{place}
	for at := 0; at < len(all); at++ {
		for _, one := range s.byPath[all[at]] {
			size += len(one.Text)
		}
		for _, next := range s.needs[all[at]] {
			if !seen[next] {
				seen[next] = true
				all = append(all, next)
			}
		}
	}
	sort.Strings(all)
	return all, size
}

// some is a tree of a package that was cut and those that it needs.
func (s *shelf) some(draw *rand.Rand) answers.Tree {
	for {
		all, size := s.closure(s.paths[draw.Intn(len(s.paths))])
		if size > 20000 {
			continue
		}
		var pieces []answers.Piece
		for _, place := range all {
			pieces = append(pieces, s.byPath[place]...)
		}
		return answers.Tree{Module: "m", Pieces: answers.Within("m", pieces)}
	}
}

// tellCases tells so many cases. Of each base, a tree that was made or cut, come so many, the first one as it is.
func tellCases(seed int64, count, bases int, cut string) {
	draw := rand.New(rand.NewSource(seed))
	var shelves *shelf
	if cut != "" {
		if _, err := os.Stat(cut); err == nil {
			shelves = shelfOf(cut)
		}
	}
	for number := 0; number < count; {
		kind := "made"
		var base answers.Tree
		if shelves != nil && draw.Intn(5) == 0 {
			kind, base = "cut", shelves.some(draw)
		} else {
			base = madeTree(draw)
		}
		for i := 0; i < bases && number < count; i++ {
			one, how := base, "as it is"
			if i > 0 {
				one, how = spoiled(draw, base)
			}
			platform := platforms[draw.Intn(len(platforms))]
			if kind == "cut" {
				platform = "linux-amd64"
			}
			var text bytes.Buffer
			fmt.Fprintf(&text, "# %d, %s: %s\n", number, kind, how)
			one.Write(&text, platform)
			out.Write(text.Bytes())
			number++
		}
	}
}
