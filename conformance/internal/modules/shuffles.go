// Modules whose declarations stand in another order, and in other files that the same platforms choose.
package main

import (
	"fmt"
	"go/ast"
	"go/token"
	"math/rand"
	"os"
	"path"
	"path/filepath"
	"sort"
	"strconv"
	"strings"

	"apigate/conformance/internal/answers"
	"apigate/conformance/internal/units"
)

const mostBytes = 4 << 20

// A shuffler deals the declarations of a module out anew.
type shuffler struct {
	*rand.Rand
	tree, std *moduleTree
	platforms []string
	names     map[string]string
	moved     int
}

// An importSpec writes the name of what it imports, or not.
type importSpec struct {
	path    string
	written bool
}

// A dealt file is what stands before its declarations, its imports by their names, and its declarations.
type dealt struct {
	place, start string
	imports      map[string]importSpec
	texts        []string
	size         int
}

// nameOf is the name of the package at an import path, by its first file, or the one that is assumed of it.
func (s *shuffler) nameOf(at string) string {
	if name, is := s.names[at]; is {
		return name
	}
	from, place := s.std, at
	if units.Under(at, s.tree.module) {
		from, place = s.tree, strings.TrimPrefix(strings.TrimPrefix(at, s.tree.module), "/")
	}
	first := ""
	for name := range from.files {
		if in := path.Dir(name); (in == place || in == "." && place == "") && (first == "" || name < first) {
			first = name
		}
	}
	name := units.Assumed(at)
	if first != "" {
		if said := units.Head(s.platforms[0], "p.go", from.files[first]).Clause; said != "" {
			name = said
		}
	}
	s.names[at] = name
	return name
}

// class is which platforms choose a file, and what package it is of; nothing where its header has a fault.
func (s *shuffler) class(place, text string) string {
	class := ""
	for _, platform := range s.platforms {
		one := units.Head(platform, place, text)
		if one.Fault != "" {
			return ""
		}
		class += strconv.FormatBool(one.Chosen) + " " + one.Clause + " "
	}
	return class
}

// textOf is the text of a node.
func textOf(set *token.FileSet, text string, node ast.Node) string {
	file := set.File(node.Pos())
	return text[file.Offset(node.Pos()):file.Offset(node.End())]
}

// open takes a file apart; one with an import that isn't had here, or that Go's parser doesn't read, isn't.
func (s *shuffler) open(place, text string) *dealt {
	file, set, err := answers.Parsed(text)
	if err != nil {
		return nil
	}
	found := &dealt{place: place, start: text[:set.File(file.Package).Offset(file.Package)] + "package " + file.Name.Name + "\n", imports: map[string]importSpec{}}
	for _, spec := range file.Imports {
		at, name := units.Unquoted(spec), ""
		if spec.Name != nil {
			name = spec.Name.Name
		} else {
			name = s.nameOf(at)
		}
		if name == "_" {
			continue
		}
		if _, twice := found.imports[name]; twice || name == "." || at == "C" {
			return nil
		}
		found.imports[name] = importSpec{at, spec.Name != nil}
	}
	for _, decl := range file.Decls {
		group, is := decl.(*ast.GenDecl)
		if is && group.Tok == token.IMPORT {
			continue
		}
		if !is || group.Tok == token.CONST || len(group.Specs) < 2 {
			found.texts = append(found.texts, textOf(set, text, decl))
			continue
		}
		var specs []string
		for _, spec := range group.Specs {
			specs = append(specs, textOf(set, text, spec))
		}
		s.Shuffle(len(specs), func(i, j int) { specs[i], specs[j] = specs[j], specs[i] })
		found.texts = append(found.texts, group.Tok.String()+" (\n"+strings.Join(specs, "\n")+"\n)")
	}
	return found
}

// together are the imports of files, or nothing where a name means different packages in them.
func together(files []*dealt) map[string]importSpec {
	all := map[string]importSpec{}
	for _, one := range files {
		for name, spec := range one.imports {
			if other, is := all[name]; is && other.path != spec.path {
				return nil
			}
			all[name] = spec
		}
	}
	return all
}

// deal gives files their declarations anew.
func (s *shuffler) deal(files []*dealt) {
	imports := together(files)
	if imports == nil {
		for _, one := range files {
			s.Shuffle(len(one.texts), func(i, j int) { one.texts[i], one.texts[j] = one.texts[j], one.texts[i] })
		}
		return
	}
	type owned struct {
		text string
		from *dealt
	}
	var all []owned
	for _, one := range files {
		for _, text := range one.texts {
			all = append(all, owned{text, one})
		}
		one.imports, one.texts, one.size = imports, nil, len(one.start)
		for name, spec := range imports {
			one.size += len(name) + len(spec.path) + 16
		}
	}
	s.Shuffle(len(all), func(i, j int) { all[i], all[j] = all[j], all[i] })
	for _, one := range all {
		to := files[s.Intn(len(files))]
		for _, other := range files {
			if to.size+len(one.text) > mostBytes && other.size < to.size {
				to = other
			}
		}
		if to != one.from {
			s.moved++
		}
		to.texts = append(to.texts, one.text)
		to.size += len(one.text) + 2
	}
}

func (one *dealt) text() string {
	text := &strings.Builder{}
	text.WriteString(one.start)
	names := map[string]bool{}
	for name := range one.imports {
		names[name] = true
	}
	for _, name := range answers.SortedKeys(names) {
		if spec := one.imports[name]; spec.written {
			fmt.Fprintf(text, "\nimport %s %q\n", name, spec.path)
		} else {
			fmt.Fprintf(text, "\nimport %q\n", spec.path)
		}
	}
	for _, decl := range one.texts {
		text.WriteString("\n" + decl + "\n")
	}
	return text.String()
}

// writeShuffled writes a module whose declarations were dealt out anew, and tells how many stand in another file.
func writeShuffled(folder, std, into, seed string, platforms []string) {
	number, err := strconv.ParseInt(seed, 10, 64)
	answers.Fail(err)
	s := &shuffler{rand.New(rand.NewSource(number)), readModule(folder), readBelow(std, false), platforms, map[string]string{}, 0}
	text, err := os.ReadFile(filepath.Join(folder, "go.mod"))
	answers.Fail(err)
	write(into, "go.mod", text)
	groups := map[string][]*dealt{}
	var places []string
	for place := range s.tree.files {
		places = append(places, place)
	}
	sort.Strings(places)
	for _, place := range places {
		class := s.class(place, s.tree.files[place])
		if found := s.open(place, s.tree.files[place]); class != "" && found != nil {
			key := path.Dir(place) + " " + class
			groups[key] = append(groups[key], found)
		} else {
			write(into, place, []byte(s.tree.files[place]))
		}
	}
	all := map[string]bool{}
	for key := range groups {
		all[key] = true
	}
	for _, key := range answers.SortedKeys(all) {
		s.deal(groups[key])
		for _, one := range groups[key] {
			write(into, one.place, []byte(one.text()))
		}
	}
	tell(s.moved)
}
