// Where objects, and what feature lines tell of, are declared.
package main

import (
	"go/ast"
	"go/token"
	"go/types"
	"regexp"
	"strings"

	"apigate/internal/typed"
)

// A place is where something is declared, in the old tree or the new one.
type place struct {
	Tree   string `json:"tree"`
	File   string `json:"file"`
	Line   int    `json:"line"`
	Column int    `json:"column"`
}

// An answered break has its place and the ways to it.
type answered struct {
	Place *place   `json:"place"`
	Ways  []string `json:"ways"`
}

type placesAnswer struct {
	Breaks []answered `json:"breaks"`
	Lines  []*place   `json:"lines"`
}

var line = regexp.MustCompile(`^pkg (\S+)(?: \((\S+)\))?, (?:(const|var|func|type) ([^\s(,]+)(?:.*?, (?:embedded \S*?|)(\w+)\b)?|method \(\*?(\w+)\) (\w+))`)

func (r *request) places(worlds map[string]*typed.World) placesAnswer {
	answer := placesAnswer{Breaks: []answered{}, Lines: []*place{}}
	finders := map[string]*waysFinder{}
	for _, each := range r.Breaks {
		platform := each.Platforms[0]
		old, new := r.world(worlds, r.Old, platform), r.world(worlds, r.New, platform)
		if finders[platform] == nil {
			finders[platform] = newWaysFinder(old, new)
		}
		found := answered{Ways: finders[platform].ways(each)}
		if found.Place = placeOf(new, "new", each.Owner, ""); found.Place == nil {
			found.Place = placeOf(old, "old", each.Owner, "")
		}
		answer.Breaks = append(answer.Breaks, found)
	}
	for _, each := range r.Lines {
		answer.Lines = append(answer.Lines, r.ofLine(worlds, each))
	}
	return answer
}

// ofLine is the place of what a feature line tells of: of a member, and of its type where that is gone.
func (r *request) ofLine(worlds map[string]*typed.World, text string) *place {
	parts := line.FindStringSubmatch(text)
	if parts == nil {
		return nil
	}
	platform := r.Platforms[0]
	if parts[2] != "" {
		platform = parts[2]
	}
	object, member := parts[4], ""
	if parts[3] == "type" {
		member = parts[5]
	}
	if parts[6] != "" {
		object, member = parts[6], parts[7]
	}
	old, new := r.world(worlds, r.Old, platform), r.world(worlds, r.New, platform)
	for _, within := range []string{member, ""} {
		if found := placeOf(new, "new", parts[1]+"."+object, within); found != nil {
			return found
		}
		if found := placeOf(old, "old", parts[1]+"."+object, within); found != nil && within == "" {
			return found
		}
	}
	return nil
}

// placeOf is where a tree declares a package, an object or a member of one.
func placeOf(w *typed.World, tree, owner, member string) *place {
	path, name := w.Split(owner)
	pack := w.Package(path)
	if pack == nil {
		return nil
	}
	at := pack.Files[0].Tree.Name.Pos()
	if name != "" {
		object := pack.Types.Scope().Lookup(name)
		if object == nil {
			return nil
		}
		if at = object.Pos(); member != "" {
			if at = memberOf(object, pack.Types, member); at == token.NoPos {
				return nil
			}
		}
		// an object of a file that isn't parsed whole, or none of this tree
		if at == token.NoPos {
			at = declaredAt(pack, name)
		}
	}
	found := w.Position(at)
	return &place{tree, found.Filename, found.Line, found.Column}
}

// memberOf is where the field or method of a type is declared.
func memberOf(object types.Object, from *types.Package, name string) token.Pos {
	found, _, _ := types.LookupFieldOrMethod(object.Type(), true, from, name)
	if found == nil || found.Pkg() == nil || !strings.HasPrefix(found.Pkg().Path(), from.Path()) {
		return token.NoPos
	}
	return found.Pos()
}

func declaredAt(pack *typed.Package, name string) token.Pos {
	for _, file := range pack.Files {
		for _, decl := range file.Tree.Decls {
			if function, is := decl.(*ast.FuncDecl); is && function.Name.Name == name {
				return function.Name.Pos()
			}
		}
	}
	return pack.Files[0].Tree.Name.Pos()
}
