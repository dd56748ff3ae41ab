// What packages need of others, as a set of objects that can be written, and the files that hold them.
package main

import (
	"bytes"
	"fmt"
	"go/format"
	"go/types"
	"path"
	"sort"
	"strconv"
	"strings"

	"apigate/internal/trees"
)

// A cut is what is needed on one platform.
type cut struct {
	loader  *loader
	trees   []*trees.Tree
	units   map[*types.Package]*unit
	dropped map[types.Object]string
	kept    map[types.Object]*declaration
	lines   map[string]bool   // what was dropped or replaced, and why
	files   map[string]string // the text of each package, by its path
	wants   bool              // whether something that a module names was dropped
}

// embeddedAs is the name by which a field is embedded, if that is known.
func (c *cut) embeddedAs(field *types.Var) *types.TypeName {
	if unit := c.units[field.Pkg()]; unit != nil {
		return unit.embedded[field]
	}
	return nil
}

// aliasHere is an alias of a type that may be named in a package, in one of those that this imports.
func (c *cut) aliasHere(here *types.Package, of types.Object) types.Object {
	unit := c.units[here]
	if unit == nil {
		return nil
	}
	for _, below := range unit.imports {
		if object := below.aliasesOf()[of]; object != nil && barred(here.Path(), object) == "" && c.dropped[object] == "" {
			return object
		}
	}
	return nil
}

// written is the right side of a type declaration.
func (c *cut) written(object types.Object) types.Type {
	if unit := c.units[object.Pkg()]; unit != nil {
		return unit.written[object]
	}
	return nil
}

// cutOut gives files for the packages `units` and all others that are wanted so that the objects `roots`, which modules name, and
// `more` mean what they do.
func cutOut(l *loader, trees []*trees.Tree, units []*unit, roots, more []types.Object) *cut {
	c := &cut{
		loader: l, trees: trees, units: map[*types.Package]*unit{}, dropped: map[types.Object]string{},
		kept: map[types.Object]*declaration{}, lines: map[string]bool{}, files: map[string]string{},
	}
	for _, one := range l.outside {
		if one != nil {
			c.units[one.pack] = one
		}
	}
	all := append(append([]types.Object(nil), roots...), more...)
	c.drop(c.reached(all))
	c.keep(all)
	for _, object := range roots {
		c.wants = c.wants || c.dropped[object] != ""
	}
	packages := map[*types.Package][]*declaration{}
	for _, one := range units {
		packages[one.pack] = nil
	}
	for object, d := range c.kept {
		packages[object.Pkg()] = append(packages[object.Pkg()], d)
	}
	for pack, list := range packages {
		c.file(pack, list)
	}
	return c
}

// sorted are objects by their names.
func sorted(objects map[types.Object]bool) []types.Object {
	var found []types.Object
	for object := range objects {
		found = append(found, object)
	}
	sort.Slice(found, func(i, j int) bool { return nameOf(found[i]) < nameOf(found[j]) })
	return found
}

// reached are the objects that declarations name, from the roots on, before any is dropped for another.
func (c *cut) reached(roots []types.Object) []types.Object {
	seen := map[types.Object]bool{}
	queue := append([]types.Object(nil), roots...)
	for len(queue) > 0 {
		object := queue[0]
		queue = queue[1:]
		if seen[object] {
			continue
		}
		seen[object] = true
		queue = append(queue, sorted(c.declare(object, nil).mentions)...)
	}
	return sorted(seen)
}

// drop drops objects that can't be written until all others can.
func (c *cut) drop(objects []types.Object) {
	for again := true; again; {
		again = false
		for _, object := range objects {
			if c.dropped[object] != "" {
				continue
			}
			if why := c.declare(object, nil).why; why != "" {
				c.dropped[object], again = why, true
			}
		}
	}
}

// keep notes the declarations that the roots need, and what is lost on the way.
func (c *cut) keep(roots []types.Object) {
	queue := append([]types.Object(nil), roots...)
	for len(queue) > 0 {
		object := queue[0]
		queue = queue[1:]
		if c.kept[object] != nil {
			continue
		}
		if c.dropped[object] != "" {
			c.tell(object)
			continue
		}
		d := c.declare(object, nil)
		c.kept[object] = d
		for _, line := range d.lost {
			c.lines[line] = true
		}
		for lacked := range d.lacks {
			c.tell(lacked)
		}
		queue = append(queue, sorted(d.mentions)...)
	}
}

// tell notes that an object is dropped.
func (c *cut) tell(object types.Object) {
	why := c.dropped[object]
	if why == "" {
		why = c.declare(object, nil).why
	}
	c.lines["dropped "+nameOf(object)+": "+why] = true
}

// importNames gives each package that is named here a name that nothing else in the file has.
func (c *cut) importNames(here *types.Package, list []*declaration) map[*types.Package]string {
	taken, found := map[string]bool{"init": true, "main": true, "_": true}, map[*types.Package]string{}
	for _, d := range list {
		taken[d.object.Name()] = true
		taken[c.pointerName(here)] = taken[c.pointerName(here)] || d.pointers
		for object := range d.mentions {
			if object.Pkg() != here {
				found[object.Pkg()] = ""
			}
		}
	}
	for _, pack := range byPath(found) {
		name := pack.Name()
		for i := 2; taken[name] || types.Universe.Lookup(name) != nil; i++ {
			name = fmt.Sprint(pack.Name(), i)
		}
		taken[name], found[pack] = true, name
	}
	return found
}

func byPath(packages map[*types.Package]string) []*types.Package {
	var list []*types.Package
	for pack := range packages {
		list = append(list, pack)
	}
	sort.Slice(list, func(i, j int) bool { return list[i].Path() < list[j].Path() })
	return list
}

// file writes the declarations of one package.
func (c *cut) file(pack *types.Package, list []*declaration) {
	names := c.importNames(pack, list)
	sort.Slice(list, func(i, j int) bool { return list[i].object.Name() < list[j].object.Name() })
	var out bytes.Buffer
	fmt.Fprintf(&out, "package %s\n\n", pack.Name())
	var imports []string
	for _, one := range byPath(names) {
		line := strconv.Quote(one.Path())
		if names[one] != path.Base(one.Path()) {
			line = names[one] + " " + line
		}
		imports = append(imports, line)
	}
	writeGroup(&out, "import", imports)
	texts := map[string][]string{}
	var typed strings.Builder
	for _, d := range list {
		if d.pointers {
			fmt.Fprintf(&typed, "type %s uintptr\n\n", c.pointerName(pack))
			break
		}
	}
	for _, d := range list {
		d := c.declare(d.object, names)
		switch d.object.(type) {
		case *types.Const:
			texts["const"] = append(texts["const"], d.text)
		case *types.Var:
			texts["var"] = append(texts["var"], d.text)
		case *types.Func:
			texts["func"] = append(texts["func"], "func "+d.text)
		case *types.TypeName:
			fmt.Fprintf(&typed, "type %s\n\n", d.text)
			for _, method := range d.methods {
				fmt.Fprintf(&typed, "%s\n\n", method)
			}
		}
	}
	writeGroup(&out, "const", texts["const"])
	writeGroup(&out, "var", texts["var"])
	out.WriteString(typed.String())
	out.WriteString(strings.Join(texts["func"], "\n\n"))
	clean, err := format.Source(append(bytes.TrimRight(out.Bytes(), "\n"), '\n'))
	if err != nil {
		panic(fmt.Sprintf("%s: %v\n%s", pack.Path(), err, out.String()))
	}
	c.files[pack.Path()] = string(clean)
}

func writeGroup(out *bytes.Buffer, word string, lines []string) {
	switch len(lines) {
	case 0:
	case 1:
		fmt.Fprintf(out, "%s %s\n\n", word, lines[0])
	default:
		fmt.Fprintf(out, "%s (\n%s\n)\n\n", word, strings.Join(lines, "\n"))
	}
}
