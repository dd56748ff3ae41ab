// What nobody sees of a module, and its files without that.
package answers

import (
	"go/ast"

	"apigate/conformance/internal/units"
)

// A keeping tells which declarations of a module's packages are kept, by the paths of these. Of a package that is public these are the ones
// that other modules can name and all on which these depend; of another one, those that kept ones of other packages select, and all on
// which these depend.
type keeping struct {
	settled
	selected map[string]map[string]bool // the names that kept declarations select, by the paths of packages
}

// of are the declarations of a package that are kept, where all is known that kept ones select from it.
func (k *keeping) of(f *units.Folder, l *Listing) map[int]bool {
	from := l.seenIn(f)
	for name := range k.selected[f.Path] {
		if at, is := l.byName[name]; is {
			from[at] = true
		}
	}
	return l.reached(from)
}

// selects notes what a declaration selects from the imports of its file.
func (k *keeping) selects(d *declaration, file units.ReadFile) {
	paths := map[string]string{}
	for _, use := range file.Uses {
		paths[use.Name] = use.Path
	}
	inspect(d.Trees, func(node ast.Node) {
		selector, is := node.(*ast.SelectorExpr)
		if !is {
			return
		}
		if name, is := selector.X.(*ast.Ident); is && paths[name.Name] != "" {
			path := paths[name.Name]
			if k.selected[path] == nil {
				k.selected[path] = map[string]bool{}
			}
			k.selected[path][selector.Sel.Name] = true
		}
	})
}

// cut notes the files of a package that change where only these declarations are kept, and the specs that one of them repeats.
func (k *keeping) cut(f *units.Folder, l *Listing, kept map[int]bool, all *Answers) {
	gone := map[ast.Node]bool{}
	for at, d := range l.All {
		if !kept[at] {
			gone[d.Node] = true
		}
	}
	for at, d := range l.All {
		if kept[at] && d.from != nil {
			delete(gone, d.from)
		}
	}
	all.Counts["declarations"] += len(l.All)
	all.Counts["declarations that nobody sees"] += len(gone)
	texts := map[string]string{}
	for _, file := range f.All {
		texts[file.Path] = file.Text
	}
	for _, file := range f.Files {
		if text := without(k.Set, file.Tree, texts[file.Path], gone); text != texts[file.Path] {
			all.Cut[file.Path] = text
		}
	}
}

// cutUnseen notes the files of a module that change without all that nobody sees.
func cutUnseen(of settled, all *Answers) {
	all.Cut = map[string]string{}
	k := &keeping{of, map[string]map[string]bool{}}
	for i := len(k.order) - 1; i >= 0; i-- {
		f := k.order[i]
		if f.Std {
			continue
		}
		l := k.sieves[f.Path].Listing
		kept := k.of(f, l)
		for at := range kept {
			k.selects(l.All[at], f.Files[l.All[at].File])
		}
		k.cut(f, l, kept, all)
	}
}
