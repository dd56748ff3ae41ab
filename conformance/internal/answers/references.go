// What the declarations of a package refer to, and which are lost where some are in error.
package answers

import (
	"go/ast"
	"go/token"
	"go/types"
	"strings"

	"apigate/conformance/internal/differences"
)

// A declaration is a spec, a function or a method.
type declaration struct {
	File     int
	Names    []*ast.Ident
	Node     ast.Node   // what Go's errors in it stand in
	Trees    []ast.Node // the types, values and signatures that stand in it, also those that a spec repeats
	Method   *ast.FuncDecl
	Kind     token.Token
	alias    bool
	from     *ast.ValueSpec // the spec of which constants or variables have the type and values
	repeated ast.Expr       // the type that a spec of constants repeats
	leads    map[int]bool   // the declarations on which it depends
}

func (d *declaration) Place() token.Pos { return d.Names[0].Pos() }

// has says whether an error at this position is the declaration's.
func (d *declaration) has(at token.Pos) bool { return d.Node.Pos() <= at && at <= d.Node.End() }

// repeats says whether an error at this position is in a type that the declaration repeats.
func (d *declaration) repeats(at token.Pos) bool {
	return d.repeated != nil && d.repeated.Pos() <= at && at <= d.repeated.End()
}

func exprs(list []ast.Expr) (trees []ast.Node) {
	for _, one := range list {
		trees = append(trees, one)
	}
	return trees
}

// DeclarationsOf are those of files, in order.
func DeclarationsOf(files []*ast.File) (all []*declaration) {
	for i, file := range files {
		for _, decl := range file.Decls {
			switch decl := decl.(type) {
			case *ast.FuncDecl:
				one := &declaration{File: i, Names: []*ast.Ident{decl.Name}, Node: decl, Kind: token.FUNC}
				if decl.Recv != nil {
					one.Method = decl
					for _, receiver := range decl.Recv.List {
						one.Trees = append(one.Trees, receiver.Type)
					}
				}
				one.Trees = append(one.Trees, decl.Type)
				all = append(all, one)
			case *ast.GenDecl:
				var before *ast.ValueSpec
				for _, spec := range decl.Specs {
					one := &declaration{File: i, Node: spec, Kind: decl.Tok}
					switch spec := spec.(type) {
					case *ast.TypeSpec:
						one.Names, one.Trees, one.alias = []*ast.Ident{spec.Name}, []ast.Node{spec.Type}, spec.Assign.IsValid()
					case *ast.ValueSpec:
						from := spec
						if decl.Tok == token.CONST && spec.Type == nil && len(spec.Values) == 0 && before != nil {
							from = before
						}
						if before = from; from != spec {
							one.repeated = from.Type
						}
						one.Names, one.from = spec.Names, from
						if from.Type != nil {
							one.Trees = append(one.Trees, from.Type)
						}
						one.Trees = append(one.Trees, exprs(from.Values)...)
					default:
						continue
					}
					all = append(all, one)
				}
			}
		}
	}
	return all
}

// receiverName is the name that a receiver's type is written by, parentheses and one star aside.
func receiverName(method *ast.FuncDecl) string {
	if len(method.Recv.List) != 1 {
		return ""
	}
	tree, stars := method.Recv.List[0].Type, 0
	for {
		switch one := tree.(type) {
		case *ast.ParenExpr:
			tree = one.X
			continue
		case *ast.StarExpr:
			tree = one.X
			if stars++; stars == 1 {
				continue
			}
		case *ast.Ident:
			return one.Name
		}
		return ""
	}
}

// isStarred says whether a method's receiver is a pointer to more than a name, which is of no type here.
func (d *declaration) isStarred() bool {
	if d.Method == nil || len(d.Method.Recv.List) != 1 || receiverName(d.Method) != "" {
		return false
	}
	_, is := unparenType(d.Method.Recv.List[0].Type).(*ast.StarExpr)
	return is
}

// isTwiceByStars says whether an error is of a method that a type has twice by a receiver with several stars alone.
func (l *Listing) isTwiceByStars(one types.Error) bool {
	if !strings.Contains(one.Msg, " already declared for ") {
		return false
	}
	for at, d := range l.All {
		if d.Method == nil || d.Place() != one.Pos {
			continue
		}
		stars := d.isStarred()
		for before, other := range l.All {
			if before == at || other.Method == nil || other.Names[0].Name != d.Names[0].Name {
				continue
			}
			if !stars && before < at && l.base(receiverName(other.Method)) == l.base(receiverName(d.Method)) {
				return false
			}
			stars = stars || other.isStarred()
		}
		return stars
	}
	return false
}

// addFinders adds the declarations in which selectors find a method, by Go; it says whether there is one.
func (l *Listing) addFinders(to map[int]bool, method int, info *types.Info) bool {
	object, is := info.Defs[l.All[method].Names[0]], false
	for name, use := range info.Uses {
		for at, d := range l.All {
			if use == object && d.has(name.Pos()) {
				to[at], is = true, true
			}
		}
	}
	return is
}

// namesIn are the names by which a tree refers to others, outside of bodies. A key of a literal that is a name counts.
func namesIn(tree ast.Node, found func(*ast.Ident)) {
	ast.Inspect(tree, func(node ast.Node) bool {
		switch node := node.(type) {
		case *ast.BlockStmt:
			return false
		case *ast.Field:
			if node.Type != nil {
				namesIn(node.Type, found)
			}
			return false
		case *ast.SelectorExpr:
			namesIn(node.X, found)
			return false
		case *ast.Ident:
			found(node)
		}
		return true
	})
}

// A Listing are the declarations of a package, by name, with what they depend on.
type Listing struct {
	All    []*declaration
	byName map[string]int
}

func (l *Listing) named(name string) (*declaration, bool) {
	at, is := l.byName[name]
	if !is {
		return nil, false
	}
	return l.All[at], true
}

// base is the name of the defined type that a name is after aliases, or nothing.
func (l *Listing) base(name string) string {
	for range l.All {
		d, is := l.named(name)
		if !is || d.Kind != token.TYPE {
			return ""
		}
		if !d.alias {
			return name
		}
		next, is := unparenType(d.Trees[0]).(*ast.Ident)
		if !is {
			return ""
		}
		name = next.Name
	}
	return ""
}

func unparenType(tree ast.Node) ast.Node {
	for {
		within, is := tree.(*ast.ParenExpr)
		if !is {
			return tree
		}
		tree = within.X
	}
}

func ListingOf(files []*ast.File) *Listing {
	l := &Listing{DeclarationsOf(files), map[string]int{}}
	for at, d := range l.All {
		for _, name := range d.Names {
			if _, is := l.byName[name.Name]; !is && d.Method == nil && name.Name != "_" && name.Name != "init" {
				l.byName[name.Name] = at
			}
		}
	}
	for _, d := range l.All {
		d.leads = map[int]bool{}
		for _, tree := range d.Trees {
			namesIn(tree, func(name *ast.Ident) {
				if at, is := l.byName[name.Name]; is {
					d.leads[at] = true
				}
			})
		}
	}
	for at, d := range l.All {
		if d.Method == nil {
			continue
		}
		if name := l.base(receiverName(d.Method)); name != "" {
			l.All[l.byName[name]].leads[at] = true
		}
	}
	return l
}

// faulty are the declarations in which errors stand.
func (l *Listing) faulty(errors []types.Error) map[int]bool {
	found := map[int]bool{}
	for _, one := range errors {
		known := strings.HasPrefix(one.Msg, "\t")
		for at, d := range l.All {
			if !strings.HasPrefix(one.Msg, "\t") && (d.has(one.Pos) || d.repeats(one.Pos)) {
				found[at], known = true, true
			}
		}
		if !known {
			panic(one.Error() + " stands in no declaration")
		}
	}
	return found
}

// alike is the place of the first method that was declared before for a receiver that is written alike, be that a type or not.
func (l *Listing) alike() token.Pos {
	met, first := map[[2]string]bool{}, token.NoPos
	for _, d := range l.All {
		if d.Method == nil || d.Names[0].Name == "_" || receiverName(d.Method) == "" {
			continue
		}
		key := [2]string{receiverName(d.Method), d.Names[0].Name}
		if met[key] && (first == token.NoPos || d.Place() < first) {
			first = d.Place()
		}
		met[key] = true
	}
	return first
}

// lost are the declarations that depend on these, themselves too.
func (l *Listing) lost(faulty map[int]bool) map[int]bool {
	into := make([][]int, len(l.All))
	for at, d := range l.All {
		for to := range d.leads {
			into[to] = append(into[to], at)
		}
	}
	return spread(faulty, func(at int) []int { return into[at] })
}

// LeadsTo says whether one or more steps lead from a declaration to another.
func (l *Listing) LeadsTo(from, to int) bool {
	seen := map[int]bool{}
	queue := []int{from}
	for len(queue) > 0 {
		for next := range l.All[queue[0]].leads {
			if next == to {
				return true
			}
			if !seen[next] {
				seen[next] = true
				queue = append(queue, next)
			}
		}
		queue = queue[1:]
	}
	return false
}

// nameLeadsTo says so of the names in a tree, where zero steps will do.
func (l *Listing) nameLeadsTo(tree ast.Node, to int) bool {
	leads := false
	namesIn(tree, func(name *ast.Ident) {
		if at, is := l.byName[name.Name]; is {
			leads = leads || at == to || l.LeadsTo(at, to)
		}
	})
	return leads
}

const (
	several   = "a spec of several names that leads back to itself"
	circle    = "a circle through a method and an embedded interface"
	measured  = "a length of an array that leads back to the declaration in which it stands"
	aliased   = "a receiver that is written by an alias of a pointer type"
	hidden    = "a method with the name of an unexported field of another package"
	missing   = "a predeclared name that the profile hasn't"
	outside   = "a form that the profile hasn't"
	variable  = "a circle of variables, one of them with a type"
	bodiless  = "a function init without a body"
	choosing  = "an interface that embeds a type other than interfaces"
	pointing  = "an embedded alias of a pointer type"
	unordered = "an alias in a circle that Go can't type in any order"
	starred   = "a receiver of several stars"
	baseless  = "a method that is declared twice for what is no type of the package"
)

// isBehindAlias says whether a receiver is written by an alias of a pointer type.
func (l *Listing) isBehindAlias(name string) bool {
	for range l.All {
		d, is := l.named(name)
		if !is || !d.alias {
			return false
		}
		switch tree := unparenType(d.Trees[0]).(type) {
		case *ast.StarExpr:
			return true
		case *ast.Ident:
			name = tree.Name
		default:
			return false
		}
	}
	return false
}

// isMeasured says whether a length of an array leads back to the declaration in which it stands.
func (l *Listing) isMeasured(at int, tree ast.Node) bool {
	leads := false
	ast.Inspect(tree, func(node ast.Node) bool {
		if one, is := node.(*ast.ArrayType); is && one.Len != nil {
			leads = leads || l.nameLeadsTo(one.Len, at)
		}
		_, is := node.(*ast.BlockStmt)
		return !is
	})
	return leads
}

// isRound says whether a declaration is in a circle through an interface that is embedded below a method, which Go types later.
func (l *Listing) isRound(at int, tree ast.Node) bool {
	round := false
	ast.Inspect(tree, func(node ast.Node) bool {
		switch node := node.(type) {
		case *ast.BlockStmt:
			return false
		case *ast.InterfaceType:
			for _, one := range node.Methods.List {
				round = round || len(one.Names) == 0 && (node != tree || l.All[at].alias) && l.nameLeadsTo(one.Type, at)
			}
		}
		return true
	})
	return round
}

var lacking = map[string]bool{"complex": true, "real": true, "imag": true, "comparable": true, "clear": true, "max": true, "min": true}

// Own are the classes of what this gate refuses in a declaration beyond Go.
func (l *Listing) Own(at int, info *types.Info, pack *types.Package) map[string]bool {
	d, found := l.All[at], map[string]bool{}
	note := func(class string, holds bool) {
		if holds {
			found[class] = true
		}
	}
	if len(d.Names) > 1 {
		note(several, l.LeadsTo(at, at))
	}
	for _, name := range d.Names {
		if object, is := info.Defs[name].(*types.Const); is {
			note(differences.Past, differences.IsPast(object.Val()))
			note(differences.Inexact, differences.IsInexact(object.Type()))
		}
	}
	if d.Method != nil {
		note(aliased, l.isBehindAlias(receiverName(d.Method)))
		if base, is := pack.Scope().Lookup(l.base(receiverName(d.Method))).(*types.TypeName); is && base.Type() != nil {
			if fields, is := base.Type().Underlying().(*types.Struct); is {
				for i := 0; i < fields.NumFields(); i++ {
					note(hidden, fields.Field(i).Name() == d.Names[0].Name && fields.Field(i).Pkg() != pack)
				}
			}
		}
	}
	for _, tree := range d.Trees {
		if d.Kind == token.TYPE || d.Kind == token.FUNC {
			note(circle, l.isRound(at, tree))
			note(measured, l.isMeasured(at, tree))
		}
		ast.Inspect(tree, func(node ast.Node) bool {
			if _, is := node.(*ast.BlockStmt); is {
				return false
			}
			if class := differences.OfNode(node, info); class != "" {
				note(class, true)
			}
			note(differences.Unwritten, !differences.IsWritten(node))
			if name, is := node.(*ast.Ident); is {
				if use := info.Uses[name]; use != nil && use.Parent() == types.Universe {
					note(missing, lacking[name.Name])
				}
			}
			switch node := node.(type) {
			case *ast.IndexListExpr:
				note(outside, true)
			case *ast.StructType:
				for _, one := range node.Fields.List {
					_, points := info.Types[one.Type].Type.(*types.Pointer)
					_, starred := one.Type.(*ast.StarExpr)
					note(pointing, len(one.Names) == 0 && points && !starred)
				}
			case *ast.InterfaceType:
				for _, one := range node.Methods.List {
					t := info.Types[one.Type].Type
					note(choosing, len(one.Names) == 0 && t != nil && !types.IsInterface(t))
				}
			case *ast.SelectorExpr:
				if use := info.Uses[node.Sel]; use != nil && use.Pkg() == types.Unsafe {
					note(outside, true)
				}
			}
			return true
		})
	}
	return found
}
