// Package reasons tells why declarations of a module are outside of apigate's profile, by what Go's parser and checker say of them.
package reasons

import (
	"fmt"
	"go/ast"
	"go/constant"
	"go/scanner"
	"go/token"
	"go/types"
	"sort"
	"strconv"
	"strings"

	"apigate/internal/trees"
	"apigate/internal/typed"
)

// A Reason is why one declaration, or one file, isn't in the profile.
type Reason struct {
	File    string `json:"file"`
	Line    int    `json:"line"`
	Column  int    `json:"column"`
	Name    string `json:"name"`
	Cause   string `json:"cause"`
	Where   string `json:"where"`             // the place of the cause itself
	Import  string `json:"import,omitempty"`  // the path that isn't found
	Seen    string `json:"seen"`              // how what is exported depends on it: "exported", a name, or nothing
	Grammar bool   `json:"grammar,omitempty"` // whether the whole file is refused for it
}

// A finder has the declarations of a world with what depends on them.
type finder struct {
	world *typed.World
	decls []*declared
	of    map[types.Object]*declared
	found []Reason
}

// A declared is a declaration at package level, or a method, with the objects that it names outside of bodies.
type declared struct {
	pack    *typed.Package
	file    *typed.File
	name    *ast.Ident
	object  types.Object
	nodes   []ast.Node
	uses    []types.Object
	methods []*declared
	from    *declared // what leads to it from what is exported
	seen    bool
}

// Find lists the reasons of a world, in the order of its files.
func Find(world *typed.World) []Reason {
	f := &finder{world: world, of: map[types.Object]*declared{}}
	for _, pack := range world.Packages {
		for _, file := range pack.Files {
			f.declare(pack, file)
		}
	}
	f.reach()
	for _, pack := range world.Packages {
		for _, file := range pack.Files {
			f.ofFile(pack, file)
		}
	}
	for _, one := range f.decls {
		f.ofDeclaration(one)
	}
	sort.SliceStable(f.found, func(i, j int) bool {
		a, b := f.found[i], f.found[j]
		return a.File < b.File || a.File == b.File && a.Line < b.Line
	})
	return f.found
}

// Depends finds what the declaration with the name at a place isn't typed for: its own reason, or that of one that it depends on, with the
// names that lead there.
func Depends(world *typed.World, file string, line int) (Reason, []string, bool) {
	f := &finder{world: world, of: map[types.Object]*declared{}}
	for _, pack := range world.Packages {
		for _, each := range pack.Files {
			f.declare(pack, each)
		}
	}
	f.reach()
	for _, one := range f.decls {
		at := world.Position(one.name.Pos())
		if at.Filename == file && at.Line == line {
			if reason, by, is := f.below(one); is {
				return reason, by, true
			}
		}
	}
	return Reason{}, nil, false
}

// below seeks the nearest declaration with a reason among those that one depends on.
func (f *finder) below(one *declared) (Reason, []string, bool) {
	came, queue := map[*declared]*declared{one: nil}, []*declared{one}
	for len(queue) > 0 {
		each := queue[0]
		queue = queue[1:]
		f.found = nil
		f.ofDeclaration(each)
		if len(f.found) > 0 {
			var by []string
			for at := each; at != one; at = came[at] {
				by = append([]string{f.title(at)}, by...)
			}
			return f.found[0], by, true
		}
		for _, next := range each.below(f) {
			if _, known := came[next]; !known {
				came[next] = each
				queue = append(queue, next)
			}
		}
	}
	return Reason{}, nil, false
}

func (one *declared) below(f *finder) (found []*declared) {
	for _, object := range one.uses {
		if next := f.of[object]; next != nil {
			found = append(found, next)
		}
	}
	return append(found, one.methods...)
}

func (f *finder) title(one *declared) string {
	if one.object != nil {
		if function, is := one.object.(*types.Func); is {
			if receiver := function.Type().(*types.Signature).Recv(); receiver != nil {
				return "(" + types.TypeString(receiver.Type(), func(*types.Package) string { return "" }) + ")." + one.name.Name
			}
		}
	}
	return one.name.Name
}

// declare notes the declarations of a file.
func (f *finder) declare(pack *typed.Package, file *typed.File) {
	for _, decl := range file.Tree.Decls {
		switch decl := decl.(type) {
		case *ast.FuncDecl:
			nodes := []ast.Node{decl.Type}
			if decl.Recv != nil {
				nodes = append(nodes, decl.Recv)
			}
			f.add(pack, file, decl.Name, nodes...)
		case *ast.GenDecl:
			var last *ast.ValueSpec
			for _, spec := range decl.Specs {
				switch spec := spec.(type) {
				case *ast.TypeSpec:
					nodes := []ast.Node{spec.Type}
					if spec.TypeParams != nil {
						nodes = append(nodes, spec.TypeParams)
					}
					f.add(pack, file, spec.Name, nodes...)
				case *ast.ValueSpec:
					if decl.Tok == token.CONST && (spec.Type != nil || len(spec.Values) > 0) {
						last = spec
					}
					for i, name := range spec.Names {
						f.add(pack, file, name, valueNodes(spec, last, i)...)
					}
				}
			}
		}
	}
}

// valueNodes are the type and the value of a name in a specification; a constant without any takes those of the last one that has.
func valueNodes(spec, last *ast.ValueSpec, i int) (nodes []ast.Node) {
	if spec.Type == nil && len(spec.Values) == 0 && last != nil {
		spec = last
	}
	if spec.Type != nil {
		nodes = append(nodes, spec.Type)
	}
	if i < len(spec.Values) {
		return append(nodes, spec.Values[i])
	}
	for _, value := range spec.Values {
		nodes = append(nodes, value)
	}
	return nodes
}

func (f *finder) add(pack *typed.Package, file *typed.File, name *ast.Ident, nodes ...ast.Node) {
	one := &declared{pack: pack, file: file, name: name, object: pack.Info.Defs[name], nodes: nodes}
	for _, node := range nodes {
		outside(node, func(node ast.Node) {
			if ident, is := node.(*ast.Ident); is && pack.Info.Uses[ident] != nil {
				one.uses = append(one.uses, pack.Info.Uses[ident])
			}
		})
	}
	f.decls = append(f.decls, one)
	if one.object != nil {
		f.of[one.object] = one
	}
}

// outside visits what stands outside of the bodies of functions.
func outside(node ast.Node, visit func(ast.Node)) {
	ast.Inspect(node, func(node ast.Node) bool {
		if _, is := node.(*ast.BlockStmt); is || node == nil {
			return false
		}
		visit(node)
		return true
	})
}

// reach notes which declarations lead from exported ones of public packages to which others.
func (f *finder) reach() {
	for _, one := range f.decls {
		function, is := one.object.(*types.Func)
		if !is {
			continue
		}
		if receiver := function.Type().(*types.Signature).Recv(); receiver != nil {
			t := receiver.Type()
			if pointer, is := t.(*types.Pointer); is {
				t = pointer.Elem()
			}
			if named, is := t.(*types.Named); is && f.of[named.Obj()] != nil {
				of := f.of[named.Obj()]
				of.methods = append(of.methods, one)
			}
		}
	}
	var queue []*declared
	for _, one := range f.decls {
		if one.object != nil && one.object.Exported() && one.pack.IsPublic() && one.object.Parent() == one.pack.Types.Scope() {
			one.seen = true
			queue = append(queue, one)
		}
	}
	for len(queue) > 0 {
		one := queue[0]
		queue = queue[1:]
		for _, next := range one.below(f) {
			if !next.seen {
				next.seen, next.from = true, one
				queue = append(queue, next)
			}
		}
	}
}

// dependence says how what is exported depends on a declaration.
func (f *finder) dependence(one *declared) string {
	if !one.seen {
		return ""
	}
	if one.from == nil {
		return "exported"
	}
	for one.from != nil {
		one = one.from
	}
	return one.pack.Path + "." + one.name.Name
}

// tell notes a reason of a declaration.
func (f *finder) tell(one *declared, at token.Pos, format string, words ...interface{}) {
	place, cause := f.world.Position(one.name.Pos()), f.world.Position(at)
	f.found = append(f.found, Reason{
		File: place.Filename, Line: place.Line, Column: place.Column, Name: f.title(one), Cause: fmt.Sprintf(format, words...),
		Where: fmt.Sprintf("%s:%d:%d", cause.Filename, cause.Line, cause.Column), Seen: f.dependence(one),
	})
}

// ofFile tells why a file as a whole isn't in the grammar.
func (f *finder) ofFile(pack *typed.Package, file *typed.File) {
	add := func(at token.Pos, seen, cause string) {
		place := f.world.Position(at)
		f.found = append(f.found, Reason{
			File: place.Filename, Line: place.Line, Column: place.Column, Name: "-", Cause: cause,
			Where: fmt.Sprintf("%s:%d:%d", place.Filename, place.Line, place.Column), Seen: seen, Grammar: true,
		})
	}
	if list, is := file.Err.(scanner.ErrorList); is && len(list) > 0 {
		f.found = append(f.found, Reason{
			File: file.Name, Line: list[0].Pos.Line, Column: list[0].Pos.Column, Name: "-", Cause: "go/parser: " + list[0].Msg,
			Where: fmt.Sprintf("%s:%d:%d", file.Name, list[0].Pos.Line, list[0].Pos.Column), Grammar: true,
		})
		return
	}
	if file.Tree.Name.Name == "_" {
		add(file.Tree.Name.Pos(), "", "a package named _")
	}
	for _, spec := range file.Tree.Imports {
		if spec.Name != nil && spec.Name.Name == "." {
			add(spec.Pos(), "", "import . "+spec.Path.Value)
		}
	}
}

// ofDeclaration tells why a declaration has no typing, or isn't in the grammar.
func (f *finder) ofDeclaration(one *declared) {
	before := len(f.found)
	for _, node := range one.nodes {
		outside(node, func(node ast.Node) {
			if len(f.found) == before {
				f.ofNode(one, node)
			}
		})
	}
	if len(f.found) > before {
		return
	}
	f.ofValue(one)
	if len(f.found) > before {
		return
	}
	f.ofFaults(one)
}

// ofNode tells what a node has that the profile hasn't.
func (f *finder) ofNode(one *declared, node ast.Node) {
	grammar := func(cause string) {
		f.tell(one, node.Pos(), "%s", cause)
		f.found[len(f.found)-1].Grammar = true
	}
	switch node := node.(type) {
	case *ast.FieldList:
		for _, other := range one.nodes {
			if other == ast.Node(node) && isParameters(one, node) {
				grammar("type parameters")
				return
			}
		}
	case *ast.FuncType:
		if node.TypeParams != nil {
			grammar("type parameters")
		}
	case *ast.IndexListExpr:
		grammar("type arguments")
	case *ast.IndexExpr:
		if of, is := one.pack.Info.Types[node.X]; !is || of.IsType() || of.Type == types.Typ[types.Invalid] || isGeneric(one.pack.Info, node.X) {
			grammar("type arguments")
		}
	case *ast.InterfaceType:
		for _, field := range node.Methods.List {
			if isUnion(field.Type) {
				grammar("a constraint")
			}
		}
	case *ast.BasicLit:
		switch node.Kind {
		case token.FLOAT:
			f.tell(one, node.Pos(), "a floating constant: %s", node.Value)
		case token.IMAG:
			f.tell(one, node.Pos(), "a complex constant: %s", node.Value)
		}
	case *ast.CallExpr:
		f.ofCall(one, node)
	case *ast.SelectorExpr:
		if name, is := node.X.(*ast.Ident); is {
			if pack, is := one.pack.Info.Uses[name].(*types.PkgName); is && pack.Imported() == types.Unsafe {
				f.tell(one, node.Pos(), "unsafe.%s", node.Sel.Name)
				f.found[len(f.found)-1].Import = "unsafe"
			}
		}
	}
}

// isParameters says whether a list of a declaration is that of its type parameters, and not its receiver.
func isParameters(one *declared, list *ast.FieldList) bool {
	object, is := one.object.(*types.TypeName)
	return is && object != nil && len(list.List) > 0
}

func isGeneric(info *types.Info, expr ast.Expr) bool {
	signature, is := info.TypeOf(expr).(*types.Signature)
	return is && signature.TypeParams().Len() > 0
}

func isUnion(expr ast.Expr) bool {
	switch expr := expr.(type) {
	case *ast.UnaryExpr:
		return expr.Op == token.TILDE
	case *ast.BinaryExpr:
		return expr.Op == token.OR
	}
	return false
}

// ofCall tells a call that the profile hasn't.
func (f *finder) ofCall(one *declared, call *ast.CallExpr) {
	if name, is := call.Fun.(*ast.Ident); is {
		if _, is := one.pack.Info.Uses[name].(*types.Builtin); is {
			switch name.Name {
			case "complex", "real", "imag", "clear", "min", "max":
				f.tell(one, call.Pos(), "the function %s", name.Name)
			}
		}
	}
	if of := one.pack.Info.Types[call.Fun]; of.IsType() && len(call.Args) == 1 {
		if pointer, is := of.Type.Underlying().(*types.Pointer); is {
			_, isArray := pointer.Elem().Underlying().(*types.Array)
			if from := one.pack.Info.TypeOf(call.Args[0]); isArray && from != nil {
				if _, is := from.Underlying().(*types.Slice); is {
					f.tell(one, call.Pos(), "a slice that is converted to a pointer to an array")
				}
			}
		}
	}
}

var (
	most  = constant.BinaryOp(constant.Shift(constant.MakeInt64(1), token.SHL, 127), token.SUB, constant.MakeInt64(1))
	least = constant.UnaryOp(token.SUB, constant.Shift(constant.MakeInt64(1), token.SHL, 127), 0)
)

// ofValue tells a constant, or a part of an expression, with a value that the profile hasn't.
func (f *finder) ofValue(one *declared) {
	if object, is := one.object.(*types.Const); is {
		if cause := valueCause(object.Type(), object.Val()); cause != "" {
			f.tell(one, one.name.Pos(), "%s", cause)
			return
		}
	}
	for _, node := range one.nodes {
		told := false
		outside(node, func(node ast.Node) {
			expr, is := node.(ast.Expr)
			if !is || told {
				return
			}
			if of, is := one.pack.Info.Types[expr]; is && of.Value != nil {
				// a whole number may stand where a floating one is wanted
				if _, isLiteral := expr.(*ast.BasicLit); isLiteral && of.Value.Kind() == constant.Int {
					return
				}
				if cause := valueCause(of.Type, of.Value); cause != "" && of.Value.Kind() != constant.Unknown {
					if _, isVariable := one.object.(*types.Var); isVariable && of.Value.Kind() == constant.Int {
						return
					}
					f.tell(one, expr.Pos(), "%s", cause)
					told = true
				}
			}
		})
		if told {
			return
		}
	}
}

func valueCause(t types.Type, value constant.Value) string {
	basic, is := t.Underlying().(*types.Basic)
	switch {
	case !is || value == nil || value.Kind() == constant.Unknown:
		return ""
	case basic.Info()&types.IsFloat != 0:
		return "a floating constant"
	case basic.Info()&types.IsComplex != 0:
		return "a complex constant"
	case value.Kind() == constant.Int && (constant.Compare(value, token.GTR, most) || constant.Compare(value, token.LSS, least)):
		return "a number past 128 bits"
	case value.Kind() == constant.String && len(constant.StringVal(value)) > 65536:
		return "a text of more than 65536 bytes"
	}
	return ""
}

// ofFaults tells what Go's checker says in a declaration, and imports of it that aren't found.
func (f *finder) ofFaults(one *declared) {
	for _, fault := range one.pack.Faults {
		if fault.Pos == one.name.Pos() || within(one, fault.Pos) {
			f.tell(one, fault.Pos, "go/types: %s", fault.Message)
			return
		}
	}
	for _, node := range one.nodes {
		told := false
		outside(node, func(node ast.Node) {
			selector, is := node.(*ast.SelectorExpr)
			if !is || told {
				return
			}
			name, is := selector.X.(*ast.Ident)
			if !is {
				return
			}
			if pack, is := one.pack.Info.Uses[name].(*types.PkgName); is && !pack.Imported().Complete() {
				if path, is := f.missing(one, name.Name); is {
					f.tell(one, selector.Pos(), "the import of %s isn't found", path)
					f.found[len(f.found)-1].Import = path
					told = true
				}
			}
		})
		if told {
			return
		}
	}
}

// missing is the path of an import of a file that isn't found, by its name there.
func (f *finder) missing(one *declared, name string) (string, bool) {
	for _, spec := range one.file.Tree.Imports {
		path, _ := strconv.Unquote(spec.Path.Value)
		if spec.Name != nil && spec.Name.Name == name || spec.Name == nil && (trees.AssumedName(path) == name || strings.HasSuffix(path, "/"+name)) {
			if _, err := f.world.Import(path); err != nil {
				return path, true
			}
		}
	}
	return "", false
}

func within(one *declared, at token.Pos) bool {
	for _, node := range one.nodes {
		if node.Pos() <= at && at < node.End() {
			return true
		}
	}
	return false
}
