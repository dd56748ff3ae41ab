package reasons

import (
	"fmt"
	"go/ast"
	"go/scanner"
	"go/token"
	"go/types"
	"path/filepath"
	"strconv"
	"strings"

	"apigate/internal/profile"
	"apigate/internal/typed"
)

// A Note is what Go's own packages say of a place of a client.
type Note struct {
	Where string `json:"where"` // FILE:LINE:COLUMN
	Cause string `json:"cause"`
}

// A client is one that somebody else wrote, over a world.
type client struct {
	world *typed.World
	pack  *typed.Package
}

func (c *client) note(at token.Pos, format string, words ...interface{}) Note {
	place := c.world.Set.Position(at)
	return Note{fmt.Sprintf("%s:%d:%d", filepath.Base(place.Filename), place.Line, place.Column), fmt.Sprintf(format, words...)}
}

// Outside lists the steps of a client that one of the profile hasn't, in the order of its files.
func Outside(world *typed.World, folder string) (notes []Note) {
	c := &client{world, world.Client(folder)}
	if c.pack == nil || len(c.pack.Hard()) > 0 {
		return nil
	}
	for _, file := range c.pack.Files {
		for _, step := range profile.Outside(file.Tree, c.pack.Info) {
			notes = append(notes, c.note(step.Pos, "%s", step.Rule))
		}
	}
	return notes
}

// Untyped tells why what stands at a place of a client isn't typed: what Go's checker says there, what the profile hasn't, or both. It has no
// notes where Go takes it and nothing is known that the profile hasn't.
func Untyped(world *typed.World, folder, file string, line, column int) (notes []Note) {
	c := &client{world, world.Client(folder)}
	if c.pack == nil {
		return nil
	}
	for _, one := range c.pack.Files {
		if one.Name != file || !one.Tree.Package.IsValid() {
			continue
		}
		at := world.Set.File(one.Tree.Package).LineStart(line) + token.Pos(column-1)
		if spec := importAt(one.Tree, at); spec != nil {
			return []Note{c.note(at, "%s", c.ofImport(spec))}
		}
		node := nodeAt(one.Tree, at)
		if node == nil {
			return nil
		}
		for _, fault := range c.pack.Hard() {
			if typed.In(node, fault.Pos) {
				notes = append(notes, c.note(fault.Pos, "go/types: %s", strings.Join(strings.Fields(fault.Message), " ")))
				break
			}
		}
		if beyond := c.beyond(node); beyond != nil {
			notes = append(notes, *beyond)
		}
		if list, is := one.Err.(scanner.ErrorList); is && len(notes) == 0 {
			return []Note{{fmt.Sprintf("%s:%d:%d", one.Name, list[0].Pos.Line, list[0].Pos.Column), "go/parser: " + list[0].Msg}}
		}
		if len(notes) == 0 {
			notes = c.refers(node)
		}
		return notes
	}
	return nil
}

// Refused tells why a file of a client, or all where none is named, isn't in the grammar of the profile.
func Refused(world *typed.World, folder, file string) (notes []Note) {
	c := &client{world, world.Client(folder)}
	if c.pack == nil {
		return nil
	}
	for _, one := range c.pack.Files {
		if file != "" && one.Name != file {
			continue
		}
		if list, is := one.Err.(scanner.ErrorList); is && len(list) > 0 {
			return []Note{{fmt.Sprintf("%s:%d:%d", one.Name, list[0].Pos.Line, list[0].Pos.Column), "go/parser: " + list[0].Msg}}
		}
		ast.Inspect(one.Tree, func(node ast.Node) bool {
			if cause := c.grammar(node); cause != "" && len(notes) == 0 {
				notes = append(notes, c.note(node.Pos(), "%s", cause))
			}
			return len(notes) == 0
		})
		if len(notes) > 0 {
			return notes
		}
	}
	return nil
}

// grammar is what a node has that the grammar of the profile hasn't.
func (c *client) grammar(node ast.Node) string {
	switch node := node.(type) {
	case *ast.ImportSpec:
		if node.Name != nil && node.Name.Name == "." {
			return "import . " + node.Path.Value
		}
	case *ast.FuncType:
		if node.TypeParams != nil {
			return "type parameters"
		}
	case *ast.TypeSpec:
		if node.TypeParams != nil {
			return "type parameters"
		}
	case *ast.IndexListExpr:
		return "type arguments"
	case *ast.IndexExpr:
		if of, is := c.pack.Info.Types[node.X]; is && (of.IsType() || isGeneric(c.pack.Info, node.X)) {
			return "type arguments"
		}
	case *ast.InterfaceType:
		for _, field := range node.Methods.List {
			if isUnion(field.Type) {
				return "a constraint"
			}
		}
	case *ast.BlockStmt:
		for _, statement := range node.List {
			if declared, is := statement.(*ast.DeclStmt); is && declared.Decl.(*ast.GenDecl).Tok == token.TYPE {
				return "a type that is declared inside of a function"
			}
		}
	}
	return ""
}

// importAt is the import whose path stands at a place.
func importAt(file *ast.File, at token.Pos) *ast.ImportSpec {
	for _, spec := range file.Imports {
		if spec.Pos() == at || spec.Path.Pos() == at {
			return spec
		}
	}
	return nil
}

// ofImport is what is wrong with an import: its name, which Go's checker finds declared twice, or else that it isn't found.
func (c *client) ofImport(spec *ast.ImportSpec) string {
	for _, fault := range c.pack.Faults {
		if fault.Pos == spec.Pos() && strings.Contains(fault.Message, "redeclared in this block") {
			return "go/types: " + fault.Message
		}
		if other := strings.TrimPrefix(fault.Message, "\tother declaration of "); fault.Pos == spec.Pos() && other != fault.Message {
			return "go/types: " + other + " is declared in the package too"
		}
	}
	path, _ := strconv.Unquote(spec.Path.Value)
	return "the import of " + path + " isn't found"
}

// nodeAt is the innermost statement that begins at a place, or else the declaration of the name there.
func nodeAt(file *ast.File, at token.Pos) (found ast.Node) {
	for _, decl := range file.Decls {
		switch decl := decl.(type) {
		case *ast.FuncDecl:
			if decl.Name.Pos() == at {
				return &ast.FuncDecl{Recv: decl.Recv, Name: decl.Name, Type: decl.Type}
			}
		case *ast.GenDecl:
			for _, spec := range decl.Specs {
				switch spec := spec.(type) {
				case *ast.TypeSpec:
					if spec.Name.Pos() == at {
						return spec
					}
				case *ast.ValueSpec:
					for _, name := range spec.Names {
						if name.Pos() == at {
							return spec
						}
					}
				}
			}
		}
	}
	ast.Inspect(file, func(node ast.Node) bool {
		if node == nil || !typed.In(node, at) {
			return false
		}
		if statement, is := node.(ast.Stmt); is && node.Pos() == at {
			found = statement
		}
		return true
	})
	return found
}

// beyond is the first thing in a node that Go has and this program takes for nothing.
func (c *client) beyond(node ast.Node) (found *Note) {
	tell := func(at ast.Node, cause string) {
		if found == nil {
			note := c.note(at.Pos(), "%s, which isn't in the profile", cause)
			found = &note
		}
	}
	ast.Inspect(node, func(below ast.Node) bool {
		switch below := below.(type) {
		case *ast.FuncLit:
			if profile.HasIota(below, c.pack.Info) {
				tell(below, "`iota` in a function literal")
			}
		case *ast.BasicLit:
			switch below.Kind {
			case token.FLOAT:
				tell(below, "a floating constant")
			case token.IMAG:
				tell(below, "a complex constant")
			}
		case *ast.CallExpr:
			c.call(below, tell)
		case *ast.RangeStmt:
			if over := c.pack.Info.TypeOf(below.X); over != nil {
				switch under := over.Underlying().(type) {
				case *types.Signature:
					tell(below, "a loop over a function")
				case *types.Basic:
					if under.Info()&types.IsInteger != 0 {
						tell(below, "a loop over a number")
					}
				}
			}
		case *ast.BinaryExpr:
			if below.Op == token.SHL || below.Op == token.SHR {
				if _, is := profile.Unparen(below.X).(*ast.BasicLit); is && c.pack.Info.Types[below.Y].Value == nil {
					tell(below, "an untyped constant that is shifted by a count that is no constant")
				}
			}
		}
		if expr, is := below.(ast.Expr); is && found == nil {
			if of, is := c.pack.Info.Types[expr]; is && of.Value != nil && of.Type != nil {
				if cause := valueCause(of.Type, of.Value); cause != "" {
					tell(expr, cause)
				}
			}
		}
		return found == nil
	})
	return found
}

// call tells of a call that the profile hasn't.
func (c *client) call(call *ast.CallExpr, tell func(ast.Node, string)) {
	if name, is := profile.Unparen(call.Fun).(*ast.Ident); is {
		object, known := c.pack.Info.Uses[name]
		_, isBuiltin := object.(*types.Builtin)
		if isBuiltin || !known {
			switch name.Name {
			case "complex", "real", "imag", "clear", "min", "max":
				tell(call, "the function "+name.Name)
			}
		}
	}
	of := c.pack.Info.Types[call.Fun]
	if !of.IsType() || len(call.Args) != 1 {
		return
	}
	from := c.pack.Info.TypeOf(call.Args[0])
	if from == nil {
		return
	}
	if _, is := from.Underlying().(*types.Slice); !is {
		return
	}
	to := of.Type.Underlying()
	if pointer, is := to.(*types.Pointer); is {
		to = pointer.Elem().Underlying()
	}
	if _, is := to.(*types.Array); is {
		tell(call, "a slice that is converted to an array or to a pointer to one")
	}
}

// refers tells of the declarations of the client that a node names and that Go's checker refuses, or that the profile hasn't.
func (c *client) refers(node ast.Node) (notes []Note) {
	ast.Inspect(node, func(below ast.Node) bool {
		name, is := below.(*ast.Ident)
		if !is || len(notes) > 0 {
			return true
		}
		object := c.pack.Info.Uses[name]
		if object == nil || object.Pkg() != c.pack.Types || object.Parent() != c.pack.Types.Scope() {
			return true
		}
		for _, file := range c.pack.Files {
			if declared := nodeAt(file.Tree, object.Pos()); declared != nil && typed.In(file.Tree, object.Pos()) {
				if beyond := c.beyond(declared); beyond != nil {
					notes = append(notes, Note{beyond.Where, name.Name + " stands on " + beyond.Cause})
				}
			}
		}
		return true
	})
	return notes
}
