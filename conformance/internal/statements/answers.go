package main

import (
	"fmt"
	"go/ast"
	"go/constant"
	"go/token"
	"go/types"
	"path/filepath"
	"strings"

	"apigate/internal/profile"
	"apigate/internal/typed"
)

// An answer is the line of a client on a platform by Go's checker, the lines that this program may give in its place, and what the checker said.
type answer struct {
	Line string
	Else []other `json:",omitempty"`
	Said []string
	Left []string `json:",omitempty"` // what it says by rules that are left out, but that something isn't used
}

// An other line is one that a class of differences on purpose gives, at the places of its nodes.
type other struct{ Line, Class string }

// placed is a place of a client as the report writes it.
func placed(set *token.FileSet, at token.Pos) string {
	place := set.Position(at)
	return fmt.Sprintf("%s:%d:%d", filepath.Base(place.Filename), place.Line, place.Column)
}

// A survey is what Go's checker says of a client, sorted by what this program makes of it.
type survey struct {
	platform       string
	set            *token.FileSet
	files          []*ast.File
	info           *types.Info
	twice, imports token.Pos
	errors, listed []token.Pos
	said           bool
}

// line is the line of a client with some errors besides those of Go's checker.
func (s *survey) line(besides ...token.Pos) string {
	seek := &seeker{listed: s.listed, errors: append(append([]token.Pos{}, s.errors...), besides...)}
	at := s.twice
	if at == nowhere {
		at = s.imports
	}
	if at == nowhere {
		at = declaration(s.files, s.info, seek)
	}
	for _, file := range s.files {
		if at == nowhere {
			at = bodies(file, seek)
		}
	}
	switch {
	case at < nowhere:
		return fmt.Sprintf("client %s: untyped at %s", s.platform, placed(s.set, at))
	case s.said:
		return fmt.Sprintf("client %s: untyped somewhere", s.platform)
	}
	for _, file := range s.files {
		if len(profile.Outside(file, s.info)) > 0 {
			return fmt.Sprintf("client %s: typed outside the profile", s.platform)
		}
	}
	return fmt.Sprintf("client %s: in profile", s.platform)
}

// answered is the answer of a client of parsed files, the errors of which the checker gave with their places.
func answered(set *token.FileSet, platform string, files []*ast.File, pack *types.Package, info *types.Info, errors []types.Error) answer {
	var found answer
	s := &survey{platform: platform, set: set, files: files, info: info, twice: nowhere, imports: nowhere}
	say := func(at token.Pos, message string) {
		s.said = true
		found.Said = append(found.Said, placed(set, at)+": "+strings.Join(strings.Fields(message), " "))
	}
	s.errors = circular(files, info)
	missing := notFound(files, errors)
	s.twice = assumedTwice(files, info, missing)
	for _, each := range errors {
		if at, failing := behindKey(s, pack, each); failing {
			say(at, "the value of a key that stands twice, which Go's checker doesn't look at by itself")
			s.errors = append(s.errors, at)
			continue
		}
		if profile.LeftOut(each.Msg) {
			if !strings.HasPrefix(each.Msg, "\t") && !strings.Contains(each.Msg, " not used") {
				found.Left = append(found.Left, strings.Join(strings.Fields(each.Msg)[:2], " "))
			}
			continue
		}
		if strings.HasPrefix(each.Msg, "select case must be") {
			// the form of a communication is of the grammar here
			return answer{Line: "refused", Said: []string{placed(set, each.Pos) + ": " + each.Msg}}
		}
		if strings.HasPrefix(each.Msg, "package ") && strings.Contains(each.Msg, "; expected ") {
			return answer{Line: "refused", Said: []string{placed(set, each.Pos) + ": " + each.Msg}}
		}
		say(each.Pos, each.Msg)
		switch {
		case !each.Pos.IsValid():
			s.errors = append(s.errors, changedConstants(files, info)...)
		case strings.Contains(each.Msg, "declared") && unnamed(files, missing, each):
			// what isn't found has no name that the path doesn't give
		case strings.Contains(each.Msg, " already declared for "):
			s.twice = least(s.twice, each.Pos)
		case strings.HasPrefix(each.Msg, "could not import"), strings.HasPrefix(each.Msg, "invalid import path"):
			s.imports = least(s.imports, each.Pos)
		case strings.Contains(each.Msg, "already declared through import of "):
			name, _, _ := strings.Cut(each.Msg, " ")
			s.twice = least(s.twice, behindImport(files, info, name, each.Pos))
		case strings.Contains(each.Msg, "redeclared") && importAt(files, each.Pos) != nil:
			s.twice = least(s.twice, importAt(files, each.Pos).Path.Pos())
		case strings.Contains(each.Msg, "redeclared") && isTop(files, each.Pos):
			s.twice = least(s.twice, each.Pos)
		case strings.HasPrefix(each.Msg, "cannot declare in post statement"):
			// the form of the loop says so
		case strings.HasSuffix(each.Msg, "in type switch"):
			s.listed = append(s.listed, each.Pos)
		default:
			s.errors = append(s.errors, each.Pos)
		}
	}
	for _, file := range files {
		for _, spec := range file.Imports {
			if spec.Path.Value == `"unsafe"` {
				s.imports = least(s.imports, spec.Path.Pos())
			}
		}
	}
	found.Line = s.line()
	found.differ(s)
	return found
}

// changedConstants are the places of assignments by an operator to a constant. Where both sides are constants with a value that doesn't fit, the checker's error has no place.
func changedConstants(files []*ast.File, info *types.Info) (found []token.Pos) {
	for _, file := range files {
		ast.Inspect(file, func(node ast.Node) bool {
			if changed, is := node.(*ast.AssignStmt); is && changed.Tok != token.ASSIGN && changed.Tok != token.DEFINE && info.Types[changed.Lhs[0]].Value != nil {
				found = append(found, changed.Pos())
			}
			return true
		})
	}
	return found
}

// notFound are the imports without a written name that the checker doesn't find.
func notFound(files []*ast.File, errors []types.Error) (found []*ast.ImportSpec) {
	failing := map[token.Pos]bool{}
	for _, each := range errors {
		if strings.HasPrefix(each.Msg, "could not import") || strings.HasPrefix(each.Msg, "invalid import path") {
			failing[each.Pos] = true
		}
	}
	for _, file := range files {
		for _, spec := range file.Imports {
			if spec.Name == nil && failing[spec.Path.Pos()] {
				found = append(found, spec)
			}
		}
	}
	return found
}

// unnamed says whether an error stands on a name that the checker makes up for an import that it doesn't find, and that isn't the one that this program assumes by the path.
func unnamed(files []*ast.File, missing []*ast.ImportSpec, said types.Error) bool {
	name, _, _ := strings.Cut(said.Msg, " ")
	for _, spec := range missing {
		if importedName(spec) == name {
			continue
		}
		path := strings.TrimSuffix(strings.Trim(spec.Path.Value, "\"`"), "/")
		through := strings.Contains(said.Msg, " through import of ") && strings.Contains(said.Msg, spec.Path.Value)
		other := importAt(files, said.Pos)
		if through || other != nil && path[strings.LastIndex(path, "/")+1:] == name {
			return true
		}
	}
	return false
}

// assumedTwice is the least place at which the name that is assumed for a missing import stands a second time: of a declaration, or of an import of its file.
func assumedTwice(files []*ast.File, info *types.Info, missing []*ast.ImportSpec) token.Pos {
	found := nowhere
	clash := func(one, other token.Pos) {
		if one < other {
			one = other
		}
		found = least(found, one)
	}
	for _, spec := range missing {
		name := importedName(spec)
		if name == "" || name == "_" {
			continue
		}
		for _, one := range rows(files) {
			if _, is := info.Defs[one.name].(*types.Func); one.name.Name == name && (!is || receiverOf(info.Defs[one.name].(*types.Func)) == nil) {
				clash(spec.Path.Pos(), one.name.Pos())
			}
		}
		for _, file := range files {
			for _, other := range file.Imports {
				if contains(file, spec.Pos()) && other != spec && importName(other, missing, info) == name {
					clash(spec.Path.Pos(), other.Path.Pos())
				}
			}
		}
	}
	return found
}

// importName is the name that an import declares, which is assumed where it isn't found.
func importName(spec *ast.ImportSpec, missing []*ast.ImportSpec, info *types.Info) string {
	for _, one := range missing {
		if one == spec {
			return importedName(spec)
		}
	}
	if object := info.Implicits[spec]; spec.Name == nil && object != nil {
		return object.Name()
	}
	return importedName(spec)
}

// circular are the names of constants and variables of which the checker has no value or no type. Where they name themselves it says no more than that there is an initialization cycle.
func circular(files []*ast.File, info *types.Info) (found []token.Pos) {
	for _, one := range rows(files) {
		switch object := info.Defs[one.name].(type) {
		case *types.Const:
			if object.Val() == nil || object.Val().Kind() == constant.Unknown {
				found = append(found, one.name.Pos())
			}
		case *types.Var:
			if strings.Contains(object.Type().String(), types.Typ[types.Invalid].Name()) {
				found = append(found, one.name.Pos())
			}
		}
	}
	return found
}

// isTop says whether a name at a place is declared at package level.
func isTop(files []*ast.File, at token.Pos) bool {
	for _, file := range files {
		for _, decl := range file.Decls {
			switch decl := decl.(type) {
			case *ast.FuncDecl:
				if decl.Name.Pos() == at {
					return decl.Recv == nil
				}
			case *ast.GenDecl:
				for _, spec := range decl.Specs {
					for _, name := range names(spec) {
						if name.Pos() == at {
							return true
						}
					}
				}
			}
		}
	}
	return false
}

// importAt is the import that begins at a place.
func importAt(files []*ast.File, at token.Pos) *ast.ImportSpec {
	for _, file := range files {
		for _, spec := range file.Imports {
			if spec.Pos() == at {
				return spec
			}
		}
	}
	return nil
}

// behindImport is the second of two places of a name: that of its declaration, and the path of the first import that has it.
func behindImport(files []*ast.File, info *types.Info, name string, declared token.Pos) token.Pos {
	for _, file := range files {
		for _, spec := range file.Imports {
			object := info.Implicits[spec]
			if spec.Name != nil {
				object = info.Defs[spec.Name]
			}
			if object != nil && object.Name() == name && spec.Path.Pos() > declared {
				return spec.Path.Pos()
			} else if object != nil && object.Name() == name {
				return declared
			}
		}
	}
	return declared
}

func names(spec ast.Spec) []*ast.Ident {
	switch spec := spec.(type) {
	case *ast.TypeSpec:
		return []*ast.Ident{spec.Name}
	case *ast.ValueSpec:
		return spec.Names
	}
	return nil
}

// A row is a declaration outside of bodies: its name, its trees, the methods that it needs where it is a type, and whether it has a typing.
type row struct {
	name    *ast.Ident
	trees   []ast.Node
	methods []*row
	fails   bool
}

// rows are the declarations of files in order, methods included.
func rows(files []*ast.File) (found []*row) {
	for _, file := range files {
		for _, decl := range file.Decls {
			switch decl := decl.(type) {
			case *ast.FuncDecl:
				one := &row{name: decl.Name, trees: []ast.Node{decl.Name, decl.Type}}
				if decl.Recv != nil {
					one.trees = append(one.trees, decl.Recv)
				}
				found = append(found, one)
			case *ast.GenDecl:
				var last *ast.ValueSpec
				for _, spec := range decl.Specs {
					each, isValue := spec.(*ast.ValueSpec)
					if isValue && (len(each.Values) > 0 || each.Type != nil) {
						last = each
					}
					for _, name := range names(spec) {
						one := &row{name: name, trees: []ast.Node{spec}}
						if isValue && decl.Tok == token.CONST && last != nil && last != each {
							one.trees = append(one.trees, last)
						}
						found = append(found, one)
					}
				}
			}
		}
	}
	return found
}

// receiverOf is the name of the type that a method is of.
func receiverOf(method *types.Func) types.Object {
	receiver := method.Type().(*types.Signature).Recv()
	if receiver == nil {
		return nil
	}
	t := receiver.Type()
	if pointer, is := t.(*types.Pointer); is {
		t = pointer.Elem()
	}
	if named, is := t.(*types.Named); is {
		return named.Obj()
	}
	return nil
}

// declaration is the place of the first declaration without a typing: one with an error, or one that names another without a typing.
func declaration(files []*ast.File, info *types.Info, seek *seeker) token.Pos {
	all := rows(files)
	of := map[types.Object]*row{}
	for _, one := range all {
		if object := info.Defs[one.name]; object != nil {
			of[object] = one
		}
		for _, tree := range one.trees {
			one.fails = one.fails || seek.own(tree)
		}
	}
	for _, one := range all {
		if method, is := info.Defs[one.name].(*types.Func); is {
			if base := of[receiverOf(method)]; base != nil {
				base.methods = append(base.methods, one)
			}
		}
	}
	for changed := true; changed; {
		changed = false
		for _, one := range all {
			for _, method := range one.methods {
				if method.fails && !one.fails {
					one.fails, changed = true, true
				}
			}
			for _, tree := range one.trees {
				ast.Inspect(tree, func(below ast.Node) bool {
					switch below := below.(type) {
					case *ast.FuncLit:
						ast.Inspect(below.Type, func(ast.Node) bool { return true })
						return false
					case *ast.Ident:
						if other := of[info.Uses[below]]; other != nil && other.fails && !one.fails {
							one.fails, changed = true, true
						}
					}
					return true
				})
			}
		}
	}
	for _, one := range all {
		if one.fails {
			return one.name.Pos()
		}
	}
	return nowhere
}

// bodies is the least place of a file's bodies and of its function literals outside of bodies.
func bodies(file *ast.File, seek *seeker) token.Pos {
	found := nowhere
	for _, decl := range file.Decls {
		if function, is := decl.(*ast.FuncDecl); is {
			found = least(found, seek.literals(function.Type))
			if function.Body != nil {
				found = least(found, seek.list(function.Body.List))
			}
			continue
		}
		found = least(found, seek.literals(decl))
	}
	return found
}

// clientOf reads a client from its folder as the profile does, and answers on the platform of the world.
func clientOf(world *typed.World, folder string) answer {
	one := world.Client(folder)
	name := world.Platform.String()
	if one == nil {
		return answer{Line: "client " + name + ": in profile"}
	}
	var files []*ast.File
	var errors []types.Error
	refused := ""
	for _, file := range one.Files {
		files = append(files, file.Tree)
		if file.Tree.Name.Name == "_" {
			return answer{Line: "refused", Said: []string{"a package with the blank name"}}
		}
		if file.Err == nil {
			continue
		}
		refused = file.Err.Error()
		typed, only := unparsedAt(file)
		if !only {
			return answer{Line: "refused", Said: []string{refused}}
		}
		errors = append(errors, typed...)
	}
	for _, fault := range one.Faults {
		errors = append(errors, types.Error{Pos: fault.Pos, Msg: fault.Message})
	}
	found := answered(world.Set, name, files, one.Types, one.Info, errors)
	if refused != "" {
		found.Else = append(found.Else, other{found.Line, unparsed})
		found.Line, found.Said = "refused", []string{refused}
	}
	return found
}
