package units

import (
	"bufio"
	"fmt"
	"go/ast"
	"go/build"
	"go/build/constraint"
	"go/parser"
	"go/scanner"
	"go/token"
	"io"
	"os"
	"path"
	"sort"
	"strconv"
	"strings"
)

// A file of a tree, with what Go's packages say of it on a platform.
type treeFile struct {
	Path, Text    string
	Allowed       bool
	Chosen        bool
	Fault, Clause string
}

type UsedImport struct {
	Name, Path string
	Place      int
}

type ReadFile struct {
	Path, name string
	Uses       []UsedImport
	Tree       *ast.File
}

// A Folder that may hold a package; files are those that remain once it is read.
type Folder struct {
	Path, Name string
	Std, read  bool
	All        []treeFile
	Files      []ReadFile
}

// A Question about the files of two trees, each by its path.
type Question struct {
	Word, Platform  string
	Files, StdFiles map[string]string
	barred          []string
}

// Questions reads files that are told line by line, as the crate units does. Lines with # and questions go to the functions.
func Questions(heading func(string), ask func(Question)) {
	var asked Question
	var last *strings.Builder
	sides := map[string]map[string]*strings.Builder{}
	forget := func() {
		asked, last = Question{}, nil
		sides["new"], sides["std"] = map[string]*strings.Builder{}, map[string]*strings.Builder{}
	}
	forget()
	lines := bufio.NewScanner(os.Stdin)
	lines.Buffer(nil, 1<<24)
	for lines.Scan() {
		word, rest, _ := strings.Cut(lines.Text(), " ")
		switch {
		case strings.HasPrefix(lines.Text(), "#"):
			heading(lines.Text())
		case strings.HasPrefix(lines.Text(), "|"):
			last.WriteString(lines.Text()[1:])
			last.WriteByte('\n')
		case word == "new" || word == "std":
			last = &strings.Builder{}
			sides[word][rest] = last
		case word == "barred":
			asked.barred = append(asked.barred, rest)
		default:
			asked.Word, asked.Platform = word, rest
			asked.Files, asked.StdFiles = textsOf(sides["new"]), textsOf(sides["std"])
			ask(asked)
			forget()
		}
	}
}

func textsOf(built map[string]*strings.Builder) map[string]string {
	texts := map[string]string{}
	for place, text := range built {
		texts[place] = text.String()
	}
	return texts
}

// UnitsOf tells the units of files that are told line by line.
func UnitsOf(out io.Writer) {
	Questions(func(line string) { fmt.Fprintln(out, line) }, func(asked Question) {
		if asked.Word != "units" {
			return
		}
		r, order, refused := UnitsOn(asked)
		fmt.Fprint(out, refused)
		for _, f := range order {
			r.write(out, f)
		}
	})
}

func ContextOf(platform string) build.Context {
	system, architecture, _ := strings.Cut(platform, "-")
	context := build.Default
	context.GOOS, context.GOARCH = system, architecture
	context.Compiler, context.CgoEnabled, context.ToolTags, context.ReleaseTags = "gc", false, nil, nil
	for release := 1; release <= lastRelease; release++ {
		context.ReleaseTags = append(context.ReleaseTags, fmt.Sprintf("go1.%d", release))
	}
	return context
}

// matches is go/build's choice of a file with this name and text.
func matches(platform, name, text string) bool {
	context := ContextOf(platform)
	context.OpenFile = func(string) (io.ReadCloser, error) { return io.NopCloser(strings.NewReader(text)), nil }
	chosen, err := context.MatchFile("/x", name)
	return err == nil && chosen
}

// Head reads what stands in front of a file's package clause.
func Head(platform, place, text string) treeFile {
	file := treeFile{Path: place, Text: text}
	name := path.Base(place)
	if file.Allowed = matches(platform, name, "package p\n"); !file.Allowed {
		return file
	}
	var tags []string
	plus := false
	for _, line := range strings.Split(text, "\n") {
		if line = strings.TrimSpace(line); line != "" && !strings.HasPrefix(line, "//") {
			break
		}
		if line == "//go:build" || strings.HasPrefix(line, "//go:build ") {
			tags = append(tags, line)
		}
		plus = plus || constraint.IsPlusBuild(line)
	}
	switch {
	case len(tags) > 1:
		file.Fault = "two build lines"
	case len(tags) == 1:
		if _, err := constraint.Parse(tags[0]); err != nil {
			file.Fault = "bad build expression"
		} else {
			file.Chosen = matches(platform, name, tags[0]+"\n\npackage p\n")
		}
	case plus:
		file.Fault = "a plus line alone"
	default:
		file.Chosen = true
	}
	if parsed, err := parser.ParseFile(token.NewFileSet(), "", text, parser.PackageClauseOnly); err == nil && parsed.Name.Name != "_" {
		file.Clause = parsed.Name.Name
	}
	return file
}

// firstBad is the offset of the first character that begins no token, or -1.
func firstBad(text string) int {
	bad := -1
	set := token.NewFileSet()
	var s scanner.Scanner
	s.Init(set.AddFile("", -1, len(text)), []byte(text), func(at token.Position, _ string) {
		if bad < 0 {
			bad = at.Offset
		}
	}, 0)
	for {
		if _, kind, _ := s.Scan(); kind == token.EOF {
			return bad
		}
	}
}

func Under(place, root string) bool {
	return place == root || strings.HasPrefix(place, root+"/")
}

func foldersOf(platform, module string, files map[string]string, std bool, barred []string) []*Folder {
	byPath := map[string]*Folder{}
	var found []*Folder
	var places []string
	for place := range files {
		if strings.HasSuffix(place, ".go") {
			places = append(places, place)
		}
	}
	sort.Strings(places)
	for _, place := range places {
		at := path.Dir(place)
		switch {
		case std && at == ".":
			continue
		case !std && at == ".":
			at = module
		case !std:
			at = module + "/" + at
		}
		if byPath[at] == nil {
			byPath[at] = &Folder{Path: at, Std: std}
		}
		byPath[at].All = append(byPath[at].All, Head(platform, place, files[place]))
	}
next:
	for _, f := range byPath {
		for _, root := range barred {
			if std && Under(f.Path, root) {
				continue next
			}
		}
		chosen := false
		for _, file := range f.All {
			chosen = chosen || file.Chosen
			if file.Chosen && f.Name == "" {
				f.Name = file.Clause
			}
		}
		if std && chosen && f.Name == "" {
			continue
		}
		found = append(found, f)
	}
	return found
}

// Assumed is the name that an import path lets expect.
func Assumed(place string) string {
	parts := strings.Split(place, "/")
	last := parts[len(parts)-1]
	if _, err := strconv.ParseUint(strings.TrimPrefix(last, "v"), 10, 64); err == nil && strings.HasPrefix(last, "v") && len(parts) > 1 {
		last = parts[len(parts)-2]
	}
	last = strings.TrimPrefix(last, "go-")
	end := strings.IndexFunc(last, func(c rune) bool {
		return !(c >= 'a' && c <= 'z' || c >= 'A' && c <= 'Z' || c >= '0' && c <= '9' || c == '_')
	})
	if end >= 0 {
		last = last[:end]
	}
	return last
}

func namesOf(file *ast.File, declared map[string]bool) {
	for _, decl := range file.Decls {
		switch decl := decl.(type) {
		case *ast.FuncDecl:
			if decl.Recv == nil {
				declared[decl.Name.Name] = true
			}
		case *ast.GenDecl:
			for _, spec := range decl.Specs {
				switch spec := spec.(type) {
				case *ast.TypeSpec:
					declared[spec.Name.Name] = true
				case *ast.ValueSpec:
					for _, name := range spec.Names {
						declared[name.Name] = true
					}
				}
			}
		}
	}
}

func qualifiersOf(file *ast.File, declared map[string]bool) map[string]bool {
	found := map[string]bool{}
	ast.Inspect(file, func(node ast.Node) bool {
		switch node := node.(type) {
		case *ast.BlockStmt:
			return false
		case *ast.SelectorExpr:
			if name, is := node.X.(*ast.Ident); is && !declared[name.Name] && name.Name != "_" {
				found[name.Name] = true
			}
		}
		return true
	})
	return found
}

// A run over the folders of two trees.
type UnitRun struct {
	module  string
	folders map[string]*Folder
	Set     *token.FileSet
}

// named is the folder that an import path names.
func (r *UnitRun) named(from *Folder, place string) *Folder {
	f := r.folders[place]
	if f == nil || from.Std && !f.Std || !from.Std && f.Std == Under(place, r.module) {
		return nil
	}
	return f
}

func (r *UnitRun) Found(from *Folder, place string) bool {
	f := r.named(from, place)
	return f != nil && f.Name != "" && f.Name != "main" && place != "unsafe" && len(f.Files) > 0
}

func isInternal(from *Folder, place string) bool {
	parts := strings.Split(place, "/")
	for at := len(parts) - 1; at >= 0; at-- {
		if parts[at] == "internal" {
			if at == 0 {
				return !from.Std
			}
			return !Under(from.Path, strings.Join(parts[:at], "/"))
		}
	}
	return false
}

// read reads the files of a folder, and gives its refusal.
func (r *UnitRun) read(f *Folder) string {
	f.read = true
	set := r.Set
	var parsed []*ast.File
	var places []string
	for _, file := range f.All {
		at := f.Path + " " + file.Path + ": "
		switch {
		case !file.Allowed:
			continue
		case file.Fault != "":
			return at + file.Fault
		case !file.Chosen:
			continue
		}
		if bad := firstBad(file.Text); bad >= 0 {
			return fmt.Sprintf("%sno token at %d", at, bad)
		}
		tree, err := parser.ParseFile(set, file.Path, file.Text, parser.SkipObjectResolution)
		if err != nil {
			return at + "not in the grammar"
		}
		parsed, places = append(parsed, tree), append(places, file.Path)
	}
	for _, tree := range parsed {
		if tree.Name.Name != parsed[0].Name.Name {
			return f.Path + ": several package names"
		}
	}
	importsC := func(tree *ast.File) bool {
		for _, spec := range tree.Imports {
			if spec.Path.Value == `"C"` {
				return true
			}
		}
		return false
	}
	declared := map[string]bool{}
	for _, tree := range parsed {
		if !importsC(tree) {
			namesOf(tree, declared)
		}
	}
	for at, tree := range parsed {
		if importsC(tree) {
			continue
		}
		file := ReadFile{Path: places[at], name: tree.Name.Name, Tree: tree}
		quals := qualifiersOf(tree, declared)
		named := map[int]string{}
		for qual := range quals {
			any := false
			for i, spec := range tree.Imports {
				scope := ""
				if spec.Name != nil {
					scope = spec.Name.Name
				} else if target := r.named(f, Unquoted(spec)); target != nil {
					scope = target.Name
				}
				if scope == qual {
					named[i], any = qual, true
				}
			}
			for i, spec := range tree.Imports {
				target := r.named(f, Unquoted(spec))
				if !any && spec.Name == nil && (target == nil || target.Name == "") && Assumed(Unquoted(spec)) == qual {
					named[i], any = qual, true
				}
			}
		}
		for i, spec := range tree.Imports {
			if named[i] != "" {
				file.Uses = append(file.Uses, UsedImport{named[i], Unquoted(spec), set.Position(spec.Path.Pos()).Offset})
			}
		}
		f.Files = append(f.Files, file)
	}
	for _, file := range f.Files {
		for _, use := range file.Uses {
			if isInternal(f, use.Path) {
				return fmt.Sprintf("%s %s: internal import at %d", f.Path, file.Path, use.Place)
			}
		}
	}
	return ""
}

func Unquoted(spec *ast.ImportSpec) string {
	place, _ := strconv.Unquote(spec.Path.Value)
	return place
}

func (r *UnitRun) needs(f *Folder) []string {
	var needs []string
	seen := map[string]bool{}
	for _, file := range f.Files {
		for _, use := range file.Uses {
			if r.Found(f, use.Path) && !seen[use.Path] {
				seen[use.Path] = true
				needs = append(needs, use.Path)
			}
		}
	}
	sort.Strings(needs)
	return needs
}

func (r *UnitRun) leads(from, to string, seen map[string]bool) bool {
	for _, next := range r.needs(r.folders[from]) {
		if next == to {
			return true
		}
		if !seen[next] {
			seen[next] = true
			if r.leads(next, to, seen) {
				return true
			}
		}
	}
	return false
}

// UnitsOn gives the folders of the packages in canonical order, or the first refusal as a line.
func UnitsOn(asked Question) (*UnitRun, []*Folder, string) {
	fields := strings.Fields(asked.Files["go.mod"])
	r := &UnitRun{fields[1], map[string]*Folder{}, token.NewFileSet()}
	var own []string
	for _, f := range foldersOf(asked.Platform, r.module, asked.Files, false, nil) {
		r.folders[f.Path] = f
		own = append(own, f.Path)
	}
	for _, f := range foldersOf(asked.Platform, "", asked.StdFiles, true, append(asked.barred, r.module)) {
		r.folders[f.Path] = f
	}
	sort.Strings(own)
	for _, place := range own {
		if refused := r.read(r.folders[place]); refused != "" {
			return r, nil, refused + "\n"
		}
	}
	for {
		least := ""
		for _, f := range r.folders {
			for _, file := range f.Files {
				for _, use := range file.Uses {
					to := r.named(f, use.Path)
					if to != nil && to.Std && !to.read && to.Name != "main" && to.Path != "unsafe" && (least == "" || to.Path < least) {
						least = to.Path
					}
				}
			}
		}
		if least == "" {
			break
		}
		if refused := r.read(r.folders[least]); refused != "" {
			return r, nil, refused + "\n"
		}
	}
	var packages []string
	for place, f := range r.folders {
		if f.read && len(f.Files) > 0 {
			packages = append(packages, place)
		}
	}
	sort.Strings(packages)
	for _, place := range packages {
		if r.leads(place, place, map[string]bool{}) {
			return r, nil, place + ": import cycle\n"
		}
	}
	var order []*Folder
	stands := map[string]bool{}
	for range packages {
	search:
		for _, place := range packages {
			f := r.folders[place]
			for _, need := range r.needs(f) {
				if !stands[need] {
					continue search
				}
			}
			if !stands[place] {
				stands[place] = true
				order = append(order, f)
				break
			}
		}
	}
	return r, order, ""
}

func (r *UnitRun) write(out io.Writer, f *Folder) {
	side := "module"
	if f.Std {
		side = "std"
	}
	fmt.Fprintf(out, "%s %s %s", f.Path, f.Files[0].name, side)
	for _, need := range r.needs(f) {
		fmt.Fprintf(out, " needs %s", need)
	}
	fmt.Fprintln(out)
	for _, file := range f.Files {
		fmt.Fprintf(out, "  %s\n", file.Path)
		for _, use := range file.Uses {
			found := "not found"
			if r.Found(f, use.Path) {
				found = "found"
			}
			fmt.Fprintf(out, "    %s %s %s %d\n", use.Name, use.Path, found, use.Place)
		}
	}
}
