// Answers which features the packages of trees have, by Go's packages, or why they are refused.
package answers

import (
	"fmt"
	"go/ast"
	"go/token"
	"go/types"
	"math/rand"
	"sort"
	"strings"

	"apigate/conformance/internal/differences"
	"apigate/conformance/internal/grammar"
	"apigate/conformance/internal/imports"
	"apigate/conformance/internal/units"
	"apigate/internal/featurelines"
)

// An answer is a list of lines with the classes of differences that lead to it, none where it is Go's own. Lost are the places of all
// declarations that are lost.
type answer struct {
	Classes []string
	Lines   []string
	Lost    []string
}

// Answers are all that may be said, with Go's errors. Where features may be said, Skipped is what was left out for them, and Cut are the
// texts of the files without that, or as was asked.
type Answers struct {
	Case    string
	Answers []answer
	Errors  []string
	Counts  map[string]int
	Skipped []Skipped
	Cut     map[string]string `json:"-"`
	Left    map[string]string `json:"-"` // files with what was left out, where they are asked for
}

// An outcome is what may be said of a package, by classes of differences: that it is typed, and what is left out by which causes, or why it
// is refused, and then the places of all that is lost and not left out.
type outcome struct {
	classes []string
	line    string
	lost    []string
	left    map[int]string
}

// A reading is what Go's type checker says of a package, and its outcomes.
type reading struct {
	outcomes []outcome
	sieve    *sieve
	typed    typed
}

// typed is what Go's type checker says of a package.
type typed struct {
	pack   *types.Package
	info   *types.Info
	errors []types.Error
	failed bool
}

// A checking is that of the packages of a run.
type checking struct {
	*units.UnitRun
	known map[string]*types.Package
	sizes types.Sizes
}

func (c *checking) Import(path string) (*types.Package, error) {
	if pack := c.known[path]; pack != nil {
		return pack, nil
	}
	return nil, fmt.Errorf("no package %s", path)
}

// withUsed leaves only the imports of a file that it uses.
func withUsed(file units.ReadFile, set *token.FileSet) *ast.File {
	used := map[int]bool{}
	for _, use := range file.Uses {
		used[use.Place] = true
	}
	imports.KeepImports(file.Tree, func(spec *ast.ImportSpec) bool { return used[set.Position(spec.Path.Pos()).Offset] })
	return file.Tree
}

const brokenAlias = "invalid use of type alias"

// broken is how many aliases Go couldn't type for their order, and of variables where some are in a circle.
func (t typed) broken() (count int) {
	circular := false
	for _, one := range t.errors {
		if strings.HasPrefix(one.Msg, brokenAlias) {
			count++
		}
		circular = circular || strings.Contains(one.Msg, "initialization cycle for")
	}
	if !circular || t.pack == nil {
		return count
	}
	for _, name := range t.pack.Scope().Names() {
		if object, is := t.pack.Scope().Lookup(name).(*types.Var); is && object.Type() == types.Typ[types.Invalid] {
			count++
		}
	}
	return count
}

// checkInOrder types a package. Where Go can't type an alias or a variable in a circle in the order of the declarations, it is asked
// again in others, and that is taken in which the fewest are left.
func (c *checking) checkInOrder(f *units.Folder, files []*ast.File, counts map[string]int) typed {
	done := c.check(f, files)
	draw := rand.New(rand.NewSource(1))
	for tries := 0; tries < 50 && done.broken() > 0; tries++ {
		for _, file := range files {
			draw.Shuffle(len(file.Decls), func(i, j int) { file.Decls[i], file.Decls[j] = file.Decls[j], file.Decls[i] })
			for _, decl := range file.Decls {
				if group, is := decl.(*ast.GenDecl); is && (group.Tok == token.TYPE || group.Tok == token.VAR) {
					draw.Shuffle(len(group.Specs), func(i, j int) { group.Specs[i], group.Specs[j] = group.Specs[j], group.Specs[i] })
				}
			}
		}
		draw.Shuffle(len(files), func(i, j int) { files[i], files[j] = files[j], files[i] })
		if again := c.check(f, files); !again.failed && again.broken() < done.broken() {
			counts["packages in another order"]++
			done = again
		}
	}
	return done
}

// check types a package. Bodies aren't looked into.
func (c *checking) check(f *units.Folder, files []*ast.File) (done typed) {
	defer func() {
		if fault := recover(); fault != nil {
			done.failed = true
			done.errors = append(done.errors, types.Error{Fset: c.Set, Msg: fmt.Sprint(fault)})
		}
	}()
	done.info = &types.Info{
		Types: map[ast.Expr]types.TypeAndValue{}, Uses: map[*ast.Ident]types.Object{}, Defs: map[*ast.Ident]types.Object{},
	}
	settings := types.Config{
		Importer: c, IgnoreFuncBodies: true, Sizes: c.sizes,
		Error: func(err error) { done.errors = append(done.errors, err.(types.Error)) },
	}
	done.pack, _ = settings.Check(f.Path, c.Set, files, done.info)
	return done
}

// offset is a place as the gate tells it: a file and an offset.
func (c *checking) offset(at token.Pos) (file string, offset int) {
	place := c.Set.Position(at)
	return place.Filename, place.Offset
}

func (c *checking) told(f *units.Folder, at token.Pos, what string) string {
	file, offset := c.offset(at)
	return fmt.Sprintf("%s %s: %s at %d", f.Path, file, what, offset)
}

var goOnly = []struct{ words, class string }{
	{"duplicate key ", differences.Twice}, {"duplicate index ", differences.Twice}, {"initialization cycle for", variable}, {"missing function body", bodiless},
	{"invalid shift count", differences.Far}, {brokenAlias, unordered},
}

// ofGo is the class of an error that only Go finds, or nothing.
func ofGo(message string) string {
	for _, one := range goOnly {
		if strings.Contains(message, one.words) {
			return one.class
		}
	}
	return ""
}

// isRepeated says whether an error is of a name that its package declared before, in the roles in which names collide here: a
// method's are those of receivers that are written alike.
func (c *checking) isRepeated(l *Listing, one types.Error) bool {
	switch {
	case strings.Contains(one.Msg, "already declared through import of"):
		return true
	case strings.HasSuffix(one.Msg, "redeclared in this block"):
		for _, d := range l.All {
			for _, name := range d.Names {
				if name.Pos() == one.Pos && d.Method == nil {
					return true
				}
			}
		}
		return !c.stands(l, one.Pos)
	case strings.HasPrefix(one.Msg, "method ") && strings.Contains(one.Msg, " already declared for "):
		for at, d := range l.All {
			if d.Method == nil || d.Place() != one.Pos || receiverName(d.Method) == "" {
				continue
			}
			for _, other := range l.All[:at] {
				if other.Method != nil && other.Names[0].Name == d.Names[0].Name && receiverName(other.Method) == receiverName(d.Method) {
					return true
				}
			}
		}
	}
	return false
}

func (c *checking) stands(l *Listing, at token.Pos) bool {
	for _, d := range l.All {
		if d.has(at) {
			return true
		}
	}
	return false
}

// placeOf is where a name stands that an error is of: an import stands at its path.
func placeOf(files []*ast.File, at token.Pos) token.Pos {
	for _, file := range files {
		for _, decl := range file.Decls {
			if group, is := decl.(*ast.GenDecl); is && group.Tok == token.IMPORT {
				for _, spec := range group.Specs {
					if spec.Pos() == at {
						return spec.(*ast.ImportSpec).Path.Pos()
					}
				}
			}
		}
	}
	return at
}

// repeated is the place of the first name that was declared before.
func (c *checking) repeated(files []*ast.File, l *Listing, done typed) token.Pos {
	first := token.NoPos
	for i, one := range done.errors {
		if !c.isRepeated(l, one) {
			continue
		}
		at := one.Pos
		if strings.Contains(one.Msg, "already declared through import of") && i+1 < len(done.errors) && done.errors[i+1].Pos > at {
			at = done.errors[i+1].Pos // the import stands in a later file
		}
		if at = placeOf(files, at); first == token.NoPos || at < first {
			first = at
		}
	}
	return first
}

// judged is the outcome where these declarations are faulty, by these classes, besides those that are lost for what the profile hasn't.
func (c *checking) judged(s *sieve, faulty map[int]bool, classes map[string]bool) outcome {
	all := map[int]bool{}
	for at := range faulty {
		all[at] = true
	}
	for at := range s.certain {
		all[at] = true
	}
	lost := s.lost(all)
	found, causes := outcome{classes: SortedKeys(classes), left: map[int]string{}}, s.beyond(lost)
	for at, d := range s.All {
		switch {
		case lost[at] && causes[at] != "" && !s.seen[at]:
			found.left[at] = causes[at]
		case lost[at]:
			line := c.told(s.folder, d.Place(), "no typing")
			if found.line == "" {
				found.line, found.classes = line, SortedKeys(s.because(at, faulty, classes))
			}
			found.lost = append(found.lost, line)
		}
	}
	return found
}

// because are the classes for which a declaration is lost: these, where it leads to what is faulty by them.
func (s *sieve) because(at int, faulty map[int]bool, classes map[string]bool) map[string]bool {
	own := map[string]bool{}
	for to := range s.reached(map[int]bool{at: true}) {
		if faulty[to] {
			return classes
		}
		if s.certain[to] != "" {
			own[s.certain[to]] = true
		}
	}
	return own
}

func SortedKeys(set map[string]bool) []string {
	keys := []string{}
	for key := range set {
		keys = append(keys, key)
	}
	sort.Strings(keys)
	return keys
}

// twiceDeclared are the outcomes of a package that declares a name twice, if it does.
func (c *checking) twiceDeclared(f *units.Folder, files []*ast.File, l *Listing, done typed) (all []outcome) {
	at, other := c.repeated(files, l, done), l.alike()
	if at != token.NoPos {
		all = append(all, outcome{line: c.told(f, at, "declared twice")})
	}
	if other == token.NoPos || at != token.NoPos && at <= other {
		return all
	}
	if at == token.NoPos {
		all = append(all, c.judged(c.sieveOf(f, l, done.info), l.faulty(done.errors), nil))
	}
	return append(all, outcome{classes: []string{baseless}, line: c.told(f, other, "declared twice")})
}

// isOfConstants says whether a position is in a declaration of constants.
func (l *Listing) isOfConstants(at token.Pos) bool {
	for _, d := range l.All {
		if d.Kind == token.CONST && d.has(at) {
			return true
		}
	}
	return false
}

// unsound are the outcomes of a package by Go's errors: Go's own, those without the errors that Go alone finds, and those in which one
// declaration more is faulty.
func (c *checking) unsound(s *sieve, done typed) (all []outcome) {
	var left []types.Error
	ofGoAlone := map[string]bool{}
	for _, one := range done.errors {
		if class := ofGo(one.Msg); class != "" && !(class == variable && s.isOfConstants(one.Pos)) {
			ofGoAlone[class] = true
		} else if s.isTwiceByStars(one) {
			ofGoAlone[starred] = true
		} else {
			left = append(left, one)
		}
	}
	all = append(all, c.judged(s, s.faulty(done.errors), nil))
	without := s.faulty(left)
	for at, d := range s.All {
		if d.isStarred() && s.addFinders(without, at, done.info) {
			ofGoAlone[starred] = true
		}
	}
	if len(ofGoAlone) > 0 {
		all = append(all, c.judged(s, without, ofGoAlone))
	}
	for at := range s.All {
		if classes := s.Own(at, done.info, done.pack); len(classes) > 0 {
			faulty := map[int]bool{at: true}
			if classes[aliased] {
				s.addFinders(faulty, at, done.info)
			}
			if one := c.judged(s, faulty, classes); one.line != "" {
				all = append(all, one)
			}
		}
	}
	return all
}

// read gives the outcomes of a package, Go's own first.
func (c *checking) read(f *units.Folder, all *Answers) reading {
	var files []*ast.File
	for _, file := range f.Files {
		files = append(files, withUsed(file, c.Set))
	}
	l := ListingOf(files)
	done := c.check(f, files)
	for _, one := range done.errors {
		if !strings.HasPrefix(one.Msg, "\t") {
			all.Errors = append(all.Errors, fmt.Sprintf("%s: %s", c.Set.Position(one.Pos), strings.Join(strings.Fields(one.Msg), " ")))
		}
	}
	if done.failed {
		return reading{outcomes: []outcome{{classes: []string{differences.Failing}, line: "failed"}}}
	}
	if found := c.twiceDeclared(f, files, l, done); len(found) > 0 {
		return reading{outcomes: found}
	}
	if file, place, is := c.needed(f, l); is {
		return reading{outcomes: []outcome{{line: fmt.Sprintf("%s %s: import not found at %d", f.Path, file, place)}}}
	}
	for i, file := range f.Files {
		files[i] = c.withFound(f, file, file.Tree)
	}
	done = c.checkInOrder(f, files, all.Counts)
	s := c.sieveOf(f, l, done.info)
	return reading{c.unsound(s, done), s, done}
}

func isPublic(f *units.Folder) bool {
	return !f.Std && f.Name != "main" && !strings.Contains("/"+f.Path+"/", "/internal/")
}

func (c *checking) features(f *units.Folder, counts map[string]int) (lines []string) {
	pack := c.known[f.Path]
	for _, name := range pack.Scope().Names() {
		if object := pack.Scope().Lookup(name); object.Exported() {
			counts["objects"]++
			for _, line := range featurelines.Lines(pack, object) {
				lines = append(lines, "pkg "+f.Path+", "+line)
			}
		}
	}
	return lines
}

func isRead(text string) bool {
	said, _ := grammar.Verdict([]byte(text))
	return said == "ok"
}

// unread is the refusal of the first file that Go's parser reads and the grammar of this gate doesn't, in the module before the
// standard library.
func unread(order []*units.Folder) string {
	for _, std := range []bool{false, true} {
		var found []string
		for _, f := range order {
			for _, file := range f.All {
				if f.Std == std && file.Chosen && !isRead(file.Text) {
					found = append(found, fmt.Sprintf("%s %s: not in the grammar", f.Path, file.Path))
					break
				}
			}
		}
		if sort.Strings(found); len(found) > 0 {
			return found[0]
		}
	}
	return ""
}

// once are lines in order, each once.
func once(lines []string) []string {
	sort.Strings(lines)
	kept := []string{}
	for at, line := range lines {
		if at == 0 || line != lines[at-1] {
			kept = append(kept, line)
		}
	}
	return kept
}

// A settled module is one with features, its packages behind those that they import.
type settled struct {
	*checking
	order  []*units.Folder
	sieves map[string]*sieve
	left   map[string]map[int]string // what is left out, by the paths of packages
}

// AnswersTo answers a question.
func AnswersTo(asked units.Question) Answers { return answersTo(asked, func(settled, *Answers) {}) }

// AnswersWithoutUnseen answers a question. Where features may be said, Cut are the texts of the files without all that nobody sees, and
// among the counts are the declarations of the module and those.
func AnswersWithoutUnseen(asked units.Question) Answers { return answersTo(asked, cutUnseen) }

// AnswersInParts answers a question. Where features may be said, Cut are the files of the packages of which something is left out, and of
// those that they import, without that, without bodies and build lines; Left are further files, in which that stands.
func AnswersInParts(asked units.Question) Answers { return answersTo(asked, divide) }

func answersTo(asked units.Question, further func(settled, *Answers)) Answers {
	all := Answers{Answers: []answer{}, Counts: map[string]int{}, Cut: map[string]string{}}
	r, order, refused := units.UnitsOn(asked)
	if refused != "" {
		all.Answers = append(all.Answers, answer{[]string{}, []string{strings.TrimSuffix(refused, "\n")}, nil})
		return all
	}
	if line := unread(order); line != "" {
		all.Answers = append(all.Answers, answer{[]string{differences.Unwritten}, []string{line}, nil})
		return all
	}
	_, architecture, _ := strings.Cut(asked.Platform, "-")
	c := &checking{r, map[string]*types.Package{}, types.SizesFor("gc", architecture)}
	lines, met := []string{}, map[string]bool{}
	done := settled{c, order, map[string]*sieve{}, map[string]map[int]string{}}
	for _, f := range order {
		all.Counts["packages"]++
		goesOn := false
		var way outcome
		found := c.read(f, &all)
		for i, one := range found.outcomes {
			if one.line == "" {
				if !goesOn || len(one.classes) < len(way.classes) {
					way = one
				}
				goesOn = true
				continue
			}
			if i == 0 || len(one.classes) > 0 {
				all.Answers = append(all.Answers, answer{with(met, one.classes), []string{one.line}, one.lost})
			}
		}
		if !goesOn {
			return all
		}
		if len(way.left) > 0 {
			found.typed = c.leaveOut(found.sieve, way.left, found.typed, &all)
		}
		c.known[f.Path] = found.typed.pack
		if found.sieve == nil {
			return all
		}
		done.sieves[f.Path], done.left[f.Path] = found.sieve, way.left
		for _, class := range way.classes {
			met[class] = true
		}
		if isPublic(f) {
			lines = append(lines, c.features(f, all.Counts)...)
		}
	}
	all.Answers = append([]answer{{SortedKeys(met), once(lines), nil}}, all.Answers...)
	further(done, &all)
	return all
}

// with are classes and some more, in order.
func with(met map[string]bool, more []string) []string {
	all := map[string]bool{}
	for class := range met {
		all[class] = true
	}
	for _, class := range more {
		all[class] = true
	}
	return SortedKeys(all)
}
