// Makes clients of old versions of modules, and tells which of them stop compiling against the new version, by Go's type checker.
//
//	clients [--all] [--keep DIR] [--list DIR] [--listed N] [--steps N] [--shown N] [--most N] [--random N] [--seed N] [--workers N] [FILE]
//
// FILE, or the standard input, has a line `NAME OLD NEW STD` for each pair: the folders of two versions of a module, and of the
// declarations of the packages that they import from elsewhere, or `-` for Go's own. Of each pair it prints `NAME clients N broken N`,
// and for some of the clients that are broken `NAME broken CLIENT MESSAGE`; or `NAME refused SIDE MESSAGE` where Go can't type a version.
// Without --all the clients are those that name something whose declaration, or one that it leads to, isn't the same in both versions:
// no other one can break.
//
// With --listed and --steps so many clients of a pair are listed that are of the profile, and that take one step outside of it alone (steps.go);
// of each it prints `NAME listed CLIENT`, and behind tabs the step or `-`, what it has to be over the new version, and Go's messages there (listed.go).
//
// A line `NAME OLD NEW STD CLIENT` asks of the client in a folder. The answer is `NAME client WORD MESSAGE`: it is untyped against the old
// version, outside the profile, broken, or kept.
//
// A client of the profile uses what the public packages of the module export in these ways:
//
//   - a constant as a value, in another constant, in the length of an array, as an index or key, as an operand and as the argument of a
//     conversion to a whole number, a text or a truth value. That two constant keys of a literal aren't equal is looked at by Go alone.
//   - a variable read, assigned, changed by an operator, and its address
//   - a function called, also by go and defer, with all arguments one by one, by another call or as a slice, and as a value
//   - a type in declarations of the client's own: of variables, aliases, structs with fields of it, pointers, maps, interfaces; and a
//     definition by its name where it is neither a struct nor an interface
//   - literals of it: a struct's with keys, all others with and without
//   - a value's fields and methods, also promoted ones, and those of a type that isn't exported; method values and expressions
//   - operators, indexes, slices, sends and receives, ranges, switches, builtin functions, comparisons, keys of maps
//   - assignment and all that works like it, to the same type, to an interface of the module, of the client or of std, between
//     channels, and by what is underneath where neither type is a defined struct of another package
//   - conversions, but for those below, and assertions and type switches to what implements an interface
//   - a type of its own that implements an interface without unexported methods
//
// These steps it hasn't, and clients with one of them are dropped (profile.go):
//
//   - a literal of a defined struct of another package with an element without a key
//   - an embedded field or interface whose type is neither the client's own nor predeclared
//   - a definition by the name of another package's struct or interface, also behind an alias of the client
//   - an assignment or conversion by what is underneath where one side is a defined struct of another package, and a conversion so where
//     one is a defined interface of another package; a conversion of pointers where a base is one of these
//   - conversions of slices to arrays; fractions in constants, more than 128 bits, an untyped constant shifted by what isn't constant
//   - unsafe, type parameters, dot imports, types declared in functions: none is made
package main

import (
	"bufio"
	"crypto/sha256"
	"flag"
	"fmt"
	"go/ast"
	"go/parser"
	"go/token"
	"go/types"
	"io"
	"os"
	"path/filepath"
	"runtime"
	"runtime/debug"
	"sort"
	"strings"
	"sync"

	"apigate/internal/profile"
)

var (
	keep    = flag.String("keep", "", "a folder for the clients that stop compiling")
	list    = flag.String("list", "", "a folder for all clients")
	all     = flag.Bool("all", false, "also clients of what leads to no change")
	listed  = flag.Int("listed", 0, "how many clients of a pair are listed and told, where not all are")
	steps   = flag.Int("steps", 0, "how many clients of a pair that take one step outside of the profile are listed and told")
	shown   = flag.Int("shown", 20, "how many clients of a pair are told")
	most    = flag.Int("most", 4000, "how many clients of a pair, before those made by chance")
	random  = flag.Int("random", 300, "how many random clients of one package")
	seed    = flag.Int64("seed", 1, "of random clients")
	workers = flag.Int("workers", runtime.NumCPU(), "how many pairs at once")
)

// text is a file of clients; each is alone where the import names what it uses.
func (u *unit) text(blocks []*block) string {
	text := &strings.Builder{}
	text.WriteString("package c\n\n")
	all := &strings.Builder{}
	for _, one := range blocks {
		all.WriteString(one.text)
		all.WriteString("\n\n")
	}
	var names []string
	for name := range u.imports {
		names = append(names, name)
	}
	sort.Strings(names)
	for _, name := range names {
		path := u.imports[name]
		if len(blocks) == 1 && !mentions(all.String(), name) {
			continue
		}
		if pack, err := u.tree.Import(path); err == nil && pack.Name() == name {
			fmt.Fprintf(text, "import %q\n", path)
			continue
		}
		fmt.Fprintf(text, "import %s %q\n", name, path)
	}
	text.WriteString("\n")
	text.WriteString(all.String())
	return text.String()
}

// mentions says whether a text has the name before a dot.
func mentions(text, name string) bool {
	for at := 0; ; {
		found := strings.Index(text[at:], name+".")
		if found < 0 {
			return false
		}
		at += found
		if at == 0 || !isPart(text[at-1]) && text[at-1] != '.' || strings.HasSuffix(text[:at], "...") {
			return true
		}
		at++
	}
}

func isPart(one byte) bool {
	return one == '_' || one >= 0x80 || '0' <= one && one <= '9' || 'a' <= one && one <= 'z' || 'A' <= one && one <= 'Z'
}

// A parsedUnit is a file with all clients of a unit.
type parsedUnit struct {
	set  *token.FileSet
	file *ast.File
	ends []token.Pos
}

// parse reads all clients; those that don't parse are dropped.
func (u *unit) parse() *parsedUnit {
	for {
		p := &parsedUnit{set: token.NewFileSet()}
		text := u.text(u.blocks)
		file, err := parser.ParseFile(p.set, "c.go", text, parser.SkipObjectResolution)
		if err == nil {
			p.file = file
			at, decls := 0, file.Decls
			for len(decls) > 0 {
				if group, is := decls[0].(*ast.GenDecl); !is || group.Tok != token.IMPORT {
					break
				}
				decls = decls[1:]
			}
			at = len(text)
			for i := len(u.blocks) - 1; i >= 0; i-- {
				at -= len(u.blocks[i].text) + 2
				start := p.set.File(file.Pos()).Pos(at)
				from := len(decls)
				for from > 0 && decls[from-1].Pos() >= start {
					from--
				}
				u.blocks[i].decls, decls = decls[from:], decls[:from]
			}
			return p
		}
		var parsing []*block
		for _, one := range u.blocks {
			if _, err := parser.ParseFile(token.NewFileSet(), "c.go", "package c\n"+one.text, parser.SkipObjectResolution); err == nil {
				parsing = append(parsing, one)
			}
		}
		u.blocks = parsing
	}
}

// only is the file with the clients that are kept.
func (u *unit) only(p *parsedUnit) (*ast.File, []*block) {
	file := *p.file
	file.Decls = nil
	for _, decl := range p.file.Decls {
		if group, is := decl.(*ast.GenDecl); is && group.Tok == token.IMPORT {
			file.Decls = append(file.Decls, decl)
		}
	}
	var kept []*block
	for _, one := range u.blocks {
		if one.kept {
			kept = append(kept, one)
			file.Decls = append(file.Decls, one.decls...)
		}
	}
	return &file, kept
}

// faulty types the kept clients together, and gives those in which there is an error; all where an import isn't found.
func (u *unit) faulty(p *parsedUnit, over *tree, info *types.Info) (wrong []*block) {
	file, kept := u.only(p)
	if len(kept) == 0 {
		return nil
	}
	found := map[*block]bool{}
	all := false
	note := func(err error) {
		at := err.(types.Error).Pos
		i := sort.Search(len(kept), func(i int) bool { return kept[i].decls[0].Pos() > at }) - 1
		if i >= 0 {
			found[kept[i]] = true
		} else if strings.HasPrefix(err.(types.Error).Msg, "could not import") {
			all = true
		}
	}
	settings := types.Config{Importer: over, Sizes: sizes, Error: note}
	func() {
		defer func() {
			if wrong := recover(); wrong != nil {
				all = true
			}
		}()
		settings.Check(profile.ClientPath, p.set, []*ast.File{file}, info)
	}()
	for _, one := range kept {
		if all || found[one] {
			wrong = append(wrong, one)
		}
	}
	return wrong
}

// alone types one client by itself, and gives its first error.
func (u *unit) alone(one *block, over *tree) (message string) {
	set := token.NewFileSet()
	file, err := parser.ParseFile(set, "c.go", u.text([]*block{one}), parser.SkipObjectResolution)
	if err != nil {
		return err.Error()
	}
	defer func() {
		if wrong := recover(); wrong != nil {
			message = fmt.Sprint("Go's type checker fails: ", wrong)
		}
	}()
	settings := types.Config{Importer: over, Sizes: sizes, Error: func(err error) {
		if message == "" {
			message = err.Error()
		}
	}}
	settings.Check(profile.ClientPath, set, []*ast.File{file}, nil)
	return message
}

// A prepared old version has its types explored, once for all pairs that have it.
type prepared struct {
	sync.Once
	tree  *tree
	units []*unit
	facts map[string]fact
	err   error
}

func (p *prepared) prepare(folder string, std *standard) {
	if p.tree, p.err = load(folder, std); p.err != nil {
		return
	}
	for _, pack := range p.tree.public {
		u := newUnit(p.tree, pack)
		u.exploreAll()
		p.units = append(p.units, u)
	}
	p.facts = p.tree.facts()
}

// profiled makes clients, and keeps those that are typed against the old version and in the profile.
func (u *unit) profiled(old *tree) (p *parsedUnit, count int) {
	u.generate()
	u.randomly(*seed, *random)
	return u.typedAlone(old, func(found []string) bool { return len(found) == 0 })
}

// typedAlone keeps the clients that are typed against the old version, and of whose steps outside of the profile it is so.
func (u *unit) typedAlone(old *tree, wanted func(found []string) bool) (p *parsedUnit, count int) {
	p = u.parse()
	for _, one := range u.blocks {
		one.kept = len(one.decls) > 0
	}
	for _, one := range u.faulty(p, old, nil) {
		one.kept = false
	}
	info := &types.Info{Types: map[ast.Expr]types.TypeAndValue{}, Defs: map[*ast.Ident]types.Object{}, Uses: map[*ast.Ident]types.Object{}}
	for _, one := range u.faulty(p, old, info) {
		one.kept = false
	}
	for _, one := range u.blocks {
		if !one.kept {
			continue
		}
		var found []string
		for _, decl := range one.decls {
			found = append(found, outside(decl, info)...)
		}
		if one.kept = wanted(found); one.kept {
			count++
		}
	}
	return p, count
}

// A pair is a line of the manifest.
type pair struct{ name, old, new, std, client string }

// compare tells of one pair.
func (p *prepared) compare(of pair, now *tree) string {
	var focus map[string]int
	if !*all {
		focus = changes(p.facts, now.facts())
	}
	var told []string
	clients, broken := 0, 0
	var inside, outside []one
	for _, explored := range p.units {
		u := explored.over(focus, *most/len(p.units))
		parsed, count := u.profiled(p.tree)
		clients += count
		if *listed+*steps > 0 {
			stepped := explored.over(focus, *most/len(p.units))
			stepped.stepped(p.tree, now)
			inside, outside = append(inside, u.keptOnes()...), append(outside, stepped.keptOnes()...)
			continue
		}
		for _, one := range u.blocks {
			if one.kept && *list != "" {
				write(filepath.Join(*list, of.name, u.nameOf(one)), u.text([]*block{one}))
			}
		}
		for _, one := range u.faulty(parsed, now, nil) {
			if broken++; len(told) >= *shown {
				continue
			}
			message := u.alone(one, now)
			if message == "" || u.alone(one, p.tree) != "" {
				broken--
				continue
			}
			told = append(told, fmt.Sprintf("%s broken %s %s", of.name, u.nameOf(one), strings.ReplaceAll(message, "\n", " ")))
			if *keep != "" {
				write(filepath.Join(*keep, of.name, u.nameOf(one)), u.text([]*block{one}))
			}
		}
	}
	told = append(told, listOf(of, p.tree, now, inside, *listed)...)
	told = append(told, listOf(of, p.tree, now, outside, *steps)...)
	return strings.Join(append([]string{fmt.Sprintf("%s clients %d broken %d", of.name, clients, broken)}, told...), "\n") + "\n"
}

// nameOf is the name of a client among all of a pair.
func (u *unit) nameOf(one *block) string {
	return strings.ReplaceAll(u.pack.Path(), "/", "_") + "_" + one.name
}

func write(folder, text string) {
	fail(os.MkdirAll(folder, 0o777))
	fail(os.WriteFile(filepath.Join(folder, "c.go"), []byte(text), 0o666))
}

func fail(err error) {
	if err != nil {
		fmt.Fprintln(os.Stderr, "clients:", err)
		os.Exit(2)
	}
}

// A cache has what is read once for several pairs.
type cache struct {
	sync.Mutex
	standards map[string]*standard
	olds      map[string]*prepared
}

const remembered = 64

func (c *cache) standard(folder string) *standard {
	c.Lock()
	defer c.Unlock()
	if c.standards[folder] == nil {
		c.standards[folder] = newStandard(folder)
	}
	return c.standards[folder]
}

// old is the old version of a pair; folders with the same files are one.
func (c *cache) old(of pair) *prepared {
	key := contents(of.old) + of.std
	c.Lock()
	if len(c.olds) > remembered {
		c.olds = map[string]*prepared{}
	}
	p := c.olds[key]
	if p == nil {
		p = &prepared{}
		c.olds[key] = p
	}
	c.Unlock()
	std := c.standard(of.std)
	p.Do(func() { p.prepare(of.old, std) })
	return p
}

// contents is a digest of the files of a folder.
func contents(folder string) string {
	digest := sha256.New()
	filepath.Walk(folder, func(path string, info os.FileInfo, err error) error {
		if err == nil && info.Mode().IsRegular() {
			text, _ := os.ReadFile(path)
			fmt.Fprintf(digest, "%s %d\n%s", strings.TrimPrefix(path, folder), len(text), text)
		}
		return nil
	})
	return string(digest.Sum(nil))
}

func (c *cache) tell(of pair) string {
	p := c.old(of)
	if p.err != nil {
		return fmt.Sprintf("%s refused old %s\n", of.name, strings.ReplaceAll(p.err.Error(), "\n", " "))
	}
	now, err := load(of.new, c.standard(of.std))
	if err != nil {
		return fmt.Sprintf("%s refused new %s\n", of.name, strings.ReplaceAll(err.Error(), "\n", " "))
	}
	if of.client != "" {
		return vet(of, p.tree, now)
	}
	return p.compare(of, now)
}

// vet tells of the client in a folder, whether it is one of the profile, and its first errors.
func vet(of pair, old, now *tree) string {
	set := token.NewFileSet()
	files, err := filesOf(set, of.client)
	if err != nil {
		return fmt.Sprintf("%s client refused %s\n", of.name, err)
	}
	info := &types.Info{Types: map[ast.Expr]types.TypeAndValue{}, Defs: map[*ast.Ident]types.Object{}, Uses: map[*ast.Ident]types.Object{}}
	check := func(over *tree, info *types.Info) (message string) {
		settings := types.Config{Importer: over, Sizes: sizes, Error: func(err error) {
			if message == "" {
				message = strings.ReplaceAll(err.Error(), "\n", " ")
			}
		}}
		settings.Check(profile.ClientPath, set, files, info)
		return message
	}
	if message := check(old, info); message != "" {
		return fmt.Sprintf("%s client untyped %s\n", of.name, message)
	}
	for _, file := range files {
		for _, decl := range file.Decls {
			if why := outside(decl, info); len(why) > 0 {
				return fmt.Sprintf("%s client outside %s\n", of.name, why[0])
			}
		}
	}
	if message := check(now, nil); message != "" {
		return fmt.Sprintf("%s client broken %s\n", of.name, message)
	}
	return fmt.Sprintf("%s client kept -\n", of.name)
}

func main() {
	flag.Parse()
	debug.SetGCPercent(400)
	var source io.Reader = os.Stdin
	if flag.NArg() > 0 {
		file, err := os.Open(flag.Arg(0))
		fail(err)
		source = file
	}
	var pairs []pair
	lines := bufio.NewScanner(source)
	for lines.Scan() {
		words := strings.Fields(lines.Text())
		if len(words) == 0 {
			continue
		}
		if len(words) != 4 && len(words) != 5 {
			fail(fmt.Errorf("not NAME OLD NEW STD or NAME OLD NEW STD CLIENT: %s", lines.Text()))
		}
		pairs = append(pairs, pair{words[0], words[1], words[2], words[3], strings.Join(words[4:], "")})
	}
	results := make([]chan string, len(pairs))
	for i := range results {
		results[i] = make(chan string, 1)
	}
	c := &cache{standards: map[string]*standard{}, olds: map[string]*prepared{}}
	next := make(chan int)
	for i := 0; i < *workers; i++ {
		go func() {
			for at := range next {
				results[at] <- c.tell(pairs[at])
			}
		}()
	}
	go func() {
		for at := range pairs {
			next <- at
		}
	}()
	for _, one := range results {
		fmt.Print(<-one)
	}
}
