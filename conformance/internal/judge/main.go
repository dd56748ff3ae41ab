//go:build apidiff

// Changes trees of modules at random, and asks Go's apidiff about the pairs. Its words are
//
//	bases CUT OUT              reads lines of a name, a module, the path that the module's path takes the place of (or -) and import
//	                           paths with commas; writes the packages of these from CUT, a folder of declarations, as the module OUT/NAME
//	kinds                      prints the kinds of change
//	pairs SEED COUNT STD OUT   reads lines of folders of modules; writes COUNT pairs of trees into OUT, and prints for each a line of its
//	                           name, the old folder, the new one, and the kinds of change between them, parted by tabs
//	answers STD                reads lines of JSON with the folders of a pair and what the judge breaks; prints for each what apidiff says,
//	                           and the classes of difference, as JSON
//	shuffled SEED              reads lines of a folder, a tab and a new folder; copies the tree with its declarations in another order
package main

import (
	"bufio"
	"encoding/json"
	"fmt"
	"go/ast"
	"go/parser"
	"go/token"
	"math/rand"
	"os"
	"path"
	"path/filepath"
	"runtime/debug"
	"strconv"
	"strings"
)

const (
	draws  = 400 // of a pair, before it is given up
	prefer = 60  // percent of the pairs in which one change is made
)

func allKinds() []kind {
	return append(append(append(append([]kind{}, objectKinds...), packageKinds...), memberKinds...), typeKinds...)
}

func eachLine(use func([]string)) {
	lines := bufio.NewScanner(os.Stdin)
	lines.Buffer(nil, 1<<26)
	for lines.Scan() {
		use(strings.Split(lines.Text(), "\t"))
	}
}

func tell(what interface{}) {
	text, err := json.Marshal(what)
	fail(err)
	fmt.Printf("%s\n", text)
}

func parsedText(text string) (*ast.File, *token.FileSet, error) {
	set := token.NewFileSet()
	file, err := parser.ParseFile(set, "", text, parser.SkipObjectResolution)
	return file, set, err
}

// writeBase writes some packages of a folder of declarations as those of a module, which import each other there.
func writeBase(cut, out, module, from string, paths []string) {
	t := &tree{module, map[string]string{}, nil}
	folders := map[string]string{}
	for _, at := range paths {
		folder := at
		if at == from {
			folder = "."
		} else if from != "-" {
			folder = strings.TrimPrefix(at, from+"/")
		}
		folders[at] = folder
	}
	for at, folder := range folders {
		for place, text := range filesBelow(filepath.Join(cut, at)) {
			if strings.Contains(place, "/") {
				continue
			}
			if strings.HasPrefix(text, "//go:build ") {
				_, text, _ = strings.Cut(text, "\n")
			}
			file, set, err := parsedText(text)
			fail(err)
			var edits []edit
			for _, spec := range file.Imports {
				said, _ := strconv.Unquote(spec.Path.Value)
				if folder, is := folders[said]; is {
					at := set.File(spec.Pos()).Offset(spec.Path.Pos())
					edits = append(edits, edit{at, at + len(spec.Path.Value), strconv.Quote(path.Join(module, folder))})
				}
			}
			text, _ = edited(text, edits)
			t.files[path.Join(folder, path.Base(at)+".go")] = strings.TrimLeft(text, "\n")
		}
	}
	t.write(out)
}

// A drawer draws pairs.
type drawer struct {
	*rand.Rand
	over  *library
	kinds []kind
	count int // of new names
}

// changed is a tree with a change of a kind that can be typed, and whether one was found.
func (d *drawer) changed(t *tree, k kind) (*tree, bool) {
	if t.view == nil {
		t.view, _ = typed(t, d.over)
	}
	for tries := 0; tries < 4; tries++ {
		m := newMutator(d.Rand, t.view, &d.count)
		if !k.do(m) {
			continue
		}
		found, is := m.done()
		if !is || found.same(t) {
			continue
		}
		var err error
		if found.view, err = typed(found, d.over); err == nil {
			return found, true
		}
	}
	return nil, false
}

func (t *tree) same(other *tree) bool {
	if len(t.files) != len(other.files) {
		return false
	}
	for place, text := range t.files {
		if other.files[place] != text {
			return false
		}
	}
	return true
}

func (d *drawer) named(name string) kind {
	for _, k := range d.kinds {
		if k.name == name {
			return k
		}
	}
	panic("no kind " + name)
}

// prepared is a tree in which a kind of change finds a place, if need be after the kind that it names.
func (d *drawer) prepared(t *tree, k kind) (old, new *tree, is bool) {
	if new, is = d.changed(t, k); is && (k.before == "" || !d.chance(40)) {
		return t, new, true
	}
	if k.before == "" {
		return nil, nil, false
	}
	if _, old, is = d.prepared(t, d.named(k.before)); !is {
		return nil, nil, false
	}
	new, is = d.changed(old, k)
	return old, new, is
}

func (d *drawer) chance(percent int) bool { return d.Intn(100) < percent }

// pair draws an old and a new tree, with a change of this kind between them and perhaps others.
func (d *drawer) pair(bases []*tree, k kind) (old, new *tree, made []string) {
	for tries := 0; tries < draws; tries++ {
		old := bases[d.Intn(len(bases))]
		if d.chance(40) {
			for n := 1 + d.Intn(3); n > 0; n-- {
				if found, is := d.changed(old, d.kinds[d.Intn(len(d.kinds))]); is {
					old = found
				}
			}
		}
		old, new, is := d.prepared(old, k)
		if !is {
			continue
		}
		made := []string{k.name}
		if !d.chance(prefer) {
			for n := 1 + d.Intn(3); n > 0; n-- {
				other := d.kinds[d.Intn(len(d.kinds))]
				if found, is := d.changed(new, other); is {
					new, made = found, append(made, other.name)
				}
			}
		}
		if !new.same(old) {
			return old, new, made
		}
	}
	panic("no pair with: " + k.name)
}

func writePairs(seed int64, count int, std, out string) {
	d := &drawer{over: readLibrary(std), kinds: allKinds()}
	var bases []*tree
	folders := map[*tree]string{}
	eachLine(func(words []string) {
		bases = append(bases, readTree(words[0]))
		folders[bases[len(bases)-1]] = words[0]
	})
	for i := 0; i < count; i++ {
		d.Rand, d.count = rand.New(rand.NewSource(seed<<32+int64(i))), 0
		old, new, made := d.pair(bases, d.kinds[i%len(d.kinds)])
		name := fmt.Sprintf("pair%05d", i)
		before, is := folders[old]
		if !is {
			before = filepath.Join(out, name, "old")
			old.write(before)
		}
		after := filepath.Join(out, name, "new")
		new.write(after)
		fmt.Println(strings.Join([]string{name, before, after, strings.Join(made, "; ")}, "\t"))
	}
}

// shuffled is a tree in which each file's declarations stand in some order in up to three files.
func shuffled(draw *rand.Rand, v *view) *tree {
	t := &tree{v.tree.module, map[string]string{}, nil}
	m := newMutator(draw, v, new(int))
	for _, p := range v.packs {
		names := draw.Perm(3 * len(p.files))
		for i, one := range p.files {
			parts := make([]string, 1+draw.Intn(3))
			used := make([][]ast.Node, len(parts))
			decls := one.file.Decls
			for _, at := range draw.Perm(len(decls)) {
				if group, is := decls[at].(*ast.GenDecl); is && group.Tok == token.IMPORT {
					continue
				}
				part := draw.Intn(len(parts))
				parts[part] += "\n" + m.text(decls[at]) + "\n"
				used[part] = append(used[part], decls[at])
			}
			for j, text := range parts {
				text = "package " + p.types.Name() + "\n\n" + m.importsOf(used[j]...) + text
				text, err := printed(text, v.named)
				fail(err)
				t.files[path.Join(p.folder, fmt.Sprintf("%c%d.go", 'a'+draw.Intn(26), names[3*i+j]))] = text
			}
		}
	}
	return t
}

func number(word string) int {
	found, err := strconv.Atoi(word)
	fail(err)
	return found
}

func main() {
	words := os.Args[1:]
	debug.SetGCPercent(400)
	switch words[0] {
	case "bases":
		eachLine(func(line []string) {
			writeBase(words[1], filepath.Join(words[2], line[0]), line[1], line[2], strings.Split(line[3], ","))
		})
	case "kinds":
		for _, k := range allKinds() {
			fmt.Println(k.name)
		}
	case "pairs":
		writePairs(int64(number(words[1])), number(words[2]), words[3], words[4])
	case "answers":
		over := readLibrary(words[1])
		eachLine(func(line []string) { tell(answered([]byte(line[0]), over)) })
	case "shuffled":
		over := readLibrary(words[2])
		draw := rand.New(rand.NewSource(int64(number(words[1]))))
		eachLine(func(line []string) {
			v, err := typed(readTree(line[0]), over)
			fail(err)
			shuffled(draw, v).write(line[1])
		})
	}
}
