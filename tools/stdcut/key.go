// A look at the modules: a digest of all that decides what is cut of them, their files without the bodies of functions, and what else is asked of
// their files.
package main

import (
	"bytes"
	"crypto/sha256"
	"fmt"
	"go/ast"
	"go/parser"
	"go/scanner"
	"go/token"
	"os"
	"path/filepath"
	"runtime"
	"sort"
	"strings"
	"sync"

	"apigate/internal/trees"
)

// A source is a file of a tree: how it is named in the digest, and where it stands.
type source struct{ named, place string }

// A look is what is told of the trees: the digest of what decides about them, and of each that of all that apigate reads of it, with the files
// whose build lines are of the old form alone.
type look struct {
	Key   string     `json:"key"`
	Trees []treeLook `json:"trees"`
}

type treeLook struct {
	Digest string   `json:"digest"`
	Old    []string `json:"old"`
}

// looked looks at the trees, with the help of the digests that an earlier run kept in a file.
func looked(of []*trees.Tree, kept string) (*look, error) {
	sum := sha256.New()
	var all []source
	var ends []int
	for _, one := range of {
		var paths []string
		for path := range one.Places {
			paths = append(paths, path)
		}
		sort.Strings(paths)
		for _, path := range paths {
			found, err := sources(path, one.Places[path])
			if err != nil {
				return nil, err
			}
			all = append(all, found...)
		}
		ends = append(ends, len(all))
	}
	parts, err := digestsOf(all, kept)
	if err != nil {
		return nil, err
	}
	told := &look{}
	from := 0
	for i, one := range of {
		fmt.Fprintf(sum, "%q %d\n", one.Module, ends[i])
		text, err := os.ReadFile(filepath.Join(one.Folder, "go.mod"))
		if err != nil {
			return nil, err
		}
		whole, old := sha256.New(), []string{}
		fmt.Fprintf(whole, "%x\n", sha256.Sum256(text))
		for at := from; at < ends[i]; at++ {
			fmt.Fprintf(sum, "%s%x\n", all[at].named, parts[at].outer)
			if base := filepath.Base(all[at].place); base[0] == '.' || base[0] == '_' {
				continue
			}
			fmt.Fprintf(whole, "%s%x\n", all[at].named, parts[at].whole)
			if below, err := filepath.Rel(one.Folder, all[at].place); err == nil && parts[at].isOld {
				old = append(old, below)
			}
		}
		told.Trees = append(told.Trees, treeLook{fmt.Sprintf("%x", whole.Sum(nil)), old})
		from = ends[i]
	}
	told.Key = fmt.Sprintf("%x", sum.Sum(nil))
	return told, nil
}

func sources(path, folder string) ([]source, error) {
	entries, err := os.ReadDir(folder)
	if err != nil {
		return nil, err
	}
	var found []source
	for _, entry := range entries {
		if entry.Type().IsRegular() && strings.HasSuffix(entry.Name(), ".go") && !strings.HasSuffix(entry.Name(), "_test.go") {
			found = append(found, source{fmt.Sprintf("%q %q\n", path, entry.Name()), filepath.Join(folder, entry.Name())})
		}
	}
	return found, nil
}

// digestsOf are the digests of the files, side by side; what stands in both trees is parsed once, and what an earlier run saw isn't parsed.
func digestsOf(all []source, kept string) ([]digests, error) {
	earlier := before(kept)
	parts, stamps, texts := make([]digests, len(all)), make([]string, len(all)), make([][]byte, len(all))
	first := map[sum]int{}
	same := make([]int, len(all))
	for i, each := range all {
		same[i] = i
		if kept != "" {
			stamps[i] = earlier.stampOf(each.place)
		}
		if one, is := earlier.stamped[stamps[i]]; is {
			parts[i] = one
			continue
		}
		text, err := os.ReadFile(each.place)
		if err != nil {
			return nil, err
		}
		whole := sum(sha256.Sum256(text))
		if one, is := earlier.whole[whole]; is {
			parts[i] = one
		} else if at, is := first[whole]; is {
			same[i] = at
		} else {
			first[whole], texts[i], parts[i].whole = i, text, whole
		}
	}
	var group sync.WaitGroup
	free := make(chan struct{}, runtime.GOMAXPROCS(0))
	for i := range all {
		if texts[i] == nil {
			continue
		}
		group.Add(1)
		free <- struct{}{}
		go func(i int) {
			defer func() { <-free; group.Done() }()
			parts[i].outer, parts[i].isOld = sha256.Sum256(outer(texts[i])), isOldForm(texts[i])
			texts[i] = nil
		}(i)
	}
	group.Wait()
	for i, at := range same {
		parts[i] = parts[at]
	}
	if kept != "" {
		earlier.keep(kept, parts, stamps)
	}
	return parts, nil
}

// outer is a file up to its package clause, where build lines stand, and then its tokens outside of the bodies of functions; one that
// can't be parsed is taken as it stands.
func outer(text []byte) []byte {
	set := token.NewFileSet()
	file, err := parser.ParseFile(set, "", text, parser.SkipObjectResolution)
	if err != nil {
		return text
	}
	at := set.File(file.Pos())
	var out bytes.Buffer
	out.Write(text[:at.Offset(file.Name.End())])
	from := at.Offset(file.Name.End())
	for _, decl := range file.Decls {
		if function, is := decl.(*ast.FuncDecl); is && function.Body != nil {
			tokens(&out, text[from:at.Offset(function.Body.Pos())])
			from = at.Offset(function.Body.End())
		}
	}
	tokens(&out, text[from:])
	return out.Bytes()
}

// tokens writes the tokens of a part of a file, without comments.
func tokens(out *bytes.Buffer, text []byte) {
	var scan scanner.Scanner
	set := token.NewFileSet()
	scan.Init(set.AddFile("", -1, len(text)), text, nil, 0)
	for {
		_, kind, literal := scan.Scan()
		if kind == token.EOF {
			out.WriteByte('\n')
			return
		}
		if !kind.IsLiteral() {
			literal = kind.String()
		}
		out.WriteString(literal)
		out.WriteByte(' ')
	}
}
