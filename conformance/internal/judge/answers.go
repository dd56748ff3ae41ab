//go:build apidiff

// What Go's apidiff says of a pair of trees, package by package.
package main

import (
	"encoding/json"
	"fmt"
	"go/types"
	"os"
	"sort"

	"golang.org/x/exp/apidiff"
)

// A said is what apidiff says of a pair, and why it and the judge differ: for each line of the judge and each message the class of
// difference, `both` where the other has one about the same thing, or nothing.
type said struct {
	Messages         []string // what is incompatible, each behind the path of its package
	Wide             []string // what is incompatible where internal packages are asked too
	Fails            string   // why there is no answer
	OfLines, OfThese []string // the classes, of the judge's lines and of the messages
}

// A question is a pair and what the judge breaks in it: owner, rule and subject of each line. It is answered by what apidiff says, and by
// the classes of the lines of both.
type question struct {
	Old, New string
	Breaks   []string
}

var nowhere, _ = os.OpenFile(os.DevNull, os.O_WRONLY, 0)

// changes are what apidiff calls incompatible of two packages; it writes notes of its own.
func changes(old, new *types.Package) (incompatible []string) {
	out := os.Stdout
	os.Stdout = nowhere
	defer func() { os.Stdout = out }()
	for _, change := range apidiff.Changes(old, new).Changes {
		if !change.Compatible {
			incompatible = append(incompatible, old.Path()+": "+change.Message)
		}
	}
	return incompatible
}

// asked asks apidiff about each public package, and with the flag about internal ones too. A package that isn't there any more, or
// isn't public, is removed.
func asked(old, new *view, wide bool) (incompatible []string) {
	for _, p := range old.packs {
		if p.types.Name() == "main" || !wide && p.isInternal() {
			continue
		}
		q := new.byPath[p.path]
		if q == nil || q.types.Name() == "main" {
			incompatible = append(incompatible, p.path+": package removed")
			continue
		}
		incompatible = append(incompatible, changes(p.types, q.types)...)
	}
	sort.Strings(incompatible)
	return incompatible
}

func both(old, new string, over *library) (*view, *view) {
	before, err := typed(readTree(old), over)
	fail(err)
	after, err := typed(readTree(new), over)
	fail(err)
	return before, after
}

func answered(text []byte, over *library) (found *said) {
	one := &question{}
	fail(json.Unmarshal(text, one))
	before, after := both(one.Old, one.New, over)
	found = &said{}
	defer func() {
		if why := recover(); why != nil {
			found.Fails = fmt.Sprint(why)
		}
	}()
	found.Messages = asked(before, after, false)
	if len(one.Breaks) > 0 {
		found.Wide = asked(before, after, true)
	}
	found.classify(one.Breaks, before, after)
	return found
}
