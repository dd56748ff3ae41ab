// Which declarations differ between two versions, and what leads to them.
package main

import (
	"go/types"
	"sort"
	"strings"
)

// A fact is what a declaration says, and the names of the module that it says it by.
type fact struct {
	text  string
	names []string
}

func nameOf(object types.Object) string { return object.Pkg().Path() + " " + object.Name() }

// facts are those of all declarations of a tree, and of its packages.
func (t *tree) facts() map[string]fact {
	all := map[string]fact{}
	for path, pack := range t.built {
		if pack == nil {
			continue
		}
		all[path] = fact{"package " + pack.Name(), nil}
		for _, name := range pack.Scope().Names() {
			all[path+" "+name] = factOf(pack.Scope().Lookup(name))
		}
	}
	return all
}

func factOf(object types.Object) (f fact) {
	defer func() { recover() }() // what can't be written, as a type of unsafe, says nothing
	note := func(t types.Type) string {
		for _, name := range namesIn(t) {
			f.names = append(f.names, nameOf(name))
		}
		return keyOf(t)
	}
	switch object := object.(type) {
	case *types.Const:
		f.text = "const " + note(object.Type()) + " " + object.Val().ExactString()
	case *types.Var:
		f.text = "var " + note(object.Type())
	case *types.Func:
		f.text = "func " + note(object.Type())
	case *types.TypeName:
		named, is := object.Type().(*types.Named)
		if object.IsAlias() || !is {
			f.text = "alias " + note(object.Type())
			break
		}
		var methods []string
		for i := 0; i < named.NumMethods(); i++ {
			method := named.Method(i)
			signature := method.Type().(*types.Signature)
			star := ""
			if _, is := signature.Recv().Type().(*types.Pointer); is {
				star = "*"
			}
			methods = append(methods, "\n"+star+method.Name()+note(signature))
		}
		sort.Strings(methods)
		f.text = "type " + note(named.Underlying()) + strings.Join(methods, "")
	}
	return f
}

// changes are the names that lead to what is changed, each with the number of steps.
func changes(old, now map[string]fact) map[string]int {
	far := map[string]int{}
	users := map[string][]string{}
	var next []string
	for name, one := range old {
		path, _, _ := strings.Cut(name, " ")
		if other, is := now[name]; !is || other.text != one.text || old[path].text != now[path].text {
			far[name] = 0
			next = append(next, name)
		}
		for _, used := range one.names {
			users[used] = append(users[used], name)
		}
	}
	for len(next) > 0 {
		name := next[0]
		next = next[1:]
		for _, user := range users[name] {
			if _, is := far[user]; !is {
				far[user] = far[name] + 1
				next = append(next, user)
			}
		}
	}
	return far
}
