// What a client does with the exported objects of a package, and with the types that they lead to.
package main

import (
	"fmt"
	"go/constant"
	"go/types"
	"sort"
	"strings"
)

const deepest = 5

// enter is the entry of a type, which is new where the package hasn't led to it yet.
func (u *unit) enter(t types.Type, depth int) *entry {
	key := ""
	func() {
		defer func() { recover() }()
		key = keyOf(t)
	}()
	if key == "" {
		return &entry{typ: t}
	}
	e := u.entries[key]
	if e == nil {
		e = &entry{typ: t, key: key, named: u.canWrite(t), depth: depth}
		u.entries[key] = e
		u.order = append(u.order, e)
	}
	return e
}

// reach notes a value of a type.
func (u *unit) reach(t types.Type, depth int, in mode, make func(s *scope) string) {
	e := u.enter(t, depth)
	if len(e.recipes[in]) < mostRecipes {
		e.recipes[in] = append(e.recipes[in], recipe{in, make})
	}
	if in == plain && len(e.recipes[variable]) < mostRecipes {
		e.recipes[variable] = append(e.recipes[variable], recipe{variable, func(s *scope) string { return s.setup(make(s)) }})
	}
}

// taker notes a place that takes values of a type.
func (u *unit) taker(t types.Type, depth int, take func(s *scope, value string)) {
	if e := u.enter(t, depth); len(e.takers) < mostRecipes {
		e.takers = append(e.takers, take)
	}
}

// reachCall notes the results of a call, and its parameters.
func (u *unit) reachCall(t *types.Signature, depth int, function func(s *scope) string) {
	for i := 0; i < t.Results().Len(); i++ {
		i := i
		of, many := t.Results().At(i).Type(), t.Results().Len()
		if many == 1 {
			u.reach(of, depth, plain, func(s *scope) string { return s.call(function(s), t) })
			break
		}
		u.reach(of, depth, variable, func(s *scope) string {
			names := strings.Split(strings.Repeat("_ ", many-1)+"_", " ")
			call := s.call(function(s), t)
			names[i] = s.fresh()
			s.line("%s := %s", strings.Join(names, ", "), call)
			return names[i]
		})
	}
	for i := 0; i < t.Params().Len(); i++ {
		i := i
		of := t.Params().At(i).Type()
		if t.Variadic() && i == t.Params().Len()-1 {
			u.enter(of, depth)
			of = of.(*types.Slice).Elem()
		}
		u.taker(of, depth, func(s *scope, value string) {
			x, values := function(s), s.argumentsBut(t, i)
			values[i] = value
			s.line("%s(%s)", x, strings.Join(values, ", "))
		})
	}
}

// argumentsBut are the arguments of a call without one of them.
func (s *scope) argumentsBut(t *types.Signature, but int) (values []string) {
	for i := 0; i < t.Params().Len(); i++ {
		of := t.Params().At(i).Type()
		if t.Variadic() && i == t.Params().Len()-1 {
			of = of.(*types.Slice).Elem()
		}
		if i == but {
			values = append(values, "")
			continue
		}
		values = append(values, s.value(of))
	}
	return values
}

// explore notes what an entry leads to.
func (u *unit) explore(e *entry) {
	if e.depth >= deepest {
		return
	}
	base, in := func(s *scope) string { return s.value(e.typ) }, variable
	if !e.named {
		for in = variable; in < modes && len(e.recipes[in]) == 0; in++ {
		}
		if in == modes {
			return
		}
		base = func(s *scope) string { return s.made(e.typ) }
	}
	depth := e.depth + 1
	if named, is := e.typ.(*types.Named); is && (named.Obj().Pkg() == nil || !u.isOwn(named)) {
		return
	}
	for _, name := range selectors(e.typ) {
		name := name
		object, _, indirect := types.LookupFieldOrMethod(e.typ, in == variable, nil, name)
		below := func(s *scope) string { return base(s) + "." + name }
		switch object := object.(type) {
		case *types.Var:
			as := plain
			if in == variable || indirect {
				as = variable
				u.taker(object.Type(), depth, func(s *scope, value string) { s.line("%s = %s", below(s), value) })
			}
			u.reach(object.Type(), depth, as, below)
		case *types.Func:
			u.reachCall(object.Type().(*types.Signature), depth, below)
		}
	}
	if in == variable && !e.named {
		u.reach(types.NewPointer(e.typ), depth, plain, func(s *scope) string { return "&" + base(s) })
	}
	suffix := func(before, after string) func(s *scope) string {
		return func(s *scope) string { return before + base(s) + after }
	}
	switch under := e.typ.Underlying().(type) {
	case *types.Slice:
		u.reach(under.Elem(), depth, variable, suffix("", "[0]"))
		u.taker(under.Elem(), depth, func(s *scope, value string) { s.line("%s[0] = %s", base(s), value) })
	case *types.Array:
		u.reach(under.Elem(), depth, in, suffix("", "[0]"))
	case *types.Map:
		u.reach(under.Key(), depth, variable, func(s *scope) string {
			name := s.fresh()
			s.line("for %s := range %s {", name, base(s))
			s.after = append(s.after, "}")
			return name
		})
		u.reach(under.Elem(), depth, element, func(s *scope) string { return base(s) + "[" + s.value(under.Key()) + "]" })
		u.taker(under.Key(), depth, func(s *scope, value string) { s.use("%s[%s]", base(s), value) })
		u.taker(under.Elem(), depth, func(s *scope, value string) { s.line("%s[%s] = %s", base(s), s.value(under.Key()), value) })
	case *types.Chan:
		if under.Dir() != types.SendOnly {
			u.reach(under.Elem(), depth, plain, suffix("<-", ""))
		}
		if under.Dir() != types.RecvOnly {
			u.taker(under.Elem(), depth, func(s *scope, value string) { s.line("%s <- %s", base(s), value) })
		}
	case *types.Pointer:
		u.reach(under.Elem(), depth, variable, suffix("*", ""))
		u.taker(under.Elem(), depth, func(s *scope, value string) { s.line("*%s = %s", base(s), value) })
	case *types.Signature:
		u.reachCall(under, depth, base)
	}
}

func (u *unit) isOwn(named *types.Named) bool {
	path := named.Obj().Pkg().Path()
	return path == u.tree.module || strings.HasPrefix(path, u.tree.module+"/")
}

// objects are the exported objects of the package.
func (u *unit) objects() (all []types.Object) {
	for _, name := range u.pack.Scope().Names() {
		if object := u.pack.Scope().Lookup(name); object.Exported() {
			all = append(all, object)
		}
	}
	return all
}

// exploreAll notes all types that the package leads to.
func (u *unit) exploreAll() {
	u.enter(types.Universe.Lookup("error").Type(), deepest)
	for _, object := range u.objects() {
		object := object
		whole := func(s *scope) string { return s.name(object.Pkg()) + "." + object.Name() }
		switch object := object.(type) {
		case *types.Var:
			u.reach(object.Type(), 0, variable, whole)
			u.taker(object.Type(), 0, func(s *scope, value string) { s.line("%s = %s", whole(s), value) })
		case *types.Func:
			u.reachCall(object.Type().(*types.Signature), 0, whole)
		case *types.TypeName:
			u.enter(object.Type(), 0)
			if !types.IsInterface(object.Type()) {
				u.enter(types.NewPointer(object.Type()), 1)
			}
		case *types.Const:
			if basic, is := object.Type().(*types.Basic); !is || basic.Info()&types.IsUntyped == 0 {
				u.reach(object.Type(), 0, plain, whole)
			}
		}
	}
	for at := 0; at < len(u.order); at++ {
		u.explore(u.order[at])
	}
}

// generate makes the clients of the unit, first those of what is nearest to a change.
func (u *unit) generate() {
	type subject struct {
		far int
		use func()
	}
	var subjects []subject
	add := func(far int, use func()) { subjects = append(subjects, subject{far, use}) }
	for _, object := range u.objects() {
		object := object
		far := u.farObject(object)
		if far < never {
			add(far, func() { u.useObject(object) })
			if name, is := object.(*types.TypeName); is {
				add(far, func() { u.useType(u.name(u.pack)+"."+object.Name(), name.Type()) })
			}
		} else if of, is := object.(*types.Var); is {
			add(never, func() {
				u.useElsewhere(held{of.Type(), variable, func(s *scope) string { return s.name(u.pack) + "." + of.Name() }})
			})
		}
	}
	for _, e := range u.order {
		e := e
		far := u.far(e.typ)
		if far == never && !e.named {
			far--
		}
		add(far, func() { u.useEntry(e) })
		for _, value := range []string{"nil", "0", `""`, "'a'", "false", "func() {}"} { // places take untyped constants
			for _, take := range e.takers {
				take, value := take, value
				add(far, func() { u.client(func(s *scope) { take(s, value) }) })
			}
		}
		if under, is := e.typ.Underlying().(*types.Interface); is && !e.named {
			add(far, func() { u.implemented(held{e.typ, plain, func(s *scope) string { return s.made(e.typ) }}, under) })
		}
	}
	add(0, u.useTypes)
	sort.SliceStable(subjects, func(i, j int) bool { return subjects[i].far < subjects[j].far })
	for _, one := range subjects {
		one.use()
	}
}

// useEntry uses values of a type of the module, and of what can't be written.
func (u *unit) useEntry(e *entry) {
	if e.named {
		of := e.typ
		if pointer, is := of.(*types.Pointer); is {
			of = pointer.Elem()
		}
		named, is := of.(*types.Named)
		if !is || named.Obj().Pkg() != u.pack {
			return
		}
		if u.far(e.typ) == never {
			u.useElsewhere(held{e.typ, variable, func(s *scope) string { return s.param(s.typ(e.typ)) }})
			return
		}
		for _, body := range bodies(e.typ, 2) {
			body := body
			u.client(func(s *scope) { s.use("(%s%s)", s.typ(e.typ), body(s)) })
		}
		u.useAll(held{e.typ, variable, func(s *scope) string { return s.param(s.typ(e.typ)) }})
		u.useAll(held{e.typ, plain, func(s *scope) string { return s.param("func() "+s.typ(e.typ)) + "()" }})
		at := held{e.typ, element, func(s *scope) string { return s.param("map[string]"+s.typ(e.typ)) + `[""]` }}
		u.usePlace(at)
		u.useUnder(at)
		u.methodsOf(at)
		return
	}
	for in := variable; in < modes; in++ {
		for _, one := range e.recipes[in] {
			u.useAll(held{e.typ, in, one.make})
		}
	}
	for _, take := range e.takers { // each other value of the type
		for in := variable; in < modes; in++ {
			for _, one := range e.recipes[in] {
				take, one := take, one
				u.client(func(s *scope) { take(s, one.make(s)) })
			}
		}
	}
}

// bodies are what stands in braces in literals of a type, with a value for each field; elements stand there without a type.
func bodies(t types.Type, depth int) (all []func(s *scope) string) {
	of := t
	if pointer, is := t.(*types.Pointer); is && depth < 2 {
		of = pointer.Elem()
	}
	add := func(body func(s *scope) string) { all = append(all, body) }
	switch under := of.Underlying().(type) {
	case *types.Struct:
		add(func(s *scope) string { return "{}" })
		for i := 0; i < under.NumFields(); i++ {
			if field := under.Field(i); field.Exported() {
				add(func(s *scope) string { return "{" + field.Name() + ": " + s.value(field.Type()) + "}" })
			}
		}
	case *types.Slice:
		all = bodiesOf(under.Elem(), depth, "")
	case *types.Array:
		all = bodiesOf(under.Elem(), depth, "0: ")
	case *types.Map:
		for _, body := range bodiesOf(under.Elem(), depth, "") {
			body := body
			add(func(s *scope) string { return "{" + s.value(under.Key()) + ": " + strings.TrimPrefix(body(s), "{") })
		}
		for _, body := range bodiesOf(under.Key(), depth, "") {
			body := body
			add(func(s *scope) string { return strings.TrimSuffix(body(s), "}") + ": " + s.value(under.Elem()) + "}" })
		}
	}
	return all
}

// bodiesOf are those of what has elements of a type.
func bodiesOf(t types.Type, depth int, key string) (all []func(s *scope) string) {
	if depth == 0 {
		return nil
	}
	for _, body := range bodies(t, depth-1) {
		body := body
		all = append(all, func(s *scope) string { return "{" + key + body(s) + "}" })
	}
	return all
}

// useObject uses an object by its name.
func (u *unit) useObject(object types.Object) {
	name := u.name(u.pack) + "." + object.Name()
	whole := func(s *scope) string { return name }
	switch object := object.(type) {
	case *types.Const:
		u.useConst(name, object)
	case *types.Var:
		h := held{object.Type(), variable, whole}
		u.useAll(h)
		u.client(func(s *scope) { s.decl("var V%d_ = %s", s.number, name) })
		u.client(func(s *scope) { s.decl("var V%d_ %s = %s", s.number, s.typ(object.Type()), name) })
		u.client(func(s *scope) { s.decl("var V%d_ = &%s", s.number, name) })
	case *types.Func:
		signature := object.Type().(*types.Signature)
		h := held{signature, plain, whole}
		u.pinned(h, signature, "@")
		u.useCall(h, signature)
		u.each(h, "_ = @ == nil", "var i interface{} = @\n_ = i", "v := @\n_ = v", "_ = struct{ f interface{} }{@}")
		u.client(func(s *scope) { s.decl("var V%d_ %s = %s", s.number, s.typ(signature), name) })
		u.client(func(s *scope) { s.decl("var V%d_ = %s", s.number, name) })
		u.client(func(s *scope) {
			s.decl("type T%d_ %s", s.number, s.typ(signature))
			s.decl("var V%d_ T%[1]d_ = %s", s.number, name)
		})
		if signature.Results().Len() == 1 {
			call := func(s *scope) string { return s.call(name, signature) }
			u.useAll(held{signature.Results().At(0).Type(), plain, call})
		}
		u.useElsewhere(h)
	}
}

// useConst uses a constant.
func (u *unit) useConst(name string, object *types.Const) {
	t := object.Type()
	basic, _ := t.Underlying().(*types.Basic)
	if basic == nil {
		return
	}
	whole := func(s *scope) string { return name }
	u.client(func(s *scope) { s.decl("const C%d_ = %s", s.number, name) })
	u.client(func(s *scope) { s.decl("var V%d_ = %s", s.number, name) })
	untyped := basic.Info()&types.IsUntyped != 0
	wide := types.Default(t)
	if !untyped {
		u.client(func(s *scope) { s.decl("const C%d_ %s = %s", s.number, s.typ(t), name) })
		for _, selector := range selectors(t) {
			selector := selector
			u.client(func(s *scope) { s.use("%s.%s", name, selector) })
		}
	}
	u.client(func(s *scope) { s.pin(name, wide) })
	u.useAll(held{wide, plain, whole})
	value := object.Val()
	switch value.Kind() {
	case constant.Int:
		text := value.ExactString()
		if strings.HasPrefix(text, "-") {
			text = "(" + text + ")"
		}
		u.client(func(s *scope) { s.decl("var V%d_ [1]int = [1 + (%s - %s)]int{}", s.number, name, text) })
		u.client(func(s *scope) { s.decl("const C%d_ = 1 / (1 - (%s - %s)*(%[2]s - %[3]s))", s.number, name, text) })
		u.client(func(s *scope) { s.decl("var V%d_ = map[bool]int{false: 0, %s == %s: 1}", s.number, name, text) })
		if number, is := constant.Int64Val(value); is && number >= 0 && number < 1<<16 {
			u.client(func(s *scope) { s.decl("var V%d_ [%s]int = [%d]int{}", s.number, name, number) })
			u.client(func(s *scope) { s.decl("var V%d_ = [%d]int{%s - 0: 1}", s.number, number+1, name) })
			u.client(func(s *scope) { s.use("1 << %s >> %[1]s", name) })
			u.client(func(s *scope) { s.use("[...]string{%s: \"\"}", name) })
		}
		for _, to := range []string{"int", "int8", "int16", "int32", "int64", "uint", "uint8", "uint16", "uint32", "uint64", "uintptr", "float32", "float64", "complex64", "complex128"} {
			to := to
			if !untyped {
				u.client(func(s *scope) { s.decl("const C%d_ %s = %[2]s(%s)", s.number, to, name) })
				continue
			}
			u.client(func(s *scope) { s.decl("var V%d_ %s = %s", s.number, to, name) })
			u.client(func(s *scope) { s.line("var v %s", to); s.use("v + %s", name) })
		}
		for _, sign := range []string{"-", "^", "+"} {
			sign := sign
			u.client(func(s *scope) { s.decl("const C%d_ = %s%s", s.number, sign, name) })
		}
		u.client(func(s *scope) { s.decl("const C%d_ = %s * 2 / 2 %% 7 | 1", s.number, name) })
		u.client(func(s *scope) { s.decl("const C%d_ = string(rune(%s))", s.number, name) })
	case constant.String:
		text := constant.StringVal(value)
		u.client(func(s *scope) { s.decl("var V%d_ [len(%s)]int = [%d]int{}", s.number, name, len(text)) })
		u.client(func(s *scope) {
			s.decl("var V%d_ = map[bool]int{false: 0, %s == %s: 1}", s.number, name, value.ExactString())
		})
		u.client(func(s *scope) { s.decl("const C%d_ = \"a\" + %s", s.number, name) })
		u.client(func(s *scope) { s.decl("var V%d_ string = string(%s)", s.number, name) })
		if untyped {
			u.client(func(s *scope) { s.decl("type T%d_ string\nvar V%[1]d_ T%[1]d_ = %s", s.number, name) })
			u.client(func(s *scope) { s.decl("var V%d_ string = %s", s.number, name) })
		}
	case constant.Bool:
		u.client(func(s *scope) {
			s.decl("var V%d_ = map[bool]int{%t: 0, %s: 1}", s.number, !constant.BoolVal(value), name)
		})
		u.client(func(s *scope) { s.decl("const C%d_ = !%s", s.number, name) })
		u.client(func(s *scope) { s.decl("var V%d_ bool = bool(%s)", s.number, name) })
		u.client(func(s *scope) { s.decl("type T%d_ bool\nvar V%[1]d_ T%[1]d_ = T%[1]d_(%s)", s.number, name) })
	}
}

// useTypes uses several types at once.
func (u *unit) useTypes() {
	var all []string
	var far []int
	for _, e := range u.order {
		if e.named {
			all, far = append(all, u.typ(e.typ)), append(far, u.far(e.typ))
		}
	}
	one := func(names []string) {
		if len(names) > 0 {
			u.client(func(s *scope) {
				s.line("switch %s.(type) {\n\tcase %s:\n\t}", s.param("interface{}"), strings.Join(names, ":\n\tcase "))
			})
		}
	}
	one(all)
	for i := range all {
		for j := 0; j < i; j++ {
			if far[i] == 0 || far[j] == 0 {
				one([]string{all[i], all[j]})
			}
		}
	}
	for _, object := range u.objects() { // names of one type
		for _, other := range u.tree.exportedTypes() {
			if one, is := object.(*types.TypeName); is && one != other && types.Identical(one.Type(), other.Type()) {
				left, right := u.name(one.Pkg())+"."+one.Name(), u.name(other.Pkg())+"."+other.Name()
				u.client(func(s *scope) { s.decl("var V%d_ %s = *new(%s)", s.number, left, right) })
				u.client(func(s *scope) { s.decl("var V%d_ *%s = new(%s)", s.number, left, right) })
				u.client(func(s *scope) { s.decl("var V%d_ func(%s) = func(%s) {}", s.number, right, left) })
				u.client(func(s *scope) { s.decl("var V%d_ = []%s{*new(%s)}", s.number, left, right) })
			}
		}
	}
}

// useType uses a type by its name.
func (u *unit) useType(name string, t types.Type) {
	decl := func(format string) {
		u.client(func(s *scope) {
			s.decl("%s", strings.NewReplacer("@", name, "#", fmt.Sprintf("%d_", s.number)).Replace(format))
		})
	}
	line := func(write func(s *scope) string) {
		u.client(func(s *scope) {
			s.lines = append(s.lines, strings.Split(strings.ReplaceAll(write(s), "@", name), "\n")...)
		})
	}
	for _, format := range []string{
		"var V# @", "type A# = @", "type A# = @\nvar V# @ = *new(A#)", "var V# = new(@)", "func G#(@) (_ @) { panic(0) }", "type D# []@", "type D# *@", "type D# func(@) @",
		"type D# map[string]@", "type D# chan @", "type D# [2]@", "type D# struct {\n\tX @\n\tY *@\n}\nvar V# = D#{Y: new(@)}", "type D# interface{ M(@) *@ }", "type D# struct{ X @ }\nfunc (d D#) M() @ { return d.X }",
		"type D# @\nvar V# D#", "type D# @\nvar V# = @(*new(D#))\nvar W# = D#(*new(@))", "type D# @\nvar V# = (*@)(new(D#))", "type D# @\ntype E# struct{ D# }\nvar V# = E#{D#: D#(*new(@))}",
		"type D# @\nfunc (D#) M() {}\nvar V# interface{ M() } = D#(*new(@))",
	} {
		decl(format)
	}
	if types.Comparable(t) {
		decl("var V# map[@]int")
		decl("var V# = map[@]int{*new(@): 1}")
		decl("type D# struct{ X @ }\nvar V# = D#{} == D#{}")
		decl("var V# map[[2]@]struct{}")
		decl("var V# = [2]@{} == [2]@{}")
	}
	for _, constant := range []string{"0", "1", "-1", "127", "-128", "255", "32767", "-32768", "65535", "2147483647", "-2147483648", "4294967295", "9223372036854775807", "18446744073709551615", `""`, `"a"`, "'a'", "true", "nil"} {
		decl("const C# @ = " + constant)
		decl("var V# @ = " + constant)
		decl("var V# = @(" + constant + ")")
	}
	if basic, is := t.Underlying().(*types.Basic); is {
		decl("const C# = " + basic.Name() + "(^@(0))")
		decl("const C# = " + basic.Name() + "(@(1) << 7 >> 7)")
	}
	if under := t.Underlying(); u.canWrite(under) {
		to := u.typ(under)
		for _, format := range []string{
			"var V# = (*(%))(new(@))", "var V# = (*@)(new(%))", "type D# %\nvar V# = (*D#)(new(@))", "type D# %\nvar V# = D#(*new(@))", "type D# %\nvar V# = @(*new(D#))",
			"var V# % = *new(@)", "var V# *% = new(@)", "var V# []% = []@{}", "var V# func(%) = func(@) {}", "var V# @ = *new(%)", "var V# = *new(@) == *new(%)", "var V# = interface{}(*new(@)) == interface{}(*new(%))", "var V# = append([]%{}, *new(@))",
			"func F#(x interface{}) {\n\tswitch x.(type) {\n\tcase %, @:\n\t}\n}",
		} {
			decl(strings.ReplaceAll(format, "%", to))
		}
	}
	u.useDefined(name, t)
	for _, selector := range selectors(t) {
		selector := selector
		decl("type D# *@\nvar V# = D#(new(@))." + selector)
		decl("type D# struct{ X @ }\nvar V# = D#{}.X." + selector)
		decl("type D# struct{ X *@ }\nvar V# = D#{}.X." + selector)
		for _, of := range []types.Type{t, types.NewPointer(t)} {
			method, _, _ := types.LookupFieldOrMethod(of, false, nil, selector)
			if method, is := method.(*types.Func); is {
				expr := name + "." + selector
				if of != t {
					expr = "(*" + name + ")." + selector
				}
				signature := method.Type().(*types.Signature)
				params := append([]*types.Var{types.NewParam(0, nil, "", of)}, tupleOf(signature.Params())...)
				whole := types.NewSignatureType(nil, nil, nil, types.NewTuple(params...), signature.Results(), signature.Variadic())
				u.client(func(s *scope) { s.use("%s", expr) })
				u.client(func(s *scope) { s.pin(expr, whole) })
				u.client(func(s *scope) { s.line("%s", s.call(expr, whole)) })
			}
		}
	}
	switch under := t.Underlying().(type) {
	case *types.Struct:
		line(func(s *scope) string { return "_ = @{}" })
		line(func(s *scope) string { return "_ = &@{}" })
		u.useStruct(name, t, under)
	case *types.Slice:
		line(func(s *scope) string { return "_ = @{}" })
		line(func(s *scope) string { return "_ = @{" + s.value(under.Elem()) + "}" })
		line(func(s *scope) string { return "_ = @{1: " + s.value(under.Elem()) + "}" })
		line(func(s *scope) string { return "_ = make(@, 1, 2)" })
		line(func(s *scope) string { return "_ = " + s.param("func(@)") + "\n_ = []" + s.typ(under.Elem()) + "(@{})" })
		line(func(s *scope) string { return "var v @ = []" + s.typ(under.Elem()) + "{}\n_ = v" })
	case *types.Array:
		line(func(s *scope) string { return "_ = @{}" })
		line(func(s *scope) string { return "_ = @{" + s.value(under.Elem()) + "}" })
		line(func(s *scope) string { return "_ = @{0: " + s.value(under.Elem()) + "}" })
		if under.Len() < 1<<16 {
			decl(fmt.Sprintf("const C# = len(@{})\nvar V# [C#]int = [%d]int{}", under.Len()))
		}
		line(func(s *scope) string {
			return fmt.Sprintf("var v @ = [%d]%s{}\n_ = v", under.Len(), s.typ(under.Elem()))
		})
	case *types.Map:
		line(func(s *scope) string { return "_ = @{}" })
		line(func(s *scope) string { return "_ = @{" + s.value(under.Key()) + ": " + s.value(under.Elem()) + "}" })
		line(func(s *scope) string { return "_ = make(@, 1)" })
	case *types.Chan:
		line(func(s *scope) string { return "_ = make(@, 1)" })
	case *types.Signature:
		line(func(s *scope) string { return "var v @ = " + s.typ(under) + " { panic(0) }\n_ = v" })
	case *types.Interface:
		line(func(s *scope) string { return "_ = " + s.param("interface{}") + ".(@)" })
	}
	line(func(s *scope) string { return "_ = " + s.param("interface{}") + ".(@)" })
	line(func(s *scope) string { return "_ = []*@{new(@)}\n_ = [...]@{0: *new(@)}" })
	decl("var V# = func(x ...@) []@ { return x }")
}

// useDefined uses values of a type that the client defines by the name of another one.
func (u *unit) useDefined(name string, t types.Type) {
	use := func(write func(s *scope, x string) string) {
		u.client(func(s *scope) {
			own := s.global("D")
			s.decl("type %s %s", own, name)
			s.line("%s", write(s, s.param(own)))
		})
	}
	use(func(s *scope, x string) string { return "var v " + name + " = " + name + "(" + x + ")\n\t_ = v" })
	use(func(s *scope, x string) string { return "_ = " + x + " == " + x })
	use(func(s *scope, x string) string { return "_ = " + x + " == nil" })
	use(func(s *scope, x string) string { return "var v " + s.typ(t.Underlying()) + " = " + x + "\n\t_ = v" })
	switch under := t.Underlying().(type) {
	case *types.Slice:
		use(func(s *scope, x string) string { return x + "[0] = " + s.value(under.Elem()) })
		use(func(s *scope, x string) string { return "_ = append(" + x + ", " + s.value(under.Elem()) + ")" })
		for _, selector := range selectors(under.Elem()) {
			selector := selector
			use(func(s *scope, x string) string { return "_ = " + x + "[0]." + selector })
		}
	case *types.Map:
		use(func(s *scope, x string) string {
			return x + "[" + s.value(under.Key()) + "] = " + s.value(under.Elem())
		})
	case *types.Chan:
		use(func(s *scope, x string) string { return x + " <- " + s.value(under.Elem()) })
		use(func(s *scope, x string) string { return "_ = <-" + x })
	case *types.Signature:
		use(func(s *scope, x string) string { return s.call(x, under) })
		use(func(s *scope, x string) string { return x + " = " + s.typ(under) + " { panic(0) }" })
	case *types.Pointer:
		use(func(s *scope, x string) string { return "*" + x + " = " + s.value(under.Elem()) })
		for _, selector := range selectors(under.Elem()) {
			selector := selector
			use(func(s *scope, x string) string { return "_ = " + x + "." + selector })
			use(func(s *scope, x string) string { return "_ = &" + x + "." + selector })
		}
	}
	for _, body := range bodies(t, 2) {
		body := body
		use(func(s *scope, x string) string {
			return x + " = " + s.global("D") + body(s)
		})
	}
}

// useStruct writes literals of a struct.
func (u *unit) useStruct(name string, t types.Type, under *types.Struct) {
	var keys []*types.Var
	for i := 0; i < under.NumFields(); i++ {
		if under.Field(i).Exported() {
			keys = append(keys, under.Field(i))
		}
	}
	literal := func(s *scope, chosen []*types.Var) string {
		var parts []string
		for _, field := range chosen {
			parts = append(parts, field.Name()+": "+s.value(field.Type()))
		}
		return "{" + strings.Join(parts, ", ") + "}"
	}
	choices := [][]*types.Var{keys}
	for i := range keys {
		choices = append(choices, keys[i:i+1])
	}
	for _, chosen := range choices {
		chosen := chosen
		for _, format := range []string{"_ = %s@", "_ = &%s@", "_ = []%s{@, @}", "_ = []*%s{@}", "_ = map[string]%s{\"\": @}", "_ = [...]%s{@}", "_ = map[string]*%s{\"\": @}", "_ = map[%s]int{@: 1}"} {
			format := format
			u.client(func(s *scope) {
				s.line("%s", strings.ReplaceAll(strings.ReplaceAll(format, "%s", name), "@", literal(s, chosen)))
			})
		}
		for _, field := range chosen {
			field := field
			u.client(func(s *scope) { s.use("%s%s.%s", "("+name, literal(s, chosen)+")", field.Name()) })
			u.client(func(s *scope) {
				s.line("(&%s%s).%s = %s", name, literal(s, chosen), field.Name(), s.value(field.Type()))
			})
			for _, constant := range []string{"nil", "0", `""`, "'a'", "false"} {
				constant := constant
				u.client(func(s *scope) { s.use("%s{%s: %s}", name, field.Name(), constant) })
			}
		}
	}
}
