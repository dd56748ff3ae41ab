// What a client does with a value of a type.
package main

import (
	"fmt"
	"go/types"
	"strings"

	"apigate/internal/profile"
)

// A held is a value that is used: its type, and the recipe that gives it.
type held struct {
	typ  types.Type
	mode mode
	make func(s *scope) string
}

// client makes a client of a value.
func (u *unit) with(h held, write func(s *scope, x string)) {
	u.client(func(s *scope) { write(s, h.make(s)) })
}

// lines are clients of one line each, in which x stands for the value.
func (u *unit) each(h held, lines ...string) {
	for _, line := range lines {
		line := line
		u.with(h, func(s *scope, x string) {
			for _, one := range strings.Split(strings.ReplaceAll(line, "@", x), "\n") {
				s.lines = append(s.lines, one)
			}
		})
	}
}

// pinned are clients that say which types expressions have.
func (u *unit) pinned(h held, t types.Type, exprs ...string) {
	for _, expr := range exprs {
		expr := expr
		u.with(h, func(s *scope, x string) { s.pin(strings.ReplaceAll(expr, "@", x), t) })
	}
}

// useAll uses a value in every way that its type permits.
func (u *unit) useAll(h held) {
	u.usePlace(h)
	u.useUnder(h)
	u.useMembers(h)
	u.useElsewhere(h)
}

// usePlace uses a value as every value is used.
func (u *unit) usePlace(h held) {
	u.pinned(h, h.typ, "@", "(@)")
	u.with(h, func(s *scope, x string) { // two of one type
		y := s.setup(x)
		s.line("%s = %s", y, s.value(h.typ))
		s.use("%s", y)
	})
	u.with(h, func(s *scope, x string) { s.line("var i interface{} = %s", x); s.use("i") })
	u.with(h, func(s *scope, x string) { s.line("return %s", x); s.results = " " + s.typ(h.typ) })
	u.with(h, func(s *scope, x string) { s.use("func() %s { return %s }", s.typ(h.typ), x) })
	if types.Comparable(h.typ) {
		u.with(h, func(s *scope, x string) { s.use("%s == %s", x, s.value(h.typ)) })
		u.each(h, "var i interface{}\n_ = i == @", "var i interface{}\n_ = @ != i")
		u.with(h, func(s *scope, x string) { s.line("switch %s {\n\tcase %s:\n\t}", x, s.value(h.typ)) })
		u.with(h, func(s *scope, x string) { s.use("map[%s]int{%s: 1}", s.typ(h.typ), x) })
		u.with(h, func(s *scope, x string) {
			s.line("v := [...]struct{ X %s }{{X: %s}}", s.typ(h.typ), x)
			s.use("v[0] == v[0]")
		})
		u.each(h, "v := @\n_ = v == v", "v := @\nvar w interface{} = v\n_ = w == v\nm := map[interface{}]int{v: 1}\n_ = m")
	}
	u.with(h, func(s *scope, x string) { s.use("[]%s{%s}", s.typ(h.typ), x) })
	u.with(h, func(s *scope, x string) { s.use("map[string]%s{\"\": %s}", s.typ(h.typ), x) })
	u.with(h, func(s *scope, x string) {
		s.decl("type T%d_ struct{ X %s }", s.number, s.typ(h.typ))
		s.use("T%d_{%s}", s.number, x)
		s.use("&T%d_{X: %s}", s.number, x)
	})
	u.with(h, func(s *scope, x string) { s.line("%s <- %s", s.param("chan "+s.typ(h.typ)), x) })
	u.with(h, func(s *scope, x string) { s.use("append(%s, %s)", s.param("[]"+s.typ(h.typ)), x) })
	u.with(h, func(s *scope, x string) { s.line("func(...%s) {}(%s, %[2]s)", s.typ(h.typ), x) })
	if h.mode == variable {
		u.pinned(h, types.NewPointer(h.typ), "&@")
		u.with(h, func(s *scope, x string) { s.use("*&%s", x); s.line("*&%s = %s", x, s.value(h.typ)) })
	}
	if h.mode != plain {
		u.with(h, func(s *scope, x string) { s.line("%s = %s", x, s.value(h.typ)) })
		u.with(h, func(s *scope, x string) { s.line("%s, _ = %s, 1", x, s.value(h.typ)) })
		u.with(h, func(s *scope, x string) {
			s.line("for %s = range []%s{} {\n\t}", "_, "+x, s.typ(h.typ))
		})
	}
}

// constants are untyped constants of each kind.
func (u *unit) useUnder(h held) {
	switch under := h.typ.Underlying().(type) {
	case *types.Basic:
		u.useBasic(h, under)
	case *types.Slice:
		u.useIndexed(h, under.Elem(), true)
		u.pinned(h, h.typ, "@[:]", "@[1:2]", "@[1:2:3]", "append(@)", "append(@, @...)")
		u.pinned(h, types.Typ[types.Int], "copy(@, @)")
		u.with(h, func(s *scope, x string) { s.pin(fmt.Sprintf("append(%s, %s)", x, s.value(under.Elem())), h.typ) })
		u.with(h, func(s *scope, x string) { s.line("func(...%s) {}(%s...)", s.typ(under.Elem()), x) })
		u.each(h, "_ = @ == nil", "_ = cap(@)")
		u.useNil(h)
	case *types.Array:
		if under.Len() > 0 {
			u.useIndexed(h, under.Elem(), h.mode == variable)
			u.each(h, fmt.Sprintf("_ = @[%d]", under.Len()-1))
		}
		if h.mode == variable {
			u.pinned(h, types.NewSlice(under.Elem()), "@[:]")
		}
		u.useLength(h, under.Len())
	case *types.Map:
		u.useMap(h, under)
		u.useNil(h)
	case *types.Chan:
		u.useChannel(h, under)
		u.useNil(h)
	case *types.Pointer:
		u.each(h, "_ = @ == nil", "_ = nil != @")
		u.pinned(h, under.Elem(), "*@", "(*@)")
		u.pinned(h, types.NewPointer(under.Elem()), "&*@")
		u.with(h, func(s *scope, x string) { s.line("*%s = %s", x, s.value(under.Elem())) })
		if array, is := under.Elem().Underlying().(*types.Array); is {
			if array.Len() > 0 {
				u.useIndexed(h, array.Elem(), true)
			}
			u.pinned(h, types.NewSlice(array.Elem()), "@[:]")
			u.useLength(h, array.Len())
		}
		u.useNil(h)
	case *types.Signature:
		u.useCall(h, under)
		u.each(h, "_ = @ == nil")
		u.useNil(h)
		if h.mode != plain {
			u.with(h, func(s *scope, x string) { s.line("%s = %s { panic(0) }", x, s.typ(under)) })
		}
	case *types.Interface:
		u.each(h, "_ = @ == nil", "_ = @ == @", "switch @ {\n\tcase nil:\n\t}")
		u.useNil(h)
		u.useInterface(h, under)
	case *types.Struct:
		if _, is := h.typ.(*types.Struct); is && h.mode != plain {
			u.with(h, func(s *scope, x string) { s.line("%s = %s{}", x, s.typ(h.typ)) })
			u.with(h, func(s *scope, x string) {
				var values []string
				for i := 0; i < under.NumFields(); i++ {
					values = append(values, s.value(under.Field(i).Type()))
				}
				s.line("%s = %s{%s}", x, s.typ(h.typ), strings.Join(values, ", "))
			})
		}
	}
}

func (u *unit) useNil(h held) {
	if h.mode != plain {
		u.each(h, "@ = nil", "@, _ = nil, 1")
	}
	u.with(h, func(s *scope, x string) {
		if s.canWrite(h.typ) {
			s.fail()
		}
		s.line("v := %s", x)
		s.line("v = nil")
		s.use("v")
	})
}

func (u *unit) useLength(h held, length int64) {
	u.pinned(h, types.Typ[types.Int], "len(@)", "cap(@)")
	if length < 1<<16 {
		u.each(h, fmt.Sprintf("var a [len(@)]int = [%d]int{}\n_ = a", length), fmt.Sprintf("const n = len(@)\nvar a [n]int = [%d]int{}\n_ = a", length))
	}
	u.each(h, "for range @ {\n\t}", "for i := range @ {\n\t\t_ = i\n\t}")
}

// useIndexed uses what is indexed by whole numbers.
func (u *unit) useIndexed(h held, of types.Type, places bool) {
	u.pinned(h, of, "@[0]")
	u.with(h, func(s *scope, x string) { s.pin(x+"["+s.param("int")+"]", of) })
	u.with(h, func(s *scope, x string) { s.pin(x+"["+s.param("uint8")+"]", of) })
	if places {
		u.with(h, func(s *scope, x string) { s.line("%s[0] = %s", x, s.value(of)) })
		u.pinned(h, types.NewPointer(of), "&@[0]")
	}
	u.each(h, "_ = len(@)", "for i := range @ {\n\t\t_ = @[i]\n\t}")
	u.with(h, func(s *scope, x string) {
		s.line("for i, v := range %s {\n\t\tvar j *int = &i\n\t\tvar w *%s = &v\n\t\t_, _ = j, w\n\t}", x, s.typ(of))
	})
	u.with(h, func(s *scope, x string) { s.line("for _, v := range %s {\n\t\t_ = v\n\t}", x) })
	u.with(h, func(s *scope, x string) { s.line("var v %s\n\tfor _, v = range %s {\n\t}\n\t_ = v", s.typ(of), x) })
}

func (u *unit) useMap(h held, under *types.Map) {
	u.with(h, func(s *scope, x string) { s.pin(x+"["+s.value(under.Key())+"]", under.Elem()) })
	u.with(h, func(s *scope, x string) {
		s.line("v, is := %s[%s]", x, s.value(under.Key()))
		s.line("var w *%s = &v", s.typ(under.Elem()))
		s.use("is && w == nil")
	})
	u.with(h, func(s *scope, x string) {
		s.line("var v %s\n\tv, _ = %s[%s]\n\t_ = v", s.typ(under.Elem()), x, s.value(under.Key()))
	})
	u.with(h, func(s *scope, x string) { s.line("%s[%s] = %s", x, s.value(under.Key()), s.value(under.Elem())) })
	u.with(h, func(s *scope, x string) { s.line("delete(%s, %s)", x, s.value(under.Key())) })
	u.with(h, func(s *scope, x string) {
		s.line("for k, v := range %s {\n\t\tvar j *%s = &k\n\t\tvar w *%s = &v\n\t\t_, _ = j, w\n\t}", x, s.typ(under.Key()), s.typ(under.Elem()))
	})
	u.each(h, "for k, v := range @ {\n\t\t@[k] = v\n\t}", "_ = len(@)", "_ = @ == nil")
	u.with(h, func(s *scope, x string) {
		s.line("var k %s\n\tfor k = range %s {\n\t}\n\t_ = k", s.typ(under.Key()), x)
	})
	for _, sign := range []string{"+=", "-=", "|=", "<<="} {
		sign := sign
		u.with(h, func(s *scope, x string) { s.line("%s[%s] %s 1", x, s.value(under.Key()), sign) })
	}
}

func (u *unit) useChannel(h held, under *types.Chan) {
	if under.Dir() != types.RecvOnly {
		u.with(h, func(s *scope, x string) { s.line("%s <- %s", x, s.value(under.Elem())) })
		u.with(h, func(s *scope, x string) {
			s.line("select {\n\tcase %s <- %s:\n\tdefault:\n\t}", x, s.value(under.Elem()))
		})
		u.each(h, "close(@)")
		u.with(h, func(s *scope, x string) { s.line("var c chan<- %s = %s", s.typ(under.Elem()), x); s.use("c") })
	}
	if under.Dir() != types.SendOnly {
		u.pinned(h, under.Elem(), "<-@")
		u.with(h, func(s *scope, x string) {
			s.line("v, is := <-%s", x)
			s.line("var w *%s = &v", s.typ(under.Elem()))
			s.use("is && w == nil")
		})
		u.with(h, func(s *scope, x string) {
			s.line("var v %s\n\tselect {\n\tcase v = <-%s:\n\t}\n\t_ = v", s.typ(under.Elem()), x)
		})
		u.each(h, "<-@", "for range @ {\n\t}", "for v := range @ {\n\t\t_ = v\n\t}", "select {\n\tcase v, is := <-@:\n\t\t_, _ = v, is\n\t}")
		u.with(h, func(s *scope, x string) {
			s.line("var v %s\n\tfor v = range %s {\n\t}\n\t_ = v", s.typ(under.Elem()), x)
		})
		u.with(h, func(s *scope, x string) { s.line("var c <-chan %s = %s", s.typ(under.Elem()), x); s.use("c") })
	}
	u.each(h, "_ = @ == nil", "_ = len(@) + cap(@)")
}

// useCall calls a function in every way.
func (u *unit) useCall(h held, t *types.Signature) {
	results := t.Results()
	u.with(h, func(s *scope, x string) { s.line("%s", s.call(x, t)) })
	u.with(h, func(s *scope, x string) { s.line("go %s", s.call(x, t)) })
	u.with(h, func(s *scope, x string) { s.line("defer %s", s.call(x, t)) })
	if t.Variadic() {
		last := t.Params().At(t.Params().Len() - 1).Type()
		fixed := types.NewSignatureType(nil, nil, nil, types.NewTuple(tupleOf(t.Params())[:t.Params().Len()-1]...), results, false)
		u.with(h, func(s *scope, x string) { s.line("%s", s.call(x, fixed)) })
		more := func(s *scope, x string, rest ...string) string {
			return x + "(" + strings.Join(append(s.arguments(fixed), rest...), ", ") + ")"
		}
		u.with(h, func(s *scope, x string) {
			value := s.value(last.(*types.Slice).Elem())
			s.line("%s", more(s, x, value, value))
		})
		u.with(h, func(s *scope, x string) { s.line("%s", more(s, x, s.value(last)+"...")) })
		u.with(h, func(s *scope, x string) { s.line("%s", more(s, x, "nil...")) })
	}
	switch results.Len() {
	case 0:
	case 1:
		u.with(h, func(s *scope, x string) { s.pin(s.call(x, t), results.At(0).Type()) })
	default:
		u.with(h, func(s *scope, x string) {
			var names, all []string
			call := s.call(x, t)
			for i := 0; i < results.Len(); i++ {
				names = append(names, s.fresh())
			}
			s.line("%s := %s", strings.Join(names, ", "), call)
			for i, name := range names {
				if of := results.At(i).Type(); s.canWrite(of) {
					s.line("var p%s *%s = &%s", name[1:], s.typ(of), name)
					name = "p" + name[1:]
				}
				all = append(all, name)
			}
			s.line("%s = %s", strings.TrimSuffix(strings.Repeat("_, ", len(all)), ", "), strings.Join(all, ", "))
		})
		u.with(h, func(s *scope, x string) {
			call := s.call(x, t)
			s.results = " " + s.tuple(results)
			s.line("return %s", call)
		})
		u.with(h, func(s *scope, x string) { s.line("func%s {}(%s)", s.tuple(results), s.call(x, t)) })
		u.with(h, func(s *scope, x string) { s.line("func(...interface{}) {}(%s)", s.call(x, t)) })
		u.with(h, func(s *scope, x string) {
			call, blanks := s.call(x, t), make([]string, results.Len())
			for i := range blanks {
				blanks[i] = fmt.Sprintf("b%d", i)
				s.line("var b%d %s", i, s.typ(results.At(i).Type()))
			}
			s.line("%s = %s", strings.Join(blanks, ", "), call)
			s.line("%s = %s", strings.TrimSuffix(strings.Repeat("_, ", len(blanks)), ", "), strings.Join(blanks, ", "))
		})
	}
	// All arguments by one call.
	if t.Params().Len() > 1 && !t.Variadic() {
		u.with(h, func(s *scope, x string) {
			f := s.param("func() " + s.tuple(t.Params()))
			s.line("%s(%s())", x, f)
		})
	}
	// Untyped arguments.
	for _, constant := range []string{"nil", "0", `""`, "'a'", "false", "func() {}"} {
		constant := constant
		for at := 0; at < t.Params().Len(); at++ {
			at := at
			u.with(h, func(s *scope, x string) {
				values := s.arguments(t)
				values[at] = constant
				s.line("%s(%s)", x, strings.Join(values, ", "))
			})
		}
	}
}

func tupleOf(list *types.Tuple) (all []*types.Var) {
	for i := 0; i < list.Len(); i++ {
		all = append(all, list.At(i))
	}
	return all
}

// tuple are types in parentheses.
func (s *scope) tuple(list *types.Tuple) string {
	var parts []string
	for _, one := range tupleOf(list) {
		parts = append(parts, s.typ(one.Type()))
	}
	return "(" + strings.Join(parts, ", ") + ")"
}

// useBasic uses operators.
func (u *unit) useBasic(h held, under *types.Basic) {
	unary, binary, order, constants := []string{}, []string{}, false, []string{}
	switch info := under.Info(); {
	case info&types.IsInteger != 0:
		unary, order, constants = []string{"+", "-", "^"}, true, []string{"0", "1", "'a'", "127"}
		binary = []string{"+", "-", "*", "/", "%", "&", "|", "^", "&^", "<<", ">>"}
	case info&types.IsFloat != 0:
		unary, binary, order, constants = []string{"+", "-"}, []string{"+", "-", "*", "/"}, true, []string{"1", "'a'"}
	case info&types.IsComplex != 0:
		unary, binary, constants = []string{"+", "-"}, []string{"+", "-", "*", "/"}, []string{"1"}
	case info&types.IsString != 0:
		binary, order, constants = []string{"+"}, true, []string{`""`, `"a"`}
		u.pinned(h, types.Typ[types.Uint8], "@[0]")
		u.pinned(h, h.typ, "@[1:]", "@[:1]")
		u.each(h, "_ = len(@)", "for i, r := range @ {\n\t\tvar j *int = &i\n\t\tvar q *rune = &r\n\t\t_, _ = j, q\n\t}", "_ = []byte(@)", "_ = []rune(@)", "_ = append([]byte{}, @...)", "_ = copy([]byte{}, @)")
	case info&types.IsBoolean != 0:
		unary, binary, constants = []string{"!"}, []string{"&&", "||"}, []string{"true", "false"}
		u.each(h, "if @ {\n\t}", "for @ {\n\t}", "switch {\n\tcase bool(@):\n\t}")
	}
	for _, sign := range unary {
		u.pinned(h, h.typ, sign+"@")
	}
	for _, sign := range binary {
		sign := sign
		u.with(h, func(s *scope, x string) { s.pin(x+" "+sign+" "+s.value(h.typ), h.typ) })
		for _, constant := range constants[:1] {
			if sign == "/" || sign == "%" {
				constant = "1"
			}
			u.pinned(h, h.typ, "@ "+sign+" "+constant, constant+" "+sign+" @")
		}
		if h.mode != plain && sign != "&&" && sign != "||" {
			u.with(h, func(s *scope, x string) { s.line("%s %s= %s", x, sign, s.value(h.typ)) })
			u.each(h, "@ "+sign+"= "+constants[len(constants)-1])
		}
	}
	if order {
		for _, sign := range []string{"<", "<=", ">", ">="} {
			sign := sign
			u.with(h, func(s *scope, x string) { s.pin(x+" "+sign+" "+s.value(h.typ), types.Typ[types.Bool]) })
		}
	}
	for _, constant := range constants {
		u.each(h, "_ = @ == "+constant, "_ = "+constant+" != @", "switch @ {\n\tcase "+constant+":\n\t}")
		if h.mode != plain {
			u.each(h, "@ = "+constant)
		}
	}
	if under.Info()&types.IsInteger != 0 {
		u.each(h, "_ = []int{}[@]", "_ = make([]int, @)", "_ = []int{}[@:]", "_ = 1 << uint8(@)", "_ = \"abc\"[@]", "_ = uint64(1) << @", "var a [4]int\n_ = a[@]")
	}
	if under.Info()&types.IsNumeric != 0 && h.mode != plain {
		u.each(h, "@++", "@--")
	}
	for _, to := range []string{"int", "int8", "uint8", "uint64", "uintptr", "float32", "float64", "complex64", "complex128", "string", "bool", "[]byte", "[]rune"} {
		u.each(h, "_ = "+to+"(@)")
	}
	u.with(h, func(s *scope, x string) {
		s.line("var q *%s = (*%[1]s)(%s)", under.Name(), s.value(types.NewPointer(h.typ)))
		s.use("q")
	})
}

// useInterface asks a value of an interface which type it has.
func (u *unit) useInterface(h held, under *types.Interface) {
	for _, e := range u.order {
		if !e.named || types.IsInterface(e.typ) || u.far(e.typ) == never && u.far(h.typ) == never || !types.Implements(e.typ, under) {
			continue
		}
		t := e.typ
		u.with(h, func(s *scope, x string) { s.pin(fmt.Sprintf("%s.(%s)", x, s.typ(t)), t) })
		u.with(h, func(s *scope, x string) {
			s.line("v, is := %s.(%s)", x, s.typ(t))
			s.line("var w *%s = &v", s.typ(t))
			s.use("is && w == nil")
		})
		u.with(h, func(s *scope, x string) {
			s.line("switch v := %s.(type) {\n\tcase %s:\n\t\tvar w *%[2]s = &v\n\t\t_ = w\n\t}", x, s.typ(t))
		})
		u.with(h, func(s *scope, x string) {
			s.line("switch %s.(type) {\n\tcase nil, error, %s:\n\tdefault:\n\t}", x, s.typ(t))
		})
	}
	u.each(h, "_ = @.(interface{})", "_ = @.(interface{ Close() })", "_, _ = @.(error)", "switch v := @.(type) {\n\tcase error:\n\t\t_ = v.Error()\n\tdefault:\n\t\t_ = v\n\t}")
	u.with(h, func(s *scope, x string) { // all types at once, which have to differ
		var all []string
		for _, e := range u.order {
			if e.named && (types.IsInterface(e.typ) || types.Implements(e.typ, under)) {
				all = append(all, s.typ(e.typ))
			}
		}
		s.line("switch %s.(type) {\n\tcase %s:\n\t}", x, strings.Join(all, ":\n\tcase "))
	})
	u.implemented(h, under)
}

// implemented are types of the client that implement the interface.
func (u *unit) implemented(h held, under *types.Interface) {
	for _, star := range []string{"", "*"} {
		star := star
		methods := func(s *scope) (name string) {
			name = s.global("T")
			s.decl("type %s struct{}", name)
			for i := 0; i < under.NumMethods(); i++ {
				method := under.Method(i)
				if !method.Exported() {
					s.fail()
				}
				s.decl("func (%s%s) %s%s { panic(0) }", star, name, method.Name(), strings.TrimPrefix(s.typ(method.Type()), "func"))
			}
			return name
		}
		value := func(name string) string {
			if star == "" {
				return name + "{}"
			}
			return "&" + name + "{}"
		}
		if h.mode != plain {
			u.with(h, func(s *scope, x string) { s.line("%s = %s", x, value(methods(s))) })
		}
		u.with(h, func(s *scope, x string) { s.use("%s.(%s%s)", x, star, methods(s)) })
		u.with(h, func(s *scope, x string) { s.line("switch %s.(type) {\n\tcase %s%s:\n\t}", x, star, methods(s)) })
		u.with(h, func(s *scope, x string) { s.use("%s == %s", x, strings.ReplaceAll(value(methods(s)), "{}", "{}")) })
		u.client(func(s *scope) {
			name := methods(s)
			s.decl("var V%d_ %s = %s", s.number, s.typ(h.typ), value(name))
		})
		for _, e := range u.order {
			if types.Identical(e.typ, h.typ) {
				for _, take := range e.takers {
					take := take
					u.client(func(s *scope) { take(s, value(methods(s))) })
				}
			}
		}
	}
}

// useMembers uses fields and methods.
func (u *unit) useMembers(h held) {
	for _, name := range selectors(h.typ) {
		name := name
		object, _, indirect := types.LookupFieldOrMethod(h.typ, h.mode == variable, nil, name)
		below := func(s *scope) string { return h.make(s) + "." + name }
		switch object := object.(type) {
		case *types.Var:
			of := held{object.Type(), h.mode, below}
			if indirect {
				of.mode = variable
			}
			if of.mode == element {
				of.mode = plain
			}
			u.usePlace(of)
			u.useUnder(of)
			u.methodsOf(of)
		case *types.Func:
			u.useMethod(h, object)
		}
	}
}

// methodsOf uses the methods alone.
func (u *unit) methodsOf(h held) {
	for _, name := range selectors(h.typ) {
		if object, _, _ := types.LookupFieldOrMethod(h.typ, h.mode == variable, nil, name); object != nil {
			u.each(h, "_ = @."+name)
		}
	}
}

func (u *unit) useMethod(h held, method *types.Func) {
	signature := method.Type().(*types.Signature)
	bare := types.NewSignatureType(nil, nil, nil, signature.Params(), signature.Results(), signature.Variadic())
	as := held{bare, plain, func(s *scope) string { return h.make(s) + "." + method.Name() }}
	u.pinned(as, bare, "@")
	u.useCall(as, bare)
	u.with(h, func(s *scope, x string) { s.line("v := %s.%s", x, method.Name()); s.use("%s", "v") })
}

// selectors are the exported names of fields and methods that a type may have.
func selectors(t types.Type) (names []string) {
	seen, found := map[types.Type]bool{}, map[string]bool{}
	note := func(name string) {
		if !found[name] {
			found[name] = true
			names = append(names, name)
		}
	}
	var look func(t types.Type)
	look = func(t types.Type) {
		if pointer, is := t.Underlying().(*types.Pointer); is {
			t = pointer.Elem()
		}
		if seen[t] {
			return
		}
		seen[t] = true
		if named, is := t.(*types.Named); is {
			for i := 0; i < named.NumMethods(); i++ {
				if named.Method(i).Exported() {
					note(named.Method(i).Name())
				}
			}
		}
		switch under := t.Underlying().(type) {
		case *types.Struct:
			for i := 0; i < under.NumFields(); i++ {
				if under.Field(i).Exported() {
					note(under.Field(i).Name())
				}
				if under.Field(i).Embedded() {
					look(under.Field(i).Type())
				}
			}
		case *types.Interface:
			for i := 0; i < under.NumMethods(); i++ {
				if under.Method(i).Exported() {
					note(under.Method(i).Name())
				}
			}
		}
	}
	look(t)
	return names
}

// useElsewhere moves a value to places of other types.
func (u *unit) useElsewhere(h held) {
	isFar := u.far(h.typ) == never
	for _, e := range u.order {
		t := e.typ
		if isFar && u.far(t) == never || types.Identical(t, h.typ) || e.key == "interface{}" {
			continue
		}
		if types.AssignableTo(h.typ, t) && profile.BarredAssignment(profile.ClientPath, h.typ, t) == "-" {
			u.with(h, func(s *scope, x string) { s.line("var v %s = %s", s.typ(t), x); s.use("v") })
			u.with(h, func(s *scope, x string) { s.use("[]%s{%s}", s.typ(t), x) })
			u.with(h, func(s *scope, x string) { s.line("return %s", x); s.results = " " + s.typ(t) })
			u.with(h, func(s *scope, x string) { s.line("%s <- %s", s.param("chan "+s.typ(t)), x) })
			if types.Comparable(h.typ) && types.Comparable(t) {
				u.with(h, func(s *scope, x string) { s.use("%s == %s", s.value(t), x) })
				u.with(h, func(s *scope, x string) { s.line("switch %s {\n\tcase %s:\n\t}", s.value(t), x) })
			}
			for _, take := range e.takers {
				take := take
				u.with(h, func(s *scope, x string) { take(s, x) })
			}
		}
		if types.ConvertibleTo(h.typ, t) && profile.BarredConversion(profile.ClientPath, true, h.typ, t) == "-" {
			u.with(h, func(s *scope, x string) { s.pin(fmt.Sprintf("(%s)(%s)", s.typ(t), x), t) })
		}
		if types.IsInterface(h.typ) && types.IsInterface(t) {
			u.with(h, func(s *scope, x string) { s.pin(fmt.Sprintf("%s.(%s)", x, s.typ(t)), t) })
		}
	}
	if !isFar {
		u.subsets(h)
	}
}

// subsets moves a value to interfaces of the client with some of its methods.
func (u *unit) subsets(h held) {
	all := types.NewMethodSet(h.typ)
	var methods []*types.Func
	for i := 0; i < all.Len(); i++ {
		if method := all.At(i).Obj().(*types.Func); method.Exported() {
			methods = append(methods, method)
		}
	}
	choices := [][]*types.Func{methods}
	for i := range methods {
		choices = append(choices, methods[i:i+1])
		if len(methods) > 2 {
			choices = append(choices, append(append([]*types.Func{}, methods[:i]...), methods[i+1:]...))
		}
	}
	for _, chosen := range choices {
		chosen := chosen
		if len(chosen) == 0 {
			continue
		}
		u.with(h, func(s *scope, x string) {
			var lines []string
			for _, method := range chosen {
				lines = append(lines, method.Name()+strings.TrimPrefix(s.typ(method.Type()), "func"))
			}
			s.decl("type I%d_ interface {\n\t%s\n}", s.number, strings.Join(lines, "\n\t"))
			s.line("var i I%d_ = %s", s.number, x)
			s.use("i")
			if types.IsInterface(h.typ) || types.Comparable(h.typ) {
				s.use("i == %s", x)
			}
			if s.canWrite(h.typ) {
				s.use("i.(%s)", s.typ(h.typ))
			}
		})
	}
}
