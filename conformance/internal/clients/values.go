// Small clients as texts: how types are written in them, and where values of a type come from.
package main

import (
	"fmt"
	"go/ast"
	"go/token"
	"go/types"
	"regexp"
	"sort"
	"strconv"
	"strings"
)

// A block is a client: one declaration or a few, whose own names end with its number.
type block struct {
	name, text string
	decls      []ast.Decl
	kept       bool
	step       string // that it takes outside of the profile
}

type mode int

const (
	variable mode = iota
	plain
	element // of a map
	modes
)

// A recipe writes an expression of a type into a client.
type recipe struct {
	mode mode
	make func(s *scope) string
}

// An entry is a type that the package leads to: values of it, and the places that take one.
type entry struct {
	typ     types.Type
	key     string
	named   bool // it can be written in a client
	recipes [modes][]recipe
	takers  []func(s *scope, value string)
	depth   int
}

// A unit is all clients over one public package.
type unit struct {
	tree    *tree
	pack    *types.Package
	names   map[string]string          // of imports, by path
	imports map[string]string          // paths by name
	aliases map[string]*types.TypeName // of types that can't be written otherwise
	entries map[string]*entry
	order   []*entry
	blocks  []*block
	texts   map[string]bool
	most    int
	chooser *chooser       // while clients are made by chance
	step    string         // while clients that take this step are made
	focus   map[string]int // how far what is changed is from each name that leads to it; nothing where all clients are wanted
	fars    map[types.Type]int
}

const mostRecipes = 2

type cannot struct{}

// A scope is a client in the making.
type scope struct {
	*unit
	number  int
	decls   []string
	params  []string
	results string
	lines   []string
	after   []string // what closes blocks
	count   int
	taken   map[string]bool
}

func newUnit(t *tree, pack *types.Package) *unit {
	u := &unit{
		tree: t, pack: pack, names: map[string]string{}, imports: map[string]string{}, aliases: map[string]*types.TypeName{},
		entries: map[string]*entry{}, texts: map[string]bool{}, fars: map[types.Type]int{},
	}
	u.name(pack)
	for _, public := range t.public {
		for _, name := range public.Scope().Names() {
			if object, is := public.Scope().Lookup(name).(*types.TypeName); is && object.Exported() && object.IsAlias() {
				if key := keyOf(object.Type()); u.aliases[key] == nil || public == pack {
					u.aliases[key] = object
				}
			}
		}
	}
	return u
}

// over is a unit that makes clients of its own of what was explored once.
func (u *unit) over(focus map[string]int, most int) *unit {
	copied := *u
	copied.names, copied.imports, copied.texts, copied.fars = map[string]string{}, map[string]string{}, map[string]bool{}, map[types.Type]int{}
	for path, name := range u.names {
		copied.names[path] = name
	}
	for name, path := range u.imports {
		copied.imports[name] = path
	}
	copied.focus, copied.most = focus, most
	return &copied
}

// name is the name by which a package is imported.
func (u *unit) name(pack *types.Package) string {
	if name, is := u.names[pack.Path()]; is {
		return name
	}
	name := pack.Name()
	for i := 1; u.imports[name] != "" || types.Universe.Lookup(name) != nil || token.IsKeyword(name) || own.MatchString(name); i++ {
		name = fmt.Sprintf("%s_%d", pack.Name(), i)
	}
	u.names[pack.Path()], u.imports[name] = name, pack.Path()
	return name
}

// own are the names that clients have of their own.
var own = regexp.MustCompile(`^([a-z][0-9]+|[A-Z][0-9]+_.*|M|F|G)$`)

// writing writes types; what can't be written fails.
type writing struct {
	name    func(object *types.TypeName) string
	replace func(t types.Type) string // an alias in place of what can't be written, or nothing
	exact   bool                      // also what a client can't write
}

// namesIn are the defined types that are named in a type.
func namesIn(t types.Type) (names []types.Object) {
	defer func() { recover() }()
	w := &writing{replace: func(types.Type) string { return "" }, exact: true, name: func(object *types.TypeName) string {
		if object.Pkg() != nil {
			names = append(names, object)
		}
		return ""
	}}
	w.typ(t)
	return names
}

// keyOf writes a type so that identical types have one text.
func keyOf(t types.Type) string {
	w := &writing{
		name: func(object *types.TypeName) string {
			if object.Pkg() == nil {
				return object.Name()
			}
			return object.Pkg().Path() + "." + object.Name()
		},
		replace: func(types.Type) string { return "" }, exact: true,
	}
	return w.typ(t)
}

func (w *writing) tuple(list *types.Tuple, variadic bool) string {
	var parts []string
	for i := 0; i < list.Len(); i++ {
		t := list.At(i).Type()
		if variadic && i == list.Len()-1 {
			parts = append(parts, "..."+w.typ(t.(*types.Slice).Elem()))
			continue
		}
		parts = append(parts, w.typ(t))
	}
	return "(" + strings.Join(parts, ", ") + ")"
}

func (w *writing) signature(s *types.Signature) string {
	text := w.tuple(s.Params(), s.Variadic())
	switch s.Results().Len() {
	case 0:
	case 1:
		text += " " + w.typ(s.Results().At(0).Type())
	default:
		text += " " + w.tuple(s.Results(), false)
	}
	return text
}

func (w *writing) typ(t types.Type) string {
	switch t := t.(type) {
	case *types.Basic:
		if t.Kind() == types.UnsafePointer {
			panic(cannot{})
		}
		return t.Name()
	case *types.Named:
		if t.Obj().Pkg() == nil {
			return t.Obj().Name()
		}
		return w.name(t.Obj())
	case *types.Pointer:
		return "*" + w.typ(t.Elem())
	case *types.Slice:
		return "[]" + w.typ(t.Elem())
	case *types.Array:
		return fmt.Sprintf("[%d]%s", t.Len(), w.typ(t.Elem()))
	case *types.Map:
		return "map[" + w.typ(t.Key()) + "]" + w.typ(t.Elem())
	case *types.Chan:
		switch inner, is := t.Elem().(*types.Chan); {
		case t.Dir() == types.SendOnly:
			return "chan<- " + w.typ(t.Elem())
		case t.Dir() == types.RecvOnly:
			return "<-chan " + w.typ(t.Elem())
		case is && inner.Dir() == types.RecvOnly:
			return "chan (" + w.typ(t.Elem()) + ")"
		}
		return "chan " + w.typ(t.Elem())
	case *types.Signature:
		return "func" + w.signature(t)
	case *types.Struct:
		return w.structure(t)
	case *types.Interface:
		return w.methods(t)
	}
	panic(cannot{})
}

func (w *writing) structure(t *types.Struct) string {
	if text := w.replace(t); text != "" {
		return text
	}
	var fields []string
	for i := 0; i < t.NumFields(); i++ {
		field := t.Field(i)
		if !w.exact && (!field.Exported() && field.Name() != "_" || field.Embedded()) {
			panic(cannot{})
		}
		text := field.Name() + " "
		if w.exact && !field.Exported() {
			text = field.Pkg().Path() + "." + text
		}
		if w.exact && field.Embedded() {
			text = "embedded " + text
		}
		text += w.typ(field.Type())
		if t.Tag(i) != "" {
			text += " " + strconv.Quote(t.Tag(i))
		}
		fields = append(fields, text)
	}
	return "struct{" + strings.Join(fields, "; ") + "}"
}

func (w *writing) methods(t *types.Interface) string {
	if text := w.replace(t); text != "" {
		return text
	}
	var methods []string
	for i := 0; i < t.NumMethods(); i++ {
		method := t.Method(i)
		if !w.exact && !method.Exported() {
			panic(cannot{})
		}
		text := method.Name() + w.signature(method.Type().(*types.Signature))
		if w.exact && !method.Exported() {
			text = method.Pkg().Path() + "." + text
		}
		methods = append(methods, text)
	}
	sort.Strings(methods)
	return "interface{" + strings.Join(methods, "; ") + "}"
}

// typ is a type as the client writes it.
func (u *unit) typ(t types.Type) string {
	replace := func(t types.Type) string {
		if object := u.aliases[keyOf(t)]; object != nil {
			return u.name(object.Pkg()) + "." + object.Name()
		}
		return ""
	}
	w := &writing{replace: replace, name: func(object *types.TypeName) string {
		if object.Exported() && isPublic(object.Pkg()) && object.Parent() == object.Pkg().Scope() {
			return u.name(object.Pkg()) + "." + object.Name()
		}
		if text := replace(object.Type()); text != "" {
			return text
		}
		panic(cannot{})
	}}
	return w.typ(t)
}

func (u *unit) canWrite(t types.Type) (can bool) {
	defer func() {
		if wrong := recover(); wrong != nil {
			_ = wrong.(cannot)
			can = false
		}
	}()
	u.typ(t)
	return true
}

// client makes one client, unless something of it can't be written.
func (u *unit) client(write func(s *scope)) {
	if len(u.blocks) >= u.most {
		return
	}
	if c := u.chooser; c != nil && (c.left <= 0 || c.Float64() > c.share) {
		return
	}
	s := &scope{unit: u, number: len(u.blocks) + 1, taken: map[string]bool{}}
	defer func() {
		if wrong := recover(); wrong != nil {
			_ = wrong.(cannot)
		}
	}()
	write(s)
	s.lines = append(s.lines, s.after...)
	text := strings.Join(s.decls, "\n")
	if len(s.lines) > 0 || len(s.decls) == 0 {
		text += fmt.Sprintf("\nfunc F%d_(%s)%s {\n\t%s\n}", s.number, strings.Join(s.params, ", "), s.results, strings.Join(s.lines, "\n\t"))
	}
	text = strings.TrimLeft(text, "\n")
	if u.farText(text) == never {
		return
	}
	same := strings.ReplaceAll(text, fmt.Sprintf("%d_", s.number), "_")
	if u.texts[same] {
		return
	}
	u.texts[same] = true
	if u.chooser != nil {
		u.chooser.left--
	}
	u.blocks = append(u.blocks, &block{name: fmt.Sprintf("c%d", s.number), text: text, step: u.step})
}

// never is the distance of what leads to no change.
const never = 1 << 30

// farName is how far what is changed is from a name of the module.
func (u *unit) farName(path, name string) int {
	if path != u.tree.module && !strings.HasPrefix(path, u.tree.module+"/") {
		return never
	}
	if u.focus == nil {
		return 0
	}
	if far, is := u.focus[path+" "+name]; is {
		return far
	}
	return never
}

func (u *unit) farObject(object types.Object) int {
	return u.farName(object.Pkg().Path(), object.Name())
}

// far is how far what is changed is from a type.
func (u *unit) far(t types.Type) int {
	far, is := u.fars[t]
	if !is {
		far = never
		for _, name := range namesIn(t) {
			if at := u.farObject(name); at < far {
				far = at
			}
		}
		u.fars[t] = far
	}
	return far
}

// farText is how far what is changed is from what a client names.
func (u *unit) farText(text string) int {
	far := never
	for at := 1; at < len(text); at++ {
		if text[at] != '.' || !isPart(text[at-1]) {
			continue
		}
		start, end := at, at+1
		for start > 0 && isPart(text[start-1]) {
			start--
		}
		for end < len(text) && isPart(text[end]) {
			end++
		}
		if path := u.imports[text[start:at]]; path != "" {
			if near := u.farName(path, text[at+1:end]); near < far {
				far = near
			}
		}
	}
	return far
}

func (s *scope) fail() { panic(cannot{}) }

// fresh is a new local name.
func (s *scope) fresh() string {
	s.count++
	return fmt.Sprintf("v%d", s.count)
}

// global is a package-level name of this client.
func (s *scope) global(start string) string { return fmt.Sprintf("%s%d_", start, s.number) }

func (s *scope) line(format string, parts ...any) {
	s.lines = append(s.lines, fmt.Sprintf(format, parts...))
}

func (s *scope) decl(format string, parts ...any) {
	s.decls = append(s.decls, fmt.Sprintf(format, parts...))
}

// param is a new parameter.
func (s *scope) param(typ string) string {
	name := fmt.Sprintf("a%d", len(s.params))
	s.params = append(s.params, name+" "+typ)
	return name
}

// value is an expression of the type.
func (s *scope) value(t types.Type) string {
	if s.chooser != nil {
		return s.composed(t, s.chooser.Intn(nested))
	}
	if s.canWrite(t) {
		return s.param(s.typ(t))
	}
	return s.made(t)
}

// made is an expression of the type, by what the package gives.
func (s *scope) made(t types.Type) string {
	key := keyOf(t)
	if e := s.entries[key]; e != nil && !s.taken[key] {
		for _, recipes := range e.recipes {
			for _, one := range recipes {
				s.taken[key] = true
				defer func() { s.taken[key] = false }()
				return one.make(s)
			}
		}
	}
	return s.constant(t)
}

// constant is an untyped constant, or nil, that can be used as the type.
func (s *scope) constant(t types.Type) string {
	basic, is := t.Underlying().(*types.Basic)
	switch {
	case !is && (types.IsInterface(t) || !types.Comparable(t)):
		return "nil"
	case is && basic.Info()&types.IsNumeric != 0:
		return "0"
	case is && basic.Info()&types.IsString != 0:
		return `""`
	case is && basic.Info()&types.IsBoolean != 0:
		return "false"
	}
	switch t.Underlying().(type) {
	case *types.Pointer, *types.Chan:
		return "nil"
	}
	s.fail()
	return ""
}

// use reads an expression.
func (s *scope) use(format string, parts ...any) { s.line("_ = "+format, parts...) }

// pin says which type an expression has, by the address of a variable that it defines; a type that can't be written is compared
// with that of another value.
func (s *scope) pin(expr string, t types.Type) {
	name := s.fresh()
	s.line("%s := %s", name, expr)
	if s.canWrite(t) {
		s.line("var p%s *%s = &%s", name[1:], s.typ(t), name)
		s.use("p%s", name[1:])
		return
	}
	s.use("%s", name)
}

// setup defines a variable.
func (s *scope) setup(expr string) string {
	name := s.fresh()
	s.line("%s := %s", name, expr)
	return name
}

// call calls a function with values of its parameters.
func (s *scope) call(function string, t *types.Signature) string {
	return function + "(" + strings.Join(s.arguments(t), ", ") + ")"
}

func (s *scope) arguments(t *types.Signature) (values []string) {
	for i := 0; i < t.Params().Len(); i++ {
		of := t.Params().At(i).Type()
		if t.Variadic() && i == t.Params().Len()-1 {
			of = of.(*types.Slice).Elem()
		}
		values = append(values, s.value(of))
	}
	return values
}
