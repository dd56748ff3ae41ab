package grammar

import (
	"fmt"
	"go/ast"
	"go/parser"
	"go/scanner"
	"go/token"
	"sort"
	"strings"
)

// notes are the named differences met in a source.
type notes map[string]bool

func (n notes) Sorted() []string {
	var names []string
	for name := range n {
		names = append(names, name)
	}
	sort.Strings(names)
	return names
}

const mode = parser.SkipObjectResolution | parser.AllErrors

// mostHeight is the greatest height of a tree of the gate's grammar.
const mostHeight = 256

// What Go's parser refuses and the gate's grammar takes, by the beginning of Go's message.
var stricter = map[string]string{
	"missing constant value":     "a constant without a value is left to typing",
	"invalid import path":        "an import path is looked at when it is looked up",
	"expected expression":        "a type is an operand wherever an expression is",
	"expected 'expression'":      "a type is an operand wherever an expression is",
	"exceeded max nesting depth": "a chain may have any length",
}

// indexOfType is the difference that parenthesized is for.
const indexOfType = "an index or a type assertion behind a type belongs to its name for Go"

// Verdict is what the gate owes of a source, and the named differences from Go.
func Verdict(source []byte) (string, notes) {
	r := read(source)
	if r.bad != nil {
		return fmt.Sprintf("bad-token %d", r.original(r.bad.place)), r.met
	}
	text, cut := withoutBodies(r.text, r.tokens())
	g, file := parse(text, r.met)
	if file == nil {
		if other := parenthesized(text, tokensOf(text)); other != nil {
			met := notes{indexOfType: true}
			for name := range r.met {
				met[name] = true
			}
			g, file = parse(other, met)
			cut = false // Go refuses the whole for another reason
		}
	}
	if file == nil {
		// where Go refuses for a reason that the gate shares no difference matters
		return "syntax", notes{}
	}
	g.file(file)
	if g.refused {
		for _, name := range stricter {
			delete(g.met, name)
		}
		return "syntax", g.met
	}
	if cut {
		if _, err := parser.ParseFile(token.NewFileSet(), "", r.text, mode); err != nil && !g.onlyStricter(err) {
			g.met["a body is balanced tokens and no block to Go"] = true
		}
	}
	return "ok", g.met
}

// parse gives Go's tree, and none where Go refuses for a reason that the gate shares.
func parse(text []byte, met notes) (*grammar, *ast.File) {
	g := &grammar{files: token.NewFileSet(), text: text, met: met}
	file, err := parser.ParseFile(g.files, "", text, mode)
	if err == nil {
		return g, file
	}
	list, isList := err.(scanner.ErrorList)
	if !isList {
		return g, nil
	}
	for _, one := range list {
		if !g.allows(one) {
			return g, nil
		}
	}
	return g, file
}

func (g *grammar) onlyStricter(err error) bool {
	list, isList := err.(scanner.ErrorList)
	for _, one := range list {
		if stricterName(one.Msg) == "" {
			return false
		}
	}
	return isList
}

func stricterName(message string) string {
	for beginning, name := range stricter {
		if strings.HasPrefix(message, beginning) {
			return name
		}
	}
	return ""
}

// allows tells whether the gate takes what Go refuses here, and notes it.
func (g *grammar) allows(one *scanner.Error) bool {
	name := stricterName(one.Msg)
	if name == "" {
		return false
	}
	g.met[name] = true
	if strings.HasPrefix(one.Msg, "expected expression") {
		g.lost = append(g.lost, one.Pos.Offset)
	}
	return true
}

// grammar walks a tree of Go's parser and notes what the gate's grammar refuses in it.
type grammar struct {
	files   *token.FileSet
	text    []byte
	tokens  []lexeme
	lost    []int // the offsets of types that Go's parser took out of its tree
	met     notes
	refused bool
	inside  bool // whether the blocks of function literals are looked at too
}

func (g *grammar) refuse(why string) int {
	g.met[why] = true
	g.refused = true
	return 0
}

func (g *grammar) offset(at token.Pos) int {
	return g.files.Position(at).Offset
}

// at is the place of the first token that begins at the offset or behind it.
func (g *grammar) at(offset int) int {
	if g.tokens == nil {
		g.tokens = tokensOf(g.text)
	}
	for low, high := 0, len(g.tokens); ; {
		if low >= high {
			return low
		}
		if middle := (low + high) / 2; g.tokens[middle].start < offset {
			low = middle + 1
		} else {
			high = middle
		}
	}
}

func (g *grammar) high(height int) {
	if height > mostHeight {
		g.refuse("the height is over 256")
	}
}

func (g *grammar) file(file *ast.File) {
	if file.Name.Name == "_" {
		g.refuse("a package named _")
	}
	for _, decl := range file.Decls {
		switch decl := decl.(type) {
		case *ast.GenDecl:
			for _, spec := range decl.Specs {
				g.spec(decl.Tok, spec)
			}
		case *ast.FuncDecl:
			if decl.Recv != nil {
				g.receiver(decl.Recv)
			}
			g.high(g.signature(decl.Type, false))
		}
	}
	for _, offset := range g.lost {
		i := g.at(offset)
		if i+1 < len(g.tokens) && g.tokens[i].kind == token.LBRACK && g.tokens[i+1].kind == token.ELLIPSIS {
			g.refuse("[...] without a literal")
			continue
		}
		if i+1 < len(g.tokens) && g.tokens[i].kind == token.ARROW && g.tokens[i+1].kind == token.CHAN {
			g.refuse("<- before chan as an operand")
			continue
		}
		c := &cutter{tokens: g.tokens, asType: map[int]bool{}}
		if end := c.typeEnd(i); end > i && end <= len(g.tokens) {
			if x, err := parser.ParseExpr(string(g.text[offset:g.tokens[end-1].end])); err == nil {
				inner := &grammar{files: token.NewFileSet(), text: g.text, met: g.met}
				inner.tail(x)
				g.refused = g.refused || inner.refused
			}
		}
	}
}

func (g *grammar) receiver(list *ast.FieldList) {
	count := 0
	for _, field := range list.List {
		if count++; len(field.Names) > 1 {
			count += len(field.Names) - 1
		}
		if _, is := field.Type.(*ast.Ellipsis); is {
			g.refuse("a receiver with ...")
			continue
		}
		g.high(g.typ(field.Type))
	}
	if count != 1 {
		g.refuse("a receiver that isn't one parameter")
	}
}

func (g *grammar) spec(word token.Token, spec ast.Spec) {
	switch spec := spec.(type) {
	case *ast.ImportSpec:
		if spec.Name != nil && spec.Name.Name == "." {
			g.refuse("a dot import")
		}
	case *ast.ValueSpec:
		if word == token.CONST && spec.Type != nil && spec.Values == nil {
			g.refused = true // as Go does
		}
		if spec.Type != nil {
			g.high(g.typ(spec.Type))
		}
		for _, value := range spec.Values {
			g.high(g.expr(value))
		}
	case *ast.TypeSpec:
		if spec.TypeParams != nil && !g.isLength(spec) {
			g.refuse("type parameters")
			return
		}
		g.high(g.typ(spec.Type))
	}
}

// isLength tells whether what Go reads as type parameters is the length of an array.
func (g *grammar) isLength(spec *ast.TypeSpec) bool {
	if spec.Assign.IsValid() {
		return false
	}
	text := g.text[g.offset(spec.TypeParams.Opening)+1 : g.offset(spec.TypeParams.Closing)]
	x, err := parser.ParseExpr(string(text))
	if err != nil && !g.onlyStricter(err) {
		return false
	}
	if err == nil {
		inner := &grammar{files: token.NewFileSet(), text: text, met: g.met}
		inner.expr(x)
		g.refused = g.refused || inner.refused
	}
	g.met["the length of an array that Go reads as type parameters"] = true
	return true
}

func (g *grammar) signature(t *ast.FuncType, tail bool) int {
	if t.TypeParams != nil {
		g.refuse("type parameters")
	}
	height := g.parameters(t.Params, true)
	if t.Results != nil {
		if list := t.Results.List; tail && !t.Results.Opening.IsValid() && len(list) == 1 {
			height = most(height, g.tail(list[0].Type))
		} else {
			height = most(height, g.parameters(t.Results, false))
		}
	}
	return 1 + height
}

func (g *grammar) parameters(list *ast.FieldList, dots bool) int {
	height := 0
	for i, field := range list.List {
		t := field.Type
		if many, is := t.(*ast.Ellipsis); is {
			if !dots || i+1 < len(list.List) || len(field.Names) > 1 {
				g.refuse("... at another place than the last parameter")
			}
			t = many.Elt
		}
		height = most(height, g.typ(t))
	}
	return height
}

func most(a, b int) int {
	if a > b {
		return a
	}
	return b
}

func isName(x ast.Expr) bool {
	switch x := x.(type) {
	case *ast.Ident:
		return true
	case *ast.SelectorExpr:
		_, is := x.X.(*ast.Ident)
		return is
	}
	return false
}

// typ looks at a type and gives its height.
func (g *grammar) typ(t ast.Expr) int { return g.form(t, false) }

// tail looks at a type that an operand begins with, whose posts Go may have taken for type arguments.
func (g *grammar) tail(t ast.Expr) int { return g.form(t, true) }

func (g *grammar) form(t ast.Expr, tail bool) int {
	switch t := t.(type) {
	case *ast.Ident:
		return 0
	case *ast.SelectorExpr:
		if !isName(t) {
			return g.refuse("a type of a longer selector")
		}
		return 0
	case *ast.IndexExpr:
		if !tail || g.hasComma(t.Rbrack) {
			return g.refuse("an instantiated type")
		}
		g.met["an index behind a type that Go reads as an instantiated type"] = true
		return most(g.form(t.X, true), 1+g.expr(t.Index))
	case *ast.IndexListExpr:
		return g.refuse("an instantiated type")
	case *ast.ParenExpr:
		return 1 + g.typ(t.X)
	case *ast.StarExpr:
		return 1 + g.form(t.X, tail)
	case *ast.ArrayType:
		height := 0
		if _, is := t.Len.(*ast.Ellipsis); is {
			return g.refuse("[...] without a literal")
		} else if t.Len != nil {
			height = g.expr(t.Len)
		}
		return 1 + most(height, g.form(t.Elt, tail))
	case *ast.MapType:
		return 1 + most(g.typ(t.Key), g.form(t.Value, tail))
	case *ast.ChanType:
		return 1 + g.form(t.Value, tail)
	case *ast.FuncType:
		return 1 + g.signature(t, tail)
	case *ast.StructType:
		if len(t.Fields.List) == 0 {
			return 0
		}
		height := 0
		for _, field := range t.Fields.List {
			if len(field.Names) > 0 {
				height = most(height, g.typ(field.Type))
				continue
			}
			name := field.Type
			if star, is := name.(*ast.StarExpr); is {
				name = star.X
			}
			if !isName(name) {
				return g.refuse("an embedded field that is no name")
			}
		}
		return 1 + height
	case *ast.InterfaceType:
		if len(t.Methods.List) == 0 {
			return 0
		}
		height := 0
		for _, field := range t.Methods.List {
			if len(field.Names) == 0 {
				if !isName(field.Type) {
					return g.refuse("an element of an interface that is no name")
				}
				continue
			}
			height = most(height, g.signature(field.Type.(*ast.FuncType), false))
		}
		return 1 + height
	case *ast.BadExpr:
		return 0
	}
	return g.refuse(fmt.Sprintf("%T as a type", t))
}

// hasComma tells whether a comma stands before the bracket.
func (g *grammar) hasComma(bracket token.Pos) bool {
	i := g.at(g.offset(bracket))
	return i > 0 && g.tokens[i-1].kind == token.COMMA
}

func isReceiving(x ast.Expr) bool {
	t, is := x.(*ast.ChanType)
	return is && t.Dir == ast.RECV
}

// expr looks at an expression and gives its height.
func (g *grammar) expr(x ast.Expr) int {
	if isReceiving(x) {
		return g.refuse("<- before chan as an operand")
	}
	switch x := x.(type) {
	case *ast.Ident, *ast.BasicLit, *ast.BadExpr, nil:
		return 0
	case *ast.FuncLit:
		height := g.signature(x.Type, false)
		if g.inside {
			height = most(height, g.block(x.Body))
		}
		return 1 + height
	case *ast.CompositeLit:
		return g.composite(x)
	case *ast.ParenExpr:
		if isReceiving(x.X) {
			return 1 + g.tail(x.X.(*ast.ChanType).Value)
		}
		return 1 + g.expr(x.X)
	case *ast.SelectorExpr:
		return g.expr(x.X)
	case *ast.IndexExpr:
		if g.hasComma(x.Rbrack) {
			return g.refuse("an index with a comma")
		}
		return most(g.expr(x.X), 1+g.expr(x.Index))
	case *ast.IndexListExpr:
		return g.refuse("an index of several types")
	case *ast.SliceExpr:
		return most(g.expr(x.X), 1+most(g.expr(x.Low), most(g.expr(x.High), g.expr(x.Max))))
	case *ast.TypeAssertExpr:
		if x.Type == nil {
			return g.refuse(".(type) outside a switch")
		}
		return most(g.expr(x.X), 1+g.typ(x.Type))
	case *ast.CallExpr:
		height := 0
		for i, argument := range x.Args {
			if i == 0 && isReceiving(argument) {
				height = g.tail(argument.(*ast.ChanType).Value)
				continue
			}
			height = most(height, g.expr(argument))
		}
		return most(g.expr(x.Fun), 1+height)
	case *ast.StarExpr:
		return 1 + g.expr(x.X)
	case *ast.UnaryExpr:
		if x.Op == token.TILDE {
			return g.refuse("~ in an expression")
		}
		if i := g.at(g.offset(x.OpPos)); x.Op == token.ARROW && i+1 < len(g.tokens) && g.tokens[i+1].kind == token.CHAN {
			return g.refuse("<- before chan as an operand")
		}
		return 1 + g.expr(x.X)
	case *ast.BinaryExpr:
		return most(g.expr(x.X), g.expr(x.Y))
	case *ast.KeyValueExpr:
		return most(g.expr(x.Key), g.expr(x.Value))
	case *ast.ArrayType, *ast.MapType, *ast.ChanType, *ast.FuncType, *ast.StructType, *ast.InterfaceType:
		return g.tail(x)
	}
	return g.refuse(fmt.Sprintf("%T as an expression", x))
}

func (g *grammar) composite(x *ast.CompositeLit) int {
	height := 0
	for _, element := range x.Elts {
		height = most(height, g.expr(element))
	}
	height++
	switch t := x.Type.(type) {
	case nil:
		return height
	case *ast.Ident, *ast.SelectorExpr:
		if !isName(t) {
			return g.refuse("a literal of a longer selector")
		}
		return 1 + height
	case *ast.IndexExpr, *ast.IndexListExpr:
		return g.refuse("a literal of an instantiated type")
	case *ast.ArrayType:
		if _, is := t.Len.(*ast.Ellipsis); is {
			return 1 + most(height, g.typ(t.Elt))
		}
	}
	return 1 + most(height, g.typ(x.Type))
}
