package grammar

import (
	"bufio"
	"bytes"
	"encoding/hex"
	"fmt"
	"go/constant"
	"go/scanner"
	"go/token"
	"regexp"
	"sort"
	"strconv"
	"strings"
)

// lexeme is a token or a comment of Go's scanner, with the offsets of its bytes. An inserted semicolon
// has none.
type lexeme struct {
	kind       token.Token
	start, end int
	inserted   bool
}

// fault is a refusal of Go's scanner. Place is the start of what can't be read.
type fault struct {
	place   int
	message string
	in      token.Token // what it stands in; ILLEGAL where it is no part of a comment or literal
}

// lex gives Go's tokens and comments, and all of its refusals.
func lex(source []byte) (lexemes []lexeme, faults []fault) {
	file := token.NewFileSet().AddFile("", -1, len(source))
	var s scanner.Scanner
	type report struct {
		offset  int
		message string
	}
	var now []report   // of the current token
	var ahead []report // of characters, which may stand past the current token
	s.Init(file, source, func(at token.Position, message string) {
		switch message {
		case "illegal character NUL", "illegal UTF-8 encoding", "illegal byte order mark":
			ahead = append(ahead, report{at.Offset, message})
		default:
			now = append(now, report{at.Offset, message})
		}
	}, scanner.ScanComments)
	for {
		at, kind, text := s.Scan()
		start := file.Offset(at)
		one := lexeme{kind: kind, start: start, end: end(source, start, kind, text)}
		if kind == token.SEMICOLON && text != ";" {
			one.inserted, one.end = true, start
		}
		for _, r := range now {
			faults = append(faults, fault{start, r.message, kind})
		}
		now = now[:0]
		if kind == token.EOF {
			break
		}
		lexemes = append(lexemes, one)
	}
	for _, r := range ahead {
		f := fault{r.offset, r.message, token.ILLEGAL}
		i := sort.Search(len(lexemes), func(i int) bool { return lexemes[i].end > r.offset })
		if i < len(lexemes) && lexemes[i].start <= r.offset {
			f.place, f.in = lexemes[i].start, lexemes[i].kind
		}
		faults = append(faults, f)
	}
	sort.SliceStable(faults, func(i, j int) bool { return faults[i].place < faults[j].place })
	return lexemes, faults
}

// end is the offset behind a token. Go's scanner takes carriage returns out of some texts.
func end(source []byte, start int, kind token.Token, text string) int {
	rest := source[start:]
	until := func(from int, mark string) int {
		if from > len(rest) {
			return len(source)
		}
		if at := bytes.Index(rest[from:], []byte(mark)); at >= 0 {
			return start + from + at + len(mark)
		}
		return len(source)
	}
	switch {
	case kind == token.COMMENT && bytes.HasPrefix(rest, []byte("//")):
		if at := bytes.IndexByte(rest, '\n'); at >= 0 {
			return start + at
		}
		return len(source)
	case kind == token.COMMENT:
		return until(2, "*/")
	case kind == token.STRING && bytes.HasPrefix(rest, []byte("`")):
		return until(1, "`")
	case kind.IsLiteral() || kind.IsKeyword() || kind == token.ILLEGAL:
		return start + len(text)
	}
	return start + len(kind.String())
}

// number is the longest number literal of the Go specification at a text's start.
var number = func() *regexp.Regexp {
	decimal := `[0-9](_?[0-9])*`
	hex := `[0-9a-fA-F](_?[0-9a-fA-F])*`
	exponent := `[eE][+-]?` + decimal
	whole := `0|[1-9](_?[0-9])*|0[bB](_?[01])+|0[oO]?(_?[0-7])+|0[xX](_?[0-9a-fA-F])+`
	point := decimal + `\.(` + decimal + `)?(` + exponent + `)?|` + decimal + exponent + `|\.` + decimal + `(` + exponent + `)?`
	hexPoint := `0[xX](_?` + hex + `\.(` + hex + `)?|_?` + hex + `|\.` + hex + `)[pP][+-]?` + decimal
	value := `(` + whole + `|` + point + `|` + hexPoint + `)`
	found := regexp.MustCompile(`^(` + value + `|(` + value + `|` + decimal + `)i)`)
	found.Longest()
	return found
}()

// readable is a source that Go's scanner reads as the gate reads the original: wrong numbers are parted by
// blanks, byte order marks in comments and texts are another character, wrong line directives plain
// comments.
type readable struct {
	text    []byte
	blanks  []int // the offsets of the blanks put in, ascending
	lexemes []lexeme
	bad     *fault
	met     notes
}

// original is the offset in the source.
func (r *readable) original(offset int) int {
	return offset - sort.SearchInts(r.blanks, offset)
}

func isLiteral(kind token.Token) bool {
	return kind == token.STRING || kind == token.CHAR
}

func isNumber(kind token.Token) bool {
	return kind == token.INT || kind == token.FLOAT || kind == token.IMAG
}

func read(source []byte) *readable {
	r := &readable{text: source, met: notes{}}
	owned := false
	for {
		var faults []fault
		r.lexemes, faults = lex(r.text)
		if len(faults) == 0 {
			return r
		}
		first := faults[0]
		if !owned {
			r.text, owned = append([]byte(nil), r.text...), true
		}
		mark := bytes.Index(r.text[first.place:], []byte("\xef\xbb\xbf"))
		switch {
		case isNumber(first.in):
			at := first.place + len(number.Find(r.text[first.place:]))
			r.text = append(r.text[:at], append([]byte(" "), r.text[at:]...)...)
			i := sort.SearchInts(r.blanks, at)
			for j := i; j < len(r.blanks); j++ {
				r.blanks[j]++
			}
			r.blanks = append(r.blanks[:i], append([]int{at}, r.blanks[i:]...)...)
			r.met["a wrong number to Go is several tokens"] = true
		case first.message == "illegal byte order mark" && (first.in == token.COMMENT || isLiteral(first.in)):
			copy(r.text[first.place+mark:], "\u20ac")
			r.met["a byte order mark in a comment or text"] = true
		case first.in == token.COMMENT && (strings.Contains(first.message, "line number") || strings.Contains(first.message, "column number") || strings.Contains(first.message, "line directive")):
			copy(r.text[first.place+2:], "L")
			r.met["a wrong line directive in a comment"] = true
		default:
			r.bad = &first
			return r
		}
	}
}

// tokens are the lexemes but for comments, which stand where they stand in the text read.
func (r *readable) tokens() []lexeme {
	var found []lexeme
	last := 0
	for _, one := range r.lexemes {
		if one.kind == token.COMMENT {
			continue
		}
		if one.inserted {
			one.start, one.end = last, last
		}
		last = one.end
		found = append(found, one)
	}
	return found
}

func tokensOf(text []byte) []lexeme {
	lexemes, _ := lex(text)
	return (&readable{text: text, lexemes: lexemes}).tokens()
}

var names = map[token.Token]string{
	token.IDENT: "Ident", token.INT: "IntLit", token.FLOAT: "FloatLit", token.IMAG: "ImagLit", token.CHAR: "RuneLit",
	token.STRING: "StrLit", token.ADD: "Add", token.SUB: "Subtract", token.MUL: "Multiply", token.QUO: "Divide",
	token.REM: "Remainder", token.AND: "And", token.OR: "Or", token.XOR: "Xor", token.SHL: "ShiftLeft",
	token.SHR: "ShiftRight", token.AND_NOT: "AndNot", token.ADD_ASSIGN: "AddAssign", token.SUB_ASSIGN: "SubtractAssign",
	token.MUL_ASSIGN: "MultiplyAssign", token.QUO_ASSIGN: "DivideAssign", token.REM_ASSIGN: "RemainderAssign",
	token.AND_ASSIGN: "AndAssign", token.OR_ASSIGN: "OrAssign", token.XOR_ASSIGN: "XorAssign",
	token.SHL_ASSIGN: "ShiftLeftAssign", token.SHR_ASSIGN: "ShiftRightAssign", token.AND_NOT_ASSIGN: "AndNotAssign",
	token.LAND: "LogicalAnd", token.LOR: "LogicalOr", token.ARROW: "Arrow", token.INC: "Increment",
	token.DEC: "Decrement", token.EQL: "Equal", token.LSS: "Less", token.GTR: "Greater", token.ASSIGN: "Assign",
	token.NOT: "Not", token.TILDE: "Tilde", token.NEQ: "NotEqual", token.LEQ: "LessEqual", token.GEQ: "GreaterEqual",
	token.DEFINE: "Define", token.ELLIPSIS: "Ellipsis", token.LPAREN: "LeftParen", token.LBRACK: "LeftBracket",
	token.LBRACE: "LeftBrace", token.COMMA: "Comma", token.PERIOD: "Period", token.RPAREN: "RightParen",
	token.RBRACK: "RightBracket", token.RBRACE: "RightBrace", token.SEMICOLON: "Semicolon", token.COLON: "Colon",
}

// said is what a token says besides its kind, after a blank.
func said(kind token.Token, text string) string {
	switch kind {
	case token.IDENT:
		return " " + text
	case token.INT:
		value := constant.MakeFromLiteral(text, token.INT, 0)
		if constant.Compare(value, token.GEQ, tooWide) {
			return " wide"
		}
		return " " + value.ExactString()
	case token.CHAR:
		code, _, _, err := strconv.UnquoteChar(text[1:len(text)-1], '\'')
		if err != nil {
			panic(text)
		}
		return fmt.Sprintf(" %d", code)
	case token.STRING:
		whole := strings.ReplaceAll(text[1:len(text)-1], "\r", "")
		if text[0] == '"' {
			var err error
			if whole, err = strconv.Unquote(text); err != nil {
				panic(text)
			}
		}
		return " text:" + hex.EncodeToString([]byte(whole))
	}
	return ""
}

// tooWide is the least integer that the gate gives no value.
var tooWide = constant.Shift(constant.MakeInt64(1), token.SHL, 127)

func ListTokens(out *bufio.Writer, source []byte) {
	r := read(source)
	if r.bad != nil {
		fmt.Fprintf(out, "bad %d\n", r.original(r.bad.place))
	} else {
		for _, one := range r.tokens() {
			name, inserted := names[one.kind], ""
			if one.kind.IsKeyword() {
				name = strings.ToUpper(one.kind.String()[:1]) + one.kind.String()[1:] + "Word"
			}
			if one.inserted {
				inserted = " inserted"
			}
			start, end := r.original(one.start), r.original(one.end)
			fmt.Fprintf(out, "%s %d %d%s%s\n", name, start, end, inserted, said(one.kind, string(source[start:end])))
		}
	}
	for _, name := range r.met.Sorted() {
		fmt.Fprintf(out, "# %s\n", name)
	}
	fmt.Fprintln(out, "end")
}
