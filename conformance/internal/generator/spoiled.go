// Expressions with a part replaced.
package generator

import (
	"go/scanner"
	"go/token"
)

var others = map[token.Token][]string{
	token.INT:    {"0", "1", "-1", "2", "3", "256", "128", "1 << 31", "1 << 63", "-(1 << 63)", "1 << 127 - 1", "'a'", `"s"`, "1.0", "true", "nil", "iota"},
	token.STRING: {`"s"`, "1", "'s'", "nil"},
	token.CHAR:   {"'a'", "97", `"a"`},
}

var Operators = []string{"+", "-", "*", "/", "%", "&", "|", "^", "<<", ">>", "&^", "&&", "||", "==", "!=", "<", "<=", ">", ">="}

// Spoiled is the text with one token replaced.
func (g *Generator) Spoiled(text string) string {
	var s scanner.Scanner
	files := token.NewFileSet()
	s.Init(files.AddFile("", files.Base(), len(text)), []byte(text), nil, 0)
	type place struct {
		at, end int
		kind    token.Token
	}
	var places []place
	for {
		position, kind, word := s.Scan()
		if kind == token.EOF {
			break
		}
		if kind == token.SEMICOLON && word == "\n" {
			continue
		}
		if word == "" {
			word = kind.String()
		}
		at := files.Position(position).Offset
		places = append(places, place{at, at + len(word), kind})
	}
	for tries := 0; tries < 8; tries++ {
		one := places[g.Intn(len(places))]
		with := ""
		switch {
		case one.kind == token.IDENT:
			with = g.Known[g.Intn(len(g.Known))].Name
			if g.Chance(40) {
				with = g.One("nil", "iota", "_", "undefined", "len", "p", "q", "p.hidden", "q.hidden", "int", "string", "error", "uint8", "true", "float64", "new", "any", "p.Undefined")
			}
			if g.Chance(30) {
				with = g.selectors[g.Intn(len(g.selectors))]
			}
		case others[one.kind] != nil:
			with = g.One(others[one.kind]...)
		case one.kind == token.ELLIPSIS:
			with = ""
		case one.kind >= token.ADD && one.kind <= token.AND_NOT || one.kind == token.LAND || one.kind == token.LOR || one.kind >= token.EQL && one.kind <= token.GTR || one.kind == token.NEQ || one.kind == token.LEQ || one.kind == token.GEQ:
			with = g.One(Operators...)
		case one.kind == token.NOT || one.kind == token.ARROW:
			with = g.One("-", "!", "^", "*", "&", "<-", "+")
		default:
			continue
		}
		return text[:one.at] + with + text[one.end:]
	}
	return text
}
