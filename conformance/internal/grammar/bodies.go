package grammar

import "go/token"

// cutter finds the bodies of functions in a list of tokens. It trusts the tokens to be a file: where they
// aren't, the source is refused with or without its bodies.
type cutter struct {
	tokens []lexeme
	asType map[int]bool // the places of `func` that begin a type and no literal
	plain  bool         // whether a name ends a type, with no type arguments behind it
}

func (c *cutter) kind(i int) token.Token {
	if i < 0 || i >= len(c.tokens) {
		return token.EOF
	}
	return c.tokens[i].kind
}

// closing is the place of the bracket that closes that at i, or -1.
func (c *cutter) closing(i int) int {
	var open []token.Token
	for ; i < len(c.tokens); i++ {
		switch kind := c.tokens[i].kind; kind {
		case token.LPAREN:
			open = append(open, token.RPAREN)
		case token.LBRACK:
			open = append(open, token.RBRACK)
		case token.LBRACE:
			open = append(open, token.RBRACE)
		case token.RPAREN, token.RBRACK, token.RBRACE:
			if open[len(open)-1] != kind {
				return -1
			}
			if open = open[:len(open)-1]; len(open) == 0 {
				return i
			}
		}
	}
	return -1
}

// behind is the place behind the bracketed part at i, or -1.
func (c *cutter) behind(i int) int {
	if end := c.closing(i); end >= 0 {
		return end + 1
	}
	return -1
}

// typeEnd is the place behind the type that begins at i; i where none begins there, -1 where it doesn't end.
func (c *cutter) typeEnd(i int) int {
	switch c.kind(i) {
	case token.IDENT:
		if c.kind(i+1) == token.PERIOD && c.kind(i+2) == token.IDENT {
			i += 2
		}
		if c.kind(i+1) == token.LBRACK && !c.plain {
			return c.behind(i + 1)
		}
		return i + 1
	case token.LPAREN:
		return c.behind(i)
	case token.MUL:
		return c.typeEnd(i + 1)
	case token.LBRACK:
		if i = c.behind(i); i < 0 {
			return -1
		}
		return c.typeEnd(i)
	case token.MAP:
		if c.kind(i+1) != token.LBRACK {
			return -1
		}
		return c.typeEnd(i + 1)
	case token.CHAN:
		if c.kind(i+1) == token.ARROW {
			i++
		}
		return c.typeEnd(i + 1)
	case token.ARROW:
		if c.kind(i+1) != token.CHAN {
			return i
		}
		return c.typeEnd(i + 1)
	case token.FUNC:
		c.asType[i] = true
		return c.signatureEnd(i + 1)
	case token.STRUCT, token.INTERFACE:
		if c.kind(i+1) != token.LBRACE {
			return -1
		}
		return c.behind(i + 1)
	}
	return i
}

// signatureEnd is the place behind the signature that begins at i, or -1.
func (c *cutter) signatureEnd(i int) int {
	if c.kind(i) != token.LPAREN {
		return -1
	}
	if i = c.behind(i); i < 0 {
		return -1
	}
	return c.typeEnd(i)
}

// isElement tells whether a type's last part is wanted at i: it stands behind the bracket of an array, a
// slice or a map type, or in a channel or pointer type behind that.
func (c *cutter) isElement(i int, opening map[int]int) bool {
	for {
		switch c.kind(i - 1) {
		case token.CHAN:
			return true
		case token.ARROW:
			return c.kind(i-2) == token.CHAN
		case token.MUL:
			i--
			continue
		case token.RBRACK:
			open, known := opening[i-1]
			if !known {
				return false
			}
			switch c.kind(open - 1) {
			case token.IDENT, token.RPAREN, token.RBRACE, token.INT, token.FLOAT, token.IMAG, token.CHAR, token.STRING:
				return false
			case token.RBRACK:
				i = open
				continue
			}
			return true
		}
		return false
	}
}

// withoutBodies is the text without what stands between the braces of functions, and whether any was cut.
func withoutBodies(text []byte, tokens []lexeme) ([]byte, bool) {
	c := &cutter{tokens: tokens, asType: map[int]bool{}}
	bodies := map[int]int{}  // the closing brace by the opening one
	opening := map[int]int{} // the opening bracket by the closing one
	var open []int
	var kept []byte
	from := 0
	for i := 0; i < len(tokens); i++ {
		switch tokens[i].kind {
		case token.LBRACK, token.LPAREN, token.LBRACE:
			if end, known := bodies[i]; known {
				kept = append(kept, text[from:tokens[i].end]...)
				from = tokens[end].start
				i = end
				continue
			}
			open = append(open, i)
		case token.RBRACK, token.RPAREN, token.RBRACE:
			if len(open) > 0 {
				opening[i] = open[len(open)-1]
				open = open[:len(open)-1]
			}
		case token.FUNC:
			if c.asType[i] || c.isElement(i, opening) {
				c.typeEnd(i) // the results that are functions begin types too
				continue
			}
			at := i + 1
			if len(open) == 0 && c.kind(i-1) == token.SEMICOLON {
				if c.kind(at) == token.LPAREN {
					at = c.behind(at)
				}
				if at < 0 || c.kind(at) != token.IDENT {
					continue
				}
				if at++; c.kind(at) == token.LBRACK {
					at = c.behind(at)
				}
			}
			if at = c.signatureEnd(at); at >= 0 && c.kind(at) == token.LBRACE {
				if end := c.closing(at); end >= 0 {
					bodies[at] = end
				}
			}
		}
	}
	if from == 0 {
		return text, false
	}
	return append(kept, text[from:]...), true
}

// parenthesized is the text with parentheses round each array, slice, map and channel type that ends in a name
// with an index or a type assertion behind it, so that Go reads it as one of the type; nil where there is none.
func parenthesized(text []byte, tokens []lexeme) []byte {
	c := &cutter{tokens: tokens, asType: map[int]bool{}, plain: true}
	opening := map[int]int{}
	var open []int
	put := map[int]string{} // by the offset before which it is put
	for i, one := range tokens {
		switch one.kind {
		case token.LBRACK, token.LPAREN, token.LBRACE:
			open = append(open, i)
		case token.RBRACK, token.RPAREN, token.RBRACE:
			if len(open) > 0 {
				opening[i] = open[len(open)-1]
				open = open[:len(open)-1]
			}
		}
		if one.kind != token.LBRACK && one.kind != token.MAP && one.kind != token.CHAN || c.isElement(i, opening) {
			continue
		}
		switch c.kind(i - 1) {
		case token.IDENT, token.RPAREN, token.RBRACK, token.RBRACE, token.STRING, token.PERIOD:
			continue
		}
		end := c.typeEnd(i)
		if end <= 0 || c.kind(end-1) != token.IDENT {
			continue
		}
		if c.kind(end) == token.LBRACK || c.kind(end) == token.PERIOD && c.kind(end+1) == token.LPAREN {
			put[one.start] += "("
			put[tokens[end-1].end] = ")" + put[tokens[end-1].end]
		}
	}
	if len(put) == 0 {
		return nil
	}
	var made []byte
	for offset, b := range text {
		made = append(append(made, put[offset]...), b)
	}
	return made
}
