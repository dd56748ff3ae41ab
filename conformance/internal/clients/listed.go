// What is told of clients one by one.
package main

import (
	"fmt"
	"go/ast"
	"go/constant"
	"go/parser"
	"go/token"
	"go/types"
	"hash/fnv"
	"math/rand"
	"path/filepath"
	"strings"

	"apigate/internal/profile"
)

// A one is a client of a unit.
type one struct {
	*unit
	*block
}

// keptOnes are the clients of a unit that are kept.
func (u *unit) keptOnes() (all []one) {
	for _, each := range u.blocks {
		if each.kept {
			all = append(all, one{u, each})
		}
	}
	return all
}

// some are so many clients of a pair in an order by chance: those of the profile, or one of each step after another, which stand in the order in which they were made.
func some(of pair, all []one, count int) (chosen []one) {
	digest := fnv.New64()
	digest.Write([]byte(of.name))
	draw := rand.New(rand.NewSource(*seed + int64(digest.Sum64()>>1)))
	var names []string
	steps := map[string][]one{}
	for at, next := range draw.Perm(len(all)) {
		if all[at].block.step != "" {
			next = at
		}
		step := all[next].block.step
		if steps[step] == nil {
			names = append(names, step)
		}
		steps[step] = append(steps[step], all[next])
	}
	draw.Shuffle(len(names), func(i, j int) { names[i], names[j] = names[j], names[i] })
	for at := 0; len(chosen) < count && len(chosen) < len(all); at++ {
		for _, name := range names {
			if at < len(steps[name]) && len(chosen) < count {
				chosen = append(chosen, steps[name][at])
			}
		}
	}
	return chosen
}

// A message is what Go's checker says, and whether it is by a rule that apigate looks at.
type message struct {
	text   string
	looked bool
}

// checked is a client that stands alone, and what Go's checker says of it.
func checked(text string, over *tree) (file *ast.File, info *types.Info, messages []message) {
	set := token.NewFileSet()
	file, err := parser.ParseFile(set, "c.go", text, parser.SkipObjectResolution)
	if err != nil {
		return nil, nil, []message{{err.Error(), true}}
	}
	info = &types.Info{Types: map[ast.Expr]types.TypeAndValue{}, Defs: map[*ast.Ident]types.Object{}, Uses: map[*ast.Ident]types.Object{}}
	defer func() {
		if wrong := recover(); wrong != nil {
			messages = append(messages, message{fmt.Sprint("Go's type checker fails: ", wrong), true})
		}
	}()
	var faults []types.Error
	settings := types.Config{Importer: over, Sizes: sizes, Error: func(err error) { faults = append(faults, err.(types.Error)) }}
	settings.Check(profile.ClientPath, set, []*ast.File{file}, info)
	for _, one := range faults {
		looked := !profile.LeftOut(one.Msg)
		switch {
		case strings.HasPrefix(one.Msg, "cannot switch on"):
			looked = hasValues(file, one.Pos)
		case strings.HasPrefix(one.Msg, "invalid operation: invalid shift count"):
			looked = !isZeroAnyway(file, info, one.Pos)
		}
		messages = append(messages, message{strings.NewReplacer("\n", " ", "\t", " ").Replace(one.Error()), looked})
	}
	return file, info, messages
}

// hasValues says whether a switch over what stands at a place has values: apigate compares with each of them, where Go's checker says that the whole can't be compared.
func hasValues(file *ast.File, at token.Pos) (has bool) {
	ast.Inspect(file, func(node ast.Node) bool {
		if over, is := node.(*ast.SwitchStmt); is && over.Tag != nil && over.Tag.Pos() <= at && at < over.Tag.End() {
			for _, clause := range over.Body.List {
				has = has || clause.(*ast.CaseClause).List != nil
			}
		}
		return true
	})
	return has
}

// isZeroAnyway says whether a constant is shifted at a place so that the result is none or all of it by any count, for which the language has no bound as Go's checker has.
func isZeroAnyway(file *ast.File, info *types.Info, at token.Pos) (is bool) {
	ast.Inspect(file, func(node ast.Node) bool {
		if shift, isShift := node.(*ast.BinaryExpr); isShift && shift.Y.Pos() == at {
			left, count := info.Types[shift.X].Value, info.Types[shift.Y].Value
			if left != nil && left.Kind() == constant.Int && count != nil && count.Kind() == constant.Int {
				_, fits := constant.Uint64Val(count)
				is = is || fits && (shift.Op == token.SHR || constant.Sign(left) == 0)
			}
		}
		return true
	})
	return is
}

// becomes is what a client has to be over a tree, and why: what Go's checker says there by rules that apigate looks at or leaves out, or a constant
// that the profile hasn't.
func becomes(text string, over *tree) (word, why string) {
	file, info, messages := checked(text, over)
	for _, one := range messages {
		if one.looked {
			return "untyped", one.text
		}
	}
	if found := unvalued(file, info); len(found) > 0 {
		return "untyped", "profile: " + found[0]
	}
	word, why = "in profile", "-"
	if len(profile.Outside(file, info)) > 0 {
		word = "typed outside the profile"
	}
	if len(messages) > 0 {
		why = messages[0].text
	}
	return word, why
}

// listOf writes so many of the clients, and tells of each.
func listOf(of pair, old, now *tree, all []one, count int) (told []string) {
	for _, each := range some(of, all, count) {
		name, text := each.nameOf(each.block), each.unit.text([]*block{each.block})
		step, wanted := "-", "in profile"
		if each.block.step != "" {
			name, step, wanted = name+"-step", each.block.step, "typed outside the profile"
		}
		write(filepath.Join(*list, of.name, name), text)
		if word, why := becomes(text, old); word != wanted || why != "-" {
			told = append(told, fmt.Sprintf("%s listed %s\t%s\tnot %s over the old version\t%s", of.name, name, step, wanted, why))
			continue
		}
		word, why := becomes(text, now)
		told = append(told, fmt.Sprintf("%s listed %s\t%s\t%s\t%s", of.name, name, step, word, why))
	}
	return told
}
