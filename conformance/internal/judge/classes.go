//go:build apidiff

// Why apidiff and the judge differ: each class is a test of one line of the one or the other, on the types of both trees.
package main

import (
	"go/types"
	"path"
	"regexp"
	"strings"
)

// A class of difference, the rule of its lines, if it's one alone, and the test on a line.
type breakClass struct {
	name, rule string
	holds      func(*difference, line) bool
}

// A line is one of the judge's: the package and the object, which may be none, that it is told for, the rule, and what it says.
type line struct {
	owner, rule, subject string
	pack                 *pack // of the old tree
	object               types.Object
}

type difference struct {
	*said
	old, new *view
	lines    []line
}

var breakClasses = []breakClass{
	{"a package gets another name", "name", (*difference).otherName},
	{"a number grows", "underlying", (*difference).numberGrows},
	{"a channel type loses its direction", "underlying", (*difference).directionLost},
	{"a type of the module becomes a basic one", "type", (*difference).becomesBasic},
	{"a type of another package gives way to one of its name", "type", (*difference).sameNames},
	{"an unexported type embedded in a struct without a name gets another name", "type", (*difference).embeddedRenamed},
	{"a field is no longer found through a pointer", "selectable", (*difference).pointerLost},
	{"a method hides a field", "selectable", (*difference).hiddenByMethod},
	{"an interface loses all its unexported methods", "interface-methods", (*difference).unsealed},
	{"by the pointer alone", "implements", (*difference).byPointerAlone},
	{"an interface of another package", "implements", (*difference).ofAnother},
	{"an interface that becomes several", "implements", (*difference).ofSeveral},
	{"two types become one", "one-to-one", (*difference).merged},
	{"a type becomes two of its name", "one-to-one", (*difference).splitByName},
	{"a type that becomes one of its name in another package too", "", (*difference).ofSplit},
	{"a type of a package that isn't public", "", (*difference).notPublic},
	{"a type that moved to another package", "", (*difference).movedAway},
}

// Classes of apidiff's messages.
const (
	byName   = "a type of another package is told by its name"
	takenFor = "a type is told to become itself, since it was taken for another one"
	inSealed = "a method is added to an interface that gets an unexported one too"
)

const inBoth = "both"

// classify finds the classes of the judge's lines and of apidiff's messages.
func (s *said) classify(breaks []string, old, new *view) {
	d := &difference{said: s, old: old, new: new}
	for _, text := range breaks {
		d.lines = append(d.lines, d.line(text))
	}
	for _, l := range d.lines {
		s.OfLines = append(s.OfLines, d.classOf(l))
	}
	for _, message := range s.Messages {
		class := ""
		for _, l := range d.lines {
			if d.touches(l, message) {
				class = inBoth
			}
		}
		switch {
		case class != "":
		case d.isByName(message):
			class = byName
		case d.isTakenFor(message):
			class = takenFor
		case d.isInSealed(message):
			class = inSealed
		}
		s.OfThese = append(s.OfThese, class)
	}
}

func (d *difference) line(text string) (found line) {
	words := strings.SplitN(text, " ", 3)
	found = line{owner: words[0], rule: words[1], subject: words[2]}
	for _, p := range d.old.packs {
		if found.owner == p.path {
			found.pack, found.object = p, nil
			break
		}
		if name := strings.TrimPrefix(found.owner, p.path+"."); name != found.owner && !strings.ContainsAny(name, "/.") {
			found.pack, found.object = p, p.types.Scope().Lookup(name)
		}
	}
	return found
}

func (d *difference) classOf(l line) string {
	for _, message := range d.Messages {
		if d.touches(l, message) {
			return inBoth
		}
	}
	for _, one := range breakClasses {
		if (one.rule == "" || one.rule == l.rule) && one.holds(d, l) {
			return l.rule + ": " + one.name
		}
	}
	return ""
}

var (
	namesInMessage  = regexp.MustCompile(`^(?:\(\*)?(\w+)|(?:method set of \*?|no longer implements )(\w+)`)
	memberInMessage = regexp.MustCompile(`^[^:,]*\.(\w+)[:,]`)
	membersRules    = map[string]bool{"fields": true, "selectable": true, "interface-methods": true, "method-set": true}
)

// lookedUp are the objects of a name, of the package at a path or, where it has none, of others. An alias stands for its type.
func (v *view) lookedUp(at, name string) (found []types.Object) {
	in := func(p *pack) {
		object := p.types.Scope().Lookup(name)
		if alias, is := object.(*types.TypeName); is && alias.IsAlias() {
			if named, is := alias.Type().(*types.Named); is {
				object = named.Obj()
			}
		}
		if object != nil {
			found = append(found, object)
		}
	}
	if p := v.byPath[at]; p != nil {
		in(p)
	}
	if len(found) == 0 {
		for _, p := range v.packs {
			in(p)
		}
	}
	return found
}

// touches tells whether a message of apidiff is about what the judge names, about what this leads to, or what leads to it; about a
// member of the same name; or about a type of another module, which the judge tells for who leads to it.
func (d *difference) touches(l line, message string) bool {
	at, text, _ := strings.Cut(message, ": ")
	if l.pack == nil || l.object == nil || text == "package removed" {
		return l.pack != nil && at == l.pack.path && (l.object == nil) == (text == "package removed")
	}
	if told := memberInMessage.FindStringSubmatch(text); told != nil && membersRules[l.rule] && told[1] == l.subject {
		return true
	}
	if from, _, _ := halves(l.subject); l.rule == "type" || l.rule == "constant" {
		for _, name := range words.FindAllString(from, -1) {
			if name[strings.LastIndex(name, ".")+1:] == namesInMessage.FindStringSubmatch(text)[1] {
				return true
			}
		}
	}
	about := func(v *view, object types.Object) bool {
		if object == nil {
			return false
		}
		from := v.reached(object)
		for _, names := range namesInMessage.FindAllStringSubmatch(text, -1) {
			for _, named := range v.lookedUp(at, names[1]+names[2]) {
				name, is := named.(*types.TypeName)
				if named == object || is && from[name] {
					return true
				}
				if owner, is := object.(*types.TypeName); is && v.reached(named)[owner] {
					return true
				}
			}
		}
		return false
	}
	if about(d.old, l.object) {
		return true
	}
	q := d.new.byPath[l.pack.path]
	return q != nil && about(d.new, q.types.Scope().Lookup(l.object.Name()))
}

func (d *difference) otherName(l line) bool {
	q := d.new.byPath[l.owner]
	return q != nil && q.types.Name() == l.subject && l.pack.types.Name() != l.subject
}

func grows(from, to string) bool {
	for _, one := range wider[from] {
		if one == to {
			return true
		}
	}
	return false
}

func halves(subject string) (from, to string, is bool) { return strings.Cut(subject, " to ") }

func (d *difference) numberGrows(l line) bool {
	from, to, _ := halves(l.subject)
	return grows(from, to)
}

func (d *difference) directionLost(l line) bool {
	from, to, _ := halves(l.subject)
	for _, start := range []string{"<-chan ", "chan<- "} {
		if strings.HasPrefix(from, start) && strings.HasPrefix(to, "chan ") {
			return true
		}
	}
	return false
}

// typeNamed is the defined type of a tree, or of what it imports, that has a name behind its path and a dot.
func (v *view) typeNamed(name string) *types.Named {
	cut := strings.LastIndex(name, ".")
	if cut < 0 {
		return nil
	}
	pack, err := v.from("").Import(name[:cut])
	if err != nil {
		return nil
	}
	object, is := pack.Scope().Lookup(name[cut+1:]).(*types.TypeName)
	if !is || object.IsAlias() {
		return nil
	}
	found, _ := object.Type().(*types.Named)
	return found
}

func (v *view) isOwn(named *types.Named) bool {
	return named.Obj().Pkg() != nil && v.byPath[named.Obj().Pkg().Path()] != nil
}

func (d *difference) becomesBasic(l line) bool {
	from, to, _ := halves(l.subject)
	named := d.old.typeNamed(from)
	if named == nil || !d.old.isOwn(named) {
		return false
	}
	under, is := named.Underlying().(*types.Basic)
	if !is {
		return false
	}
	name := types.Typ[under.Kind()].Name() // byte and rune are other names
	return name == to || grows(name, to)
}

// sameNames holds where two names differ in their paths alone.
func (d *difference) sameNames(l line) bool {
	from, to, _ := halves(l.subject)
	before, after := d.old.typeNamed(from), d.new.typeNamed(to)
	return before != nil && after != nil && from != to && before.Obj().Name() == after.Obj().Name()
}

// embeddedRenamed holds where two structs are told that differ in the names of embedded fields of unexported types alone.
func (d *difference) embeddedRenamed(l line) bool {
	from, to, _ := halves(l.subject)
	before, after := strings.Split(from, "; "), strings.Split(to, "; ")
	if !strings.HasPrefix(from, "struct{ ") || !strings.HasPrefix(to, "struct{ ") || len(before) != len(after) {
		return false
	}
	bare := func(field string) string { return strings.TrimSuffix(strings.TrimPrefix(field, "struct{ "), " }") }
	for i := range before {
		if before[i] == after[i] {
			continue
		}
		was, is := d.old.typeNamed(bare(before[i])), d.new.typeNamed(bare(after[i]))
		if was == nil || is == nil || !d.old.isOwn(was) || !d.new.isOwn(is) || was.Obj().Exported() || is.Obj().Exported() {
			return false
		}
	}
	return true
}

// A reach are the types of the module to which an object leads.
type reach struct {
	view *view
	all  map[*types.TypeName]bool
	seen map[types.Type]bool
}

func (v *view) reached(object types.Object) map[*types.TypeName]bool {
	r := &reach{v, map[*types.TypeName]bool{}, map[types.Type]bool{}}
	if object != nil {
		r.walk(object.Type())
	}
	return r.all
}

func (r *reach) walk(t types.Type) {
	if r.seen[t] {
		return
	}
	r.seen[t] = true
	switch t := t.(type) {
	case *types.Named:
		if !r.view.isOwn(t) {
			return
		}
		r.all[t.Obj()] = true
		r.walk(t.Underlying())
		for i := 0; i < t.NumMethods(); i++ {
			if t.Method(i).Exported() {
				r.walk(t.Method(i).Type())
			}
		}
	case *types.Pointer:
		r.walk(t.Elem())
	case *types.Slice:
		r.walk(t.Elem())
	case *types.Array:
		r.walk(t.Elem())
	case *types.Chan:
		r.walk(t.Elem())
	case *types.Map:
		r.walk(t.Key())
		r.walk(t.Elem())
	case *types.Signature:
		for _, list := range []*types.Tuple{t.Params(), t.Results()} {
			for i := 0; i < list.Len(); i++ {
				r.walk(list.At(i).Type())
			}
		}
	case *types.Struct:
		for i := 0; i < t.NumFields(); i++ {
			if t.Field(i).Exported() || t.Field(i).Embedded() {
				r.walk(t.Field(i).Type())
			}
		}
	case *types.Interface:
		for i := 0; i < t.NumMethods(); i++ {
			r.walk(t.Method(i).Type())
		}
	}
}

// pairsOf are the old types to which an owner leads, each with the new one at its name.
func (d *difference) pairsOf(l line, use func(before, after types.Type) bool) bool {
	for name := range d.old.reached(l.object) {
		q := d.new.byPath[name.Pkg().Path()]
		if q == nil {
			continue
		}
		if after, is := q.types.Scope().Lookup(name.Name()).(*types.TypeName); is && use(name.Type(), after.Type()) {
			return true
		}
	}
	return false
}

// found is what a selector finds: the field or method, and whether through a pointer. A method is found in the method set of the pointer.
func found(t types.Type, name string) (object types.Object, indirect bool) {
	object, _, indirect = types.LookupFieldOrMethod(t, false, nil, name)
	if object == nil {
		object, _, _ = types.LookupFieldOrMethod(t, true, nil, name)
	}
	return object, indirect
}

func (d *difference) pointerLost(l line) bool {
	return d.pairsOf(l, func(before, after types.Type) bool {
		was, through := found(before, l.subject)
		is, still := found(after, l.subject)
		_, wasField := was.(*types.Var)
		_, isField := is.(*types.Var)
		return wasField && isField && through && !still
	})
}

func (d *difference) hiddenByMethod(l line) bool {
	return d.pairsOf(l, func(before, after types.Type) bool {
		was, _ := found(before, l.subject)
		is, _ := found(after, l.subject)
		_, wasField := was.(*types.Var)
		_, isMethod := is.(*types.Func)
		return wasField && isMethod
	})
}

func (d *difference) unsealed(l line) bool {
	return l.subject == "unexported methods" && d.pairsOf(l, func(before, after types.Type) bool {
		was, wasRole := before.Underlying().(*types.Interface)
		is, isRole := after.Underlying().(*types.Interface)
		return wasRole && isRole && isSealed(was) && !isSealed(is)
	})
}

// byPointerAlone holds where only the pointer of an old type implemented the interface, and that of the new one doesn't.
func (d *difference) byPointerAlone(l line) bool {
	role, still := d.old.typeNamed(l.subject), d.newOf(l.subject)
	if role == nil || still == nil {
		return false
	}
	was, wasRole := role.Underlying().(*types.Interface)
	is, isRole := still.Underlying().(*types.Interface)
	return wasRole && isRole && d.pairsOf(l, func(before, after types.Type) bool {
		return !types.Implements(before, was) && types.Implements(types.NewPointer(before), was) && !types.Implements(types.NewPointer(after), is)
	})
}

// newOf is the new type at the name of an old one.
func (d *difference) newOf(name string) types.Type {
	cut := strings.LastIndex(name, ".")
	if q := d.new.byPath[name[:cut]]; q != nil {
		if object, is := q.types.Scope().Lookup(name[cut+1:]).(*types.TypeName); is {
			return object.Type()
		}
	}
	return nil
}

func (d *difference) ofAnother(l line) bool {
	role := d.old.typeNamed(l.subject)
	return role != nil && l.pack != nil && role.Obj().Pkg() != l.pack.types
}

// ofSeveral holds where the interface is told to become several types.
func (d *difference) ofSeveral(l line) bool {
	for _, other := range d.lines {
		if was, _, _ := halves(other.subject); other.rule == "one-to-one" && was == l.subject {
			return true
		}
	}
	return false
}

// merged holds where another old type is told that becomes the same new one, and none that this one becomes.
func (d *difference) merged(l line) bool {
	from, to, _ := halves(l.subject)
	is := false
	for _, other := range d.lines {
		if other.rule != "one-to-one" {
			continue
		}
		was, becomes, _ := halves(other.subject)
		if was == from && becomes != to {
			return false
		}
		is = is || was != from && becomes == to
	}
	return is
}

// splitByName holds where the other new types that an old one becomes have its own name, in other packages.
func (d *difference) splitByName(l line) bool {
	from, to, _ := halves(l.subject)
	is := false
	for _, other := range d.lines {
		if was, becomes, _ := halves(other.subject); other.rule == "one-to-one" && was == from && becomes != to {
			if path.Ext(becomes) != path.Ext(to) {
				return false
			}
			is = true
		}
	}
	return is
}

// ofSplit holds where what is told of a type may be of the other type that it becomes.
func (d *difference) ofSplit(l line) bool {
	for _, other := range d.lines {
		if other.rule == "one-to-one" && other.owner == l.owner && d.splitByName(other) {
			return true
		}
	}
	return false
}

func (d *difference) notPublic(l line) bool {
	if len(d.Wide) == 0 {
		return false
	}
	for name := range d.old.reached(l.object) {
		if isInternalPath(name.Pkg().Path()) {
			return true
		}
	}
	return false
}

// movedAway holds where an owner leads to a type at whose name another package's type stands now, or such a type leads to the owner.
func (d *difference) movedAway(l line) bool {
	isMoved := func(before, after types.Type) bool {
		named, is := after.(*types.Named)
		was, wasNamed := before.(*types.Named)
		return is && wasNamed && named.Obj().Pkg() != nil && was.Obj().Pkg() != nil && named.Obj().Pkg().Path() != was.Obj().Pkg().Path()
	}
	if d.pairsOf(l, isMoved) {
		return true
	}
	owner, is := l.object.(*types.TypeName)
	if !is {
		return false
	}
	for _, p := range d.old.packs {
		q := d.new.byPath[p.path]
		for _, name := range p.types.Scope().Names() {
			if q == nil || q.types.Scope().Lookup(name) == nil {
				continue
			}
			object, other := p.types.Scope().Lookup(name), q.types.Scope().Lookup(name)
			if d.old.reached(object)[owner] && (isMoved(object.Type(), other.Type()) || d.leadsToMoved(other, owner)) {
				return true
			}
		}
	}
	return false
}

// leadsToMoved tells whether an object of the new tree leads to a type of the owner's name in another package.
func (d *difference) leadsToMoved(object types.Object, owner *types.TypeName) bool {
	for name := range d.new.reached(object) {
		if name.Name() == owner.Name() && name.Pkg() != nil && name.Pkg().Path() != owner.Pkg().Path() {
			return true
		}
	}
	return false
}

var (
	changedFrom = regexp.MustCompile(`^(\S+): .*: changed from (.*) to (.*)$`)
	words       = regexp.MustCompile(`[A-Za-z_][\w./~-]*`)
)

// differing are the names in which the types of a message differ, pair by pair, where they differ in names of the module's types alone.
func (d *difference) differing(told []string) (found []string, is bool) {
	if told == nil || words.ReplaceAllString(told[2], "x") != words.ReplaceAllString(told[3], "x") {
		return nil, false
	}
	from, to := words.FindAllString(told[2], -1), words.FindAllString(told[3], -1)
	for i := range from {
		if from[i] == to[i] {
			continue
		}
		before, after := d.old.inMessage(told[1], from[i]), d.new.inMessage(told[1], to[i])
		if before == nil || after == nil || !d.old.isOwn(before) || !d.new.isOwn(after) {
			return nil, false
		}
		found = append(found, from[i]+" "+to[i])
	}
	return found, true
}

// isByName holds where two types are told that differ in the names of the module's types alone, one of each two of another package.
func (d *difference) isByName(message string) bool {
	found, is := d.differing(changedFrom.FindStringSubmatch(message))
	for _, names := range found {
		is = is && strings.Contains(names, ".")
	}
	return is && len(found) > 0
}

// isTakenFor holds where a type is told to become itself, but for other names of the module's types, since apidiff told one of its names to
// become something else before.
func (d *difference) isTakenFor(message string) bool {
	told := changedFrom.FindStringSubmatch(message)
	if _, is := d.differing(told); !is {
		return false
	}
	for _, name := range words.FindAllString(told[2], -1) {
		for _, other := range d.Messages {
			if strings.HasPrefix(other, told[1]+": "+name[strings.LastIndex(name, ".")+1:]+": changed from ") {
				return true
			}
		}
	}
	return false
}

var addedMethod = regexp.MustCompile(`^(\S+): \w+\.\w+: added$`)

// isInSealed holds where a method is told to be added in a package an interface of which gets an unexported method, which the judge tells.
func (d *difference) isInSealed(message string) bool {
	told := addedMethod.FindStringSubmatch(message)
	for _, l := range d.lines {
		if told != nil && l.pack != nil && l.pack.path == told[1] && l.rule == "interface-methods" && l.subject == "unexported methods" {
			return true
		}
	}
	return false
}

func (v *view) inMessage(at, name string) *types.Named {
	if !strings.Contains(name, ".") {
		name = at + "." + name
	}
	return v.typeNamed(name)
}
