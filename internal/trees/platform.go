// Platforms: which files of a folder belong to one, and the build line that one platform alone satisfies.
package trees

import (
	"fmt"
	"go/build"
	"go/build/constraint"
	"go/types"
	"sort"
	"strings"
)

// A Platform is a system and an architecture by Go's names.
type Platform struct{ System, Architecture string }

// Platforms are those that apigate knows, in the order in which it names them.
var Platforms = []Platform{
	{"linux", "386"}, {"linux", "arm"}, {"windows", "386"}, {"linux", "amd64"},
	{"linux", "arm64"}, {"linux", "riscv64"}, {"linux", "s390x"}, {"android", "arm64"},
	{"darwin", "amd64"}, {"darwin", "arm64"}, {"ios", "arm64"}, {"freebsd", "amd64"},
	{"illumos", "amd64"}, {"windows", "amd64"},
}

// satisfies are systems that satisfy another system's tag besides their own.
var satisfies = map[string]string{"android": "linux", "illumos": "solaris", "ios": "darwin"}

func (p Platform) String() string { return p.System + "-" + p.Architecture }

// PlatformsOf reads names joined by commas; `all` stands for every platform.
func PlatformsOf(words string) ([]Platform, error) {
	if words == "all" {
		return Platforms, nil
	}
	var found []Platform
	for _, word := range strings.Split(words, ",") {
		at := -1
		for i, one := range Platforms {
			if one.String() == word {
				at = i
			}
		}
		if at < 0 {
			return nil, fmt.Errorf("no platform %q", word)
		}
		for _, one := range found {
			if one == Platforms[at] {
				return nil, fmt.Errorf("platform %s twice", word)
			}
		}
		found = append(found, Platforms[at])
	}
	return found, nil
}

// Context chooses files as apigate does: without cgo, for Go 1.1 to 1.21, and no other tag.
func (p Platform) Context() build.Context {
	context := build.Default
	context.GOOS, context.GOARCH = p.System, p.Architecture
	context.CgoEnabled, context.Compiler = false, "gc"
	context.BuildTags, context.ToolTags, context.ReleaseTags = nil, nil, nil
	for i := 1; i <= 21; i++ {
		context.ReleaseTags = append(context.ReleaseTags, fmt.Sprintf("go1.%d", i))
	}
	return context
}

// Sizes are those of types on the platform.
func (p Platform) Sizes() types.Sizes { return types.SizesFor("gc", p.Architecture) }

// exactly is an expression of build tags that this platform alone satisfies, among those that apigate knows.
func (p Platform) exactly() constraint.Expr {
	expr := constraint.Expr(&constraint.AndExpr{X: &constraint.TagExpr{Tag: p.System}, Y: &constraint.TagExpr{Tag: p.Architecture}})
	for _, other := range Platforms {
		if other.Architecture == p.Architecture && satisfies[other.System] == p.System {
			expr = &constraint.AndExpr{X: expr, Y: &constraint.NotExpr{X: &constraint.TagExpr{Tag: other.System}}}
		}
	}
	return expr
}

// BuildLine is the line by which a file is chosen on these platforms alone; on all of them no line is needed.
func BuildLine(chosen []Platform) string {
	if len(chosen) == len(Platforms) {
		return ""
	}
	var expr constraint.Expr
	for _, one := range chosen {
		if expr == nil {
			expr = one.exactly()
		} else {
			expr = &constraint.OrExpr{X: expr, Y: one.exactly()}
		}
	}
	return "//go:build " + expr.String() + "\n\n"
}

// Before says whether a platform stands before another in the table.
func Before(one, other Platform) bool {
	for _, at := range Platforms {
		if at == one || at == other {
			return at == one && one != other
		}
	}
	return false
}

// InOrder sorts platforms by their order in the table.
func InOrder(set []Platform) {
	sort.Slice(set, func(i, j int) bool { return Before(set[i], set[j]) })
}
