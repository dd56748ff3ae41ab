package profile

import "strings"

// leftOut begin what Go's checker says by rules that apigate leaves out, since the client's own text or values of constants alone decide
// about them.
var leftOut = []string{
	"missing return", "duplicate case", "multiple defaults", "duplicate key", "duplicate index", "label ", "invalid break", "invalid continue", "fallthrough ",
	"cannot fallthrough", "missing function body", "result parameter ", "initialization cycle", "break ", "continue ", "goto ", "cannot switch on ",
	"cannot import package as init",
}

// LeftOut says whether Go's checker says it by a rule that apigate leaves out, as that a variable isn't used, or goes on with what it said before.
func LeftOut(message string) bool {
	if strings.HasPrefix(message, "\t") {
		return true
	}
	for _, start := range leftOut {
		if strings.HasPrefix(message, start) {
			return !strings.HasSuffix(message, "in type switch")
		}
	}
	// a bare return where results have no names
	if strings.HasPrefix(message, "not enough return values") && strings.Contains(message, "have ()") {
		return true
	}
	return strings.Contains(message, "declared but not used") || strings.Contains(message, "imported but not used")
}
