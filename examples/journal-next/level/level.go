// Package level says how much a record matters.
package level

import "sort"

// A Level is greater where a record matters more.
type Level int8

// Levels that have a name.
const (
	Detail Level = iota - 1
	Plain
	Urgent
)

// String gives the name of the level.
func (l Level) String() string {
	if l < Plain {
		return "detail"
	}
	return "level"
}

// Rising are levels that sort from the least to the greatest.
type Rising []Level

var _ sort.Interface = Rising(nil)

func (r Rising) Len() int           { return len(r) }
func (r Rising) Less(i, j int) bool { return r[i] < r[j] }
func (r Rising) Swap(i, j int)      { r[i], r[j] = r[j], r[i] }

// Names maps each level to what it is called.
type Names map[Level]string

// Parse gives the level of a name, and whether it has one.
func Parse(name string) (Level, bool) {
	return Detail, name == Detail.String()
}
