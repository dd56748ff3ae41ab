// What is told on the error output, once for all platforms that agree.
package main

import (
	"fmt"
	"io"
	"sort"
	"strings"

	"apigate/internal/trees"
)

// A log holds lines with the platforms that they are about.
type log struct {
	lines  map[string][]trees.Platform
	faulty bool // whether something that a module names isn't there
}

func (l *log) add(one trees.Platform, made *cut) {
	if l.lines == nil {
		l.lines = map[string][]trees.Platform{}
	}
	for line := range made.lines {
		l.lines[line] = append(l.lines[line], one)
	}
	for line := range made.loader.notes {
		l.lines["note "+line] = append(l.lines["note "+line], one)
	}
	for line := range made.loader.faults {
		l.lines["fault "+line] = append(l.lines["fault "+line], one)
	}
	l.faulty = l.faulty || made.wants || len(made.loader.faults) > 0
}

// print writes the lines in order; one that isn't about all platforms ends with those that it is about.
func (l *log) print(out io.Writer, all []trees.Platform) {
	var lines []string
	for line, set := range l.lines {
		if len(set) < len(all) {
			trees.InOrder(set)
			line += " (" + strings.Trim(fmt.Sprint(set), "[]") + ")"
		}
		lines = append(lines, line)
	}
	sort.Strings(lines)
	for _, line := range lines {
		fmt.Fprintln(out, line)
	}
}
