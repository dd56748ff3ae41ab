// Asks Go's scanner and parser about many sources in one run. It reads frames: a line with the length of
// a source in bytes, then the bytes.
//
//	oracle tokens    prints a source's tokens as the crate tokens does, then lines with # and a named
//	                 difference, then the line end
//	oracle syntax    prints a line for each source: what the crate syntax has to say of it, a tab, and
//	                 the named differences, joined by semicolons
//	oracle trees     prints a line for each source: Go's tree of it as the crate syntax writes its own, or
//	                 nothing where Go's parser refuses it
//	oracle blocks    prints a line for each source: what the crate syntax has to say of its blocks, a tab, and
//	                 the named differences; nothing before the tab where Go's parser alone refuses it
//	oracle chosen    reads a platform and a file's path a line, and prints whether go/build chooses the
//	                 file, or why it refuses it
//	oracle units     reads files of trees as the crate units does, and tells their units
//
// A named difference is a place where Go's packages and the language of this gate differ on purpose. The
// answer is then what the gate owes: Go's answer on the source without that place, or a refusal.
package main

import (
	"bufio"
	"fmt"
	"os"
	"strings"

	"apigate/conformance/internal/grammar"
	"apigate/conformance/internal/units"
	"apigate/internal/frames"
)

func main() {
	out := bufio.NewWriterSize(os.Stdout, 1<<20)
	defer out.Flush()
	switch strings.Join(os.Args[1:], " ") {
	case "tokens":
		frames.Frames(func(source []byte) bool {
			grammar.ListTokens(out, source)
			return true
		})
	case "syntax":
		frames.Frames(func(source []byte) bool {
			answer, met := grammar.Verdict(source)
			fmt.Fprintf(out, "%s\t%s\n", answer, strings.Join(met.Sorted(), "; "))
			return true
		})
	case "trees":
		frames.Frames(func(source []byte) bool {
			text, _ := grammar.FileTree(source)
			fmt.Fprintln(out, text)
			return true
		})
	case "blocks":
		frames.Frames(func(source []byte) bool {
			answer, met := grammar.Blocks(source)
			fmt.Fprintf(out, "%s\t%s\n", answer, strings.Join(met.Sorted(), "; "))
			return true
		})
	case "chosen":
		lines := bufio.NewScanner(os.Stdin)
		for lines.Scan() {
			platform, path, _ := strings.Cut(lines.Text(), " ")
			fmt.Fprintln(out, units.Chosen(platform, path))
		}
	case "units":
		units.UnitsOf(out)
	default:
		fmt.Fprintln(os.Stderr, "oracle: tokens, syntax, trees, blocks, chosen or units")
		os.Exit(2)
	}
}
