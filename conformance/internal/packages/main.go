// Asks Go's packages go/build, go/parser and go/types about packages of trees. Its words are
//
//	answers                     reads files that are told line by line, as the crate units does, and answers each `features`
//	cases SEED COUNT BASES CUT  tells so many cases by a seed, so many of each base, some with packages of the folder CUT
//	tree FOLDER MODULE PLATFORM tells the packages below a folder as those of a module
//
// An answer is a line of JSON; the package answers says what is in it.
package main

import (
	"bufio"
	"bytes"
	"encoding/json"
	"fmt"
	"os"
	"strconv"

	"apigate/conformance/internal/answers"
	"apigate/conformance/internal/units"
)

var out = bufio.NewWriterSize(os.Stdout, 1<<20)

// tellTree tells the packages below a folder as those of a module.
func tellTree(folder, module, platform string) {
	var text bytes.Buffer
	answers.Tree{Module: module, Pieces: answers.Within(module, answers.PiecesBelow(folder, platform))}.Write(&text, platform)
	out.Write(text.Bytes())
}

func count(word string) int {
	value, err := strconv.Atoi(word)
	answers.Fail(err)
	return value
}

func main() {
	defer out.Flush()
	switch words := os.Args[1:]; {
	case len(words) == 1 && words[0] == "answers":
		last := ""
		units.Questions(func(line string) { last = line }, func(asked units.Question) {
			if asked.Word != "features" {
				return
			}
			answer := answers.AnswersTo(asked)
			answer.Case = last
			text, err := json.Marshal(answer)
			answers.Fail(err)
			fmt.Fprintf(out, "%s\n", text)
		})
	case len(words) == 5 && words[0] == "cases":
		tellCases(int64(count(words[1])), count(words[2]), count(words[3]), words[4])
	case len(words) == 4 && words[0] == "tree":
		tellTree(words[1], words[2], words[3])
	default:
		fmt.Fprintln(os.Stderr, "packages: answers, or cases SEED COUNT BASES CUT, or tree FOLDER MODULE PLATFORM")
		os.Exit(2)
	}
}
