// Asks Go's packages go/build, go/parser and go/types about modules in folders. Its words are
//
//	lines PLATFORM OUT        reads lines of a name, a tab and a module's folder; writes the module's feature lines into OUT/NAME, by its
//	                          own sources and those of all that it imports, wherever Go finds them
//	answers PLATFORM          reads lines of a module's folder, a tab and a folder of declarations, as --std names one; answers each by
//	                          a line of JSON, which the package answers describes, with refusals in the words of this gate
//	cut PLATFORM OUT          does the same, and writes each module without what is left out of it, the first into OUT/0
//	unseen PLATFORM OUT       does the same, and writes each module without all that nobody sees
//	divided PLATFORM OUT      does the same, and writes of each module the packages of which something is left out, and those that they
//	                          import: without that, bodies and build lines into OUT/0/kept, and files with that into OUT/0/left
//	counts FOLDER             tells what the limits count in a module's tree
//	parts FOLDER              tells as JSON, for each folder of a module with a package, the folders of the module that it stands on
//	tree CUT MODULE OUT       writes the packages of a folder of declarations as those of a module, where none is internal
//	again CUT MODULE OUT      writes a module that declares anew, by its name, all that the packages of such a folder export
//	paths PLATFORM            reads import paths; writes the feature lines of these packages as Go finds them
//	shuffled FOLDER STD OUT SEED PLATFORM..
//	                          writes a module whose declarations are dealt out anew among the files that the same platforms choose;
//	                          tells how many stand in another file
package main

import (
	"bufio"
	"encoding/json"
	"fmt"
	"os"
	"path/filepath"
	"sort"
	"strings"

	"apigate/conformance/internal/answers"
	"apigate/conformance/internal/differences"
	"apigate/conformance/internal/grammar"
	"apigate/conformance/internal/units"
)

var out = bufio.NewWriterSize(os.Stdout, 1<<20)

// pairs gives each line's two parts.
func pairs(use func(one, other string)) {
	lines := bufio.NewScanner(os.Stdin)
	for lines.Scan() {
		one, other, _ := strings.Cut(lines.Text(), "\t")
		use(one, other)
	}
}

func tell(what interface{}) {
	text, err := json.Marshal(what)
	answers.Fail(err)
	fmt.Fprintf(out, "%s\n", text)
}

// refusals are the words of this gate for why a tree is refused.
var refusals = map[string]string{
	"no typing": "declaration has no typing", "declared twice": "declared twice", "import not found": "import not found",
	"internal import": "internal package", "no token": "not a token", "not in the grammar": "not in the grammar of this profile",
	"two build lines": "two go:build lines", "bad build expression": "go:build line not understood",
	"a plus line alone": "+build without go:build", "several package names": "two package names", "import cycle": "import cycle",
}

// inWords is a refusal in the words of this gate: `PATH FILE: WHY at OFFSET`, `PATH FILE: WHY` or `PATH: WHY` becomes its line's end.
func inWords(asked units.Question, module, line string) string {
	at, why, is := strings.Cut(line, ": ")
	if !is {
		return line
	}
	path, file, hasFile := strings.Cut(at, " ")
	why, offset, placed := strings.Cut(why, " at ")
	words, known := refusals[why]
	if !known {
		return line
	}
	if !hasFile {
		return path + ": " + words
	}
	text, where := asked.Files[file], file
	if !units.Under(path, module) {
		text, where = asked.StdFiles[file], "std:"+file
	}
	if !placed {
		return where + ": " + words
	}
	var until int
	_, err := fmt.Sscan(offset, &until)
	answers.Fail(err)
	before := text[:until]
	return fmt.Sprintf("%s:%d:%d: %s", where, 1+strings.Count(before, "\n"), until-strings.LastIndexByte(before, '\n'), words)
}

// causes are the forms in a file for which this gate's grammar hasn't it.
func causes(asked units.Question, module, line string) []string {
	at, _, _ := strings.Cut(line, ": ")
	path, file, _ := strings.Cut(at, " ")
	text := asked.Files[file]
	if !units.Under(path, module) {
		text = asked.StdFiles[file]
	}
	_, met := grammar.Verdict([]byte(text))
	return met.Sorted()
}

// fromFolders answers what a module's features are over a folder of declarations.
func fromFolders(tree *moduleTree, platform string, std map[string]string, answer func(units.Question) answers.Answers) (all answers.Answers) {
	defer func() {
		if fault := recover(); fault != nil {
			all = answers.Answers{Errors: []string{fmt.Sprint(fault)}}
		}
	}()
	asked := units.Question{Word: "features", Platform: platform, Files: tree.files, StdFiles: std}
	asked.Files["go.mod"] = "module " + tree.module + "\n"
	all = answer(asked)
	for i, one := range all.Answers {
		all.Answers[i].Lost = nil
		if len(one.Lines) != 1 || strings.HasPrefix(one.Lines[0], "pkg ") {
			continue
		}
		for j, class := range one.Classes {
			if class == differences.Unwritten && strings.HasSuffix(one.Lines[0], ": not in the grammar") {
				one.Classes[j] = strings.Join(causes(asked, tree.module, one.Lines[0]), " and ")
			}
		}
		one.Lines[0] = "apigate: new " + platform + ": " + inWords(asked, tree.module, one.Lines[0])
	}
	return all
}

// eachTree gives each line's module and the files of its folder of declarations.
func eachTree(use func(tree *moduleTree, std map[string]string)) {
	last, files := "", map[string]string{}
	pairs(func(folder, std string) {
		if std != last {
			last, files = std, readBelow(std, false).files
		}
		use(readModule(folder), files)
	})
}

// writeCut answers for modules, and writes each without what was cut from it.
func writeCut(platform, folder string, answer func(units.Question) answers.Answers) {
	count := 0
	eachTree(func(tree *moduleTree, std map[string]string) {
		told := fromFolders(tree, platform, std, answer)
		for place, text := range tree.files {
			if cut, is := told.Cut[place]; is {
				text = cut
			}
			write(filepath.Join(folder, fmt.Sprint(count)), place, []byte(text))
		}
		tell(told)
		count++
	})
}

// writeDivided answers for modules, and writes each in two parts.
func writeDivided(platform, folder string) {
	count := 0
	eachTree(func(tree *moduleTree, std map[string]string) {
		told := fromFolders(tree, platform, std, answers.AnswersInParts)
		top := filepath.Join(folder, fmt.Sprint(count))
		write(top, "kept/go.mod", []byte("module "+tree.module+"\n"))
		for place, text := range told.Cut {
			write(top, "kept/"+place, []byte(text))
		}
		for place, text := range told.Left {
			write(top, "left/"+place, []byte(text))
		}
		tell(told)
		count++
	})
}

// partsOf tells what each package of a module stands on in it.
func partsOf(folder string) {
	tree := readModule(folder)
	needs := map[string]map[string]bool{}
	for place, text := range tree.files {
		at := filepath.ToSlash(filepath.Dir(place))
		if needs[at] == nil {
			needs[at] = map[string]bool{}
		}
		file, _, err := answers.Parsed(text)
		if err != nil {
			continue
		}
		for _, spec := range file.Imports {
			if path := units.Unquoted(spec); units.Under(path, tree.module) {
				below := strings.TrimPrefix(strings.TrimPrefix(path, tree.module), "/")
				if below == "" {
					below = "."
				}
				needs[at][below] = true
			}
		}
	}
	all := map[string][]string{}
	for at := range needs {
		seen, queue := map[string]bool{at: true}, []string{at}
		for len(queue) > 0 {
			for below := range needs[queue[0]] {
				if needs[below] != nil && !seen[below] {
					seen[below] = true
					queue = append(queue, below)
				}
			}
			queue = queue[1:]
		}
		all[at] = answers.SortedKeys(seen)
	}
	tell(all)
}

// linesOf writes the feature lines of modules.
func linesOf(platform, folder string) {
	s := newSources(platform)
	pairs(func(name, module string) {
		lines := s.features(module)
		sort.Strings(lines)
		text := strings.Join(lines, "\n")
		if text != "" {
			text += "\n"
		}
		answers.Fail(os.WriteFile(filepath.Join(folder, name), []byte(text), 0o666))
	})
}

// linesOfPaths writes the feature lines of packages.
func linesOfPaths(platform string) {
	s := newSources(platform)
	s.module = "-"
	pairs(func(path, _ string) {
		if pack, err := s.Import(path); err == nil {
			for _, line := range linesIn(pack, path) {
				fmt.Fprintln(out, line)
			}
		}
	})
}

func main() {
	defer out.Flush()
	switch words := os.Args[1:]; {
	case len(words) == 3 && words[0] == "lines":
		linesOf(words[1], words[2])
	case len(words) == 2 && words[0] == "answers":
		eachTree(func(tree *moduleTree, std map[string]string) {
			tell(fromFolders(tree, words[1], std, answers.AnswersTo))
		})
	case len(words) == 3 && words[0] == "cut":
		writeCut(words[1], words[2], answers.AnswersTo)
	case len(words) == 3 && words[0] == "unseen":
		writeCut(words[1], words[2], answers.AnswersWithoutUnseen)
	case len(words) == 3 && words[0] == "divided":
		writeDivided(words[1], words[2])
	case len(words) == 2 && words[0] == "counts":
		tell(readBelow(words[1], true).counts)
	case len(words) == 2 && words[0] == "parts":
		partsOf(words[1])
	case len(words) == 4 && words[0] == "tree":
		writeTree(words[1], words[2], words[3])
	case len(words) == 4 && words[0] == "again":
		writeAgain(words[1], words[2], words[3])
	case len(words) == 2 && words[0] == "paths":
		linesOfPaths(words[1])
	case len(words) > 5 && words[0] == "shuffled":
		writeShuffled(words[1], words[2], words[3], words[4], words[5:])
	default:
		fmt.Fprintln(os.Stderr, "modules: lines, answers, cut, unseen, divided, counts, parts, tree, again, paths or shuffled")
		os.Exit(2)
	}
}
