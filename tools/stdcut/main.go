// Stdcut cuts the declarations that a module needs out of Go's standard library, and out of other modules that it imports, into a
// folder for apigate's option --std.
//
//	go run ./tools/stdcut [--platforms NAMES] [--client DIR] [--whole PATHS] [--read FILE] --out DIR MODULE..
//	go run ./tools/stdcut --key [--digests FILE] MODULE..
//
// README.md beside this file says what it writes, what it drops and what it says on its error output.
package main

import (
	"encoding/json"
	"flag"
	"fmt"
	"go/types"
	"os"
	"path/filepath"
	"sort"
	"strings"

	"apigate/internal/trees"
)

// Statuses of the program.
const (
	written = iota
	faulty
	badWords
)

// folders are the values of an option that may stand several times.
type folders []string

func (f *folders) String() string { return strings.Join(*f, " ") }

func (f *folders) Set(word string) error {
	*f = append(*f, word)
	return nil
}

// A request is what the words ask for.
type request struct {
	platforms []trees.Platform
	out       string
	trees     []*trees.Tree
	clients   []string
	whole     []string
	read      string          // the file for the folders that were read outside of modules, if they are to be told
	folders   map[string]bool // these folders
	key       bool            // whether a look at the trees is all that is asked for
	digests   string          // the file for the digests of files, if they are to be kept
}

func main() {
	asked, err := read(os.Args[1:])
	if err != nil {
		fmt.Fprintln(os.Stderr, "stdcut:", err)
		os.Exit(badWords)
	}
	if asked.key {
		told, err := looked(asked.trees, asked.digests)
		if err == nil {
			err = json.NewEncoder(os.Stdout).Encode(told)
		}
		if err != nil {
			fmt.Fprintln(os.Stderr, "stdcut:", err)
			os.Exit(badWords)
		}
		return
	}
	os.Exit(run(asked))
}

func read(words []string) (*request, error) {
	options := flag.NewFlagSet("stdcut", flag.ContinueOnError)
	names := options.String("platforms", "linux-amd64", "names of platforms joined by commas, or all")
	out := options.String("out", "", "the folder that is written; it holds nothing yet, or isn't there")
	whole := options.String("whole", "", "import paths, joined by commas, of which all that is exported is kept")
	listed := options.String("read", "", "a file that gets the folders which were read outside of the modules, a line each")
	digest := options.Bool("key", false, "print a digest of what decides about the modules, and of each a digest of all that apigate reads and the files with old build lines, as JSON")
	kept := options.String("digests", "", "a file in which the digests of files are kept for the next run with --key")
	var clients folders
	options.Var(&clients, "client", "the folder of a client of the last module; may stand several times")
	options.Usage = func() {
		fmt.Fprintln(options.Output(), "stdcut [--platforms NAMES] [--client DIR] [--whole PATHS] [--read FILE] --out DIR MODULE..")
		fmt.Fprintln(options.Output(), "stdcut --key [--digests FILE] MODULE..")
		options.PrintDefaults()
	}
	if err := options.Parse(words); err != nil {
		return nil, err
	}
	asked := &request{out: *out, clients: clients, read: *listed, folders: map[string]bool{}, key: *digest, digests: *kept}
	var err error
	if asked.platforms, err = trees.PlatformsOf(*names); err != nil {
		return nil, err
	}
	if *whole != "" {
		asked.whole = strings.Split(*whole, ",")
	}
	if asked.out == "" && !asked.key || options.NArg() == 0 && len(asked.whole) == 0 {
		return nil, fmt.Errorf("--out DIR and a MODULE are wanted")
	}
	if options.NArg() == 0 && len(clients) > 0 {
		return nil, fmt.Errorf("a client wants a MODULE")
	}
	if entries, err := os.ReadDir(asked.out); asked.out != "" && err == nil && len(entries) > 0 {
		return nil, fmt.Errorf("%s isn't empty", asked.out)
	}
	for _, folder := range options.Args() {
		found, err := trees.Read(folder)
		if err != nil {
			return nil, err
		}
		if asked.out != "" && found.Reads(asked.out) {
			return nil, fmt.Errorf("%s lies in the module %s, which would read it", asked.out, folder)
		}
		asked.trees = append(asked.trees, found)
	}
	return asked, nil
}

// run cuts for each platform, joins what agrees, and writes it.
func run(asked *request) int {
	told, files := &log{}, joined{}
	for _, one := range asked.platforms {
		made := asked.on(one)
		files.add(one, made.files)
		told.add(one, made)
	}
	count, err := files.write(asked.out, asked.platforms)
	if err == nil && asked.read != "" {
		err = asked.tellFolders()
	}
	told.print(os.Stderr, asked.platforms)
	if err != nil {
		fmt.Fprintln(os.Stderr, "stdcut:", err)
		return faulty
	}
	fmt.Fprintf(os.Stderr, "%d packages in %d files for %d platforms\n", len(files), count, len(asked.platforms))
	if told.faulty {
		return faulty
	}
	return written
}

// on cuts for one platform.
func (asked *request) on(one trees.Platform) *cut {
	l := newLoader(one)
	var readers, units []*unit
	for _, tree := range asked.trees {
		readers = append(readers, l.module(tree)...)
	}
	for _, folder := range asked.clients {
		over := asked.trees[len(asked.trees)-1]
		if found, err := l.read(location{clientPath, folder, seeker{over, true, false}}, true); err != nil {
			l.fault("client %s: %v", folder, err)
		} else {
			readers = append(readers, found)
		}
	}
	var roots, more []types.Object
	for _, reader := range readers {
		roots = append(roots, l.outer(reader.uses())...)
		units = append(units, l.outerUnits(reader.imports)...)
	}
	for _, path := range asked.whole {
		found, err := l.load(path, asked.anySeeker())
		if err != nil {
			l.fault("%s: %v", path, err)
			continue
		}
		units = append(units, found)
		for _, name := range found.pack.Scope().Names() {
			if object := found.pack.Scope().Lookup(name); object.Exported() {
				more = append(more, object)
			}
		}
	}
	for _, one := range l.outside {
		if one != nil {
			asked.folders[one.folder] = true
		}
	}
	return cutOut(l, asked.trees, units, roots, more)
}

// tellFolders writes the folders that were read outside of modules.
func (asked *request) tellFolders() error {
	var lines []string
	for folder := range asked.folders {
		lines = append(lines, folder+"\n")
	}
	sort.Strings(lines)
	return os.WriteFile(asked.read, []byte(strings.Join(lines, "")), 0o666)
}

func (asked *request) anySeeker() seeker {
	if len(asked.trees) == 0 {
		return seeker{}
	}
	return seeker{by: asked.trees[0]}
}

// module reads all packages of a module.
func (l *loader) module(of *trees.Tree) []*unit {
	var paths []string
	for path, folder := range of.Places {
		if files, err := l.chosen(folder, true); err != nil {
			l.fault("%s: %v", path, err)
		} else if len(files) > 0 {
			paths = append(paths, path)
		}
	}
	sort.Strings(paths)
	var found []*unit
	for _, path := range paths {
		if one, err := l.load(path, seeker{of, true, false}); err == nil {
			found = append(found, one)
		} else if err != errNoFile {
			l.fault("%s: %v", path, err)
		}
	}
	return found
}

// outerUnits are those packages that lie outside of every module.
func (l *loader) outerUnits(list []*unit) []*unit {
	var found []*unit
	for _, one := range list {
		if l.outside[one.path] == one {
			found = append(found, one)
		}
	}
	return found
}

// outer are those objects whose packages lie outside of every module.
func (l *loader) outer(list []types.Object) []types.Object {
	var found []types.Object
	for _, object := range list {
		if one := l.outside[object.Pkg().Path()]; one != nil && one.pack == object.Pkg() {
			found = append(found, object)
		}
	}
	return found
}

// clientPath is the path of a client's package, which no import can name.
const clientPath = "-client"

// inFolder is where a package's file stands.
func inFolder(out, path, name string) string {
	return filepath.Join(out, filepath.FromSlash(path), name)
}
