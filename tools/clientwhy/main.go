// Clientwhy vets a client as apigate does and says why: under each line of the report Go's own message at the place that isn't typed, or what
// the profile hasn't; or each step by which a client is outside of the profile.
//
//	go run ./tools/clientwhy [--apigate PROGRAM | --report FILE] --new DIR --client DIR [--std DIR] [--platforms NAME,..] [--workers N]
//
// The words are those of `apigate vet`. It runs PROGRAM, ./apigate where none is named, or takes the lines that such a run printed from FILE, from
// its standard input where FILE is -. Its status is the program's; 1 where a line of FILE says untyped.
package main

import (
	"bufio"
	"bytes"
	"errors"
	"flag"
	"fmt"
	"io"
	"os"
	"os/exec"
	"regexp"
	"strconv"

	"apigate/internal/reasons"
	"apigate/internal/trees"
	"apigate/internal/typed"
)

const (
	untyped  = 1
	badWords = 2
	refused  = 3
)

var (
	line  = regexp.MustCompile(`^client (\S+): (?:in profile|(typed outside the profile)|untyped at (.*):([0-9]+):([0-9]+))$`)
	fault = regexp.MustCompile(`(?m)^apigate: new (\S+): client:(.*?)(?::[0-9]+:[0-9]+)?: (?:not in the grammar of this profile|not a token)$`)
)

// A request is what the words ask for.
type request struct {
	program, report, module, client, std, platforms, workers string
	worlds                                                   map[string]*typed.World
}

func main() {
	asked := &request{worlds: map[string]*typed.World{}}
	words := flag.NewFlagSet("clientwhy", flag.ContinueOnError)
	words.StringVar(&asked.program, "apigate", "./apigate", "the program")
	words.StringVar(&asked.report, "report", "", "a file with the lines of a run, or -")
	words.StringVar(&asked.module, "new", "", "the module's tree")
	words.StringVar(&asked.client, "client", "", "the client's folder")
	words.StringVar(&asked.std, "std", "", "the folder of other declarations")
	words.StringVar(&asked.platforms, "platforms", "linux-amd64", "the platforms, with commas between them")
	words.StringVar(&asked.workers, "workers", "1", "the number of threads of the program")
	if err := words.Parse(os.Args[1:]); err != nil {
		if errors.Is(err, flag.ErrHelp) {
			os.Exit(0)
		}
		os.Exit(badWords)
	}
	if asked.module == "" || asked.client == "" || words.NArg() > 0 {
		fmt.Fprintln(os.Stderr, "clientwhy: --new DIR and --client DIR are wanted, and nothing behind the options")
		os.Exit(badWords)
	}
	status, err := asked.tell(os.Stdout)
	if err != nil {
		fmt.Fprintln(os.Stderr, "clientwhy:", err)
		os.Exit(refused)
	}
	os.Exit(status)
}

// vet gives the lines of the program, what it said on its error output, and its status.
func (r *request) vet() ([]byte, []byte, int, error) {
	switch r.report {
	case "":
	case "-":
		lines, err := io.ReadAll(os.Stdin)
		return lines, nil, -1, err
	default:
		lines, err := os.ReadFile(r.report)
		return lines, nil, -1, err
	}
	words := []string{"vet", "--new", r.module, "--client", r.client, "--platforms", r.platforms, "--workers", r.workers}
	if r.std != "" {
		words = append(words, "--std", r.std)
	}
	var said bytes.Buffer
	run := exec.Command(r.program, words...)
	run.Stderr = &said
	lines, err := run.Output()
	var ended *exec.ExitError
	if errors.As(err, &ended) && ended.ExitCode() >= 0 {
		return lines, said.Bytes(), ended.ExitCode(), nil
	}
	return lines, said.Bytes(), 0, err
}

// tell prints each line with its notes, and returns the status.
func (r *request) tell(out io.Writer) (int, error) {
	lines, said, status, err := r.vet()
	if err != nil {
		return 0, err
	}
	found := 0
	for each := bufio.NewScanner(bytes.NewReader(lines)); each.Scan(); {
		fmt.Fprintln(out, each.Text())
		parts := line.FindStringSubmatch(each.Text())
		if parts == nil {
			continue
		}
		if parts[3] != "" {
			found = untyped
		}
		notes, err := r.notes(parts)
		if err != nil {
			return 0, err
		}
		print(out, notes)
	}
	os.Stderr.Write(said)
	if parts := fault.FindSubmatch(said); parts != nil {
		world, err := r.world(string(parts[1]))
		if err != nil {
			return 0, err
		}
		print(os.Stderr, reasons.Refused(world, r.client, string(parts[2])))
	}
	if status < 0 {
		status = found
	}
	return status, nil
}

func print(out io.Writer, notes []reasons.Note) {
	for _, note := range notes {
		fmt.Fprintf(out, "\t%s: %s\n", note.Where, note.Cause)
	}
}

// notes are those of one line of the report.
func (r *request) notes(parts []string) ([]reasons.Note, error) {
	if parts[2] == "" && parts[3] == "" {
		return nil, nil
	}
	world, err := r.world(parts[1])
	if err != nil {
		return nil, err
	}
	if parts[2] != "" {
		return reasons.Outside(world, r.client), nil
	}
	row, _ := strconv.Atoi(parts[4])
	column, _ := strconv.Atoi(parts[5])
	notes := reasons.Untyped(world, r.client, parts[3], row, column)
	if len(notes) == 0 {
		notes = []reasons.Note{{Where: fmt.Sprintf("%s:%d:%d", parts[3], row, column), Cause: "Go takes it; docs/clients.md lists what this program doesn't"}}
	}
	return notes, nil
}

// world is the module's on a platform, read once.
func (r *request) world(platform string) (*typed.World, error) {
	if r.worlds[platform] == nil {
		one, err := trees.PlatformsOf(platform)
		if err != nil {
			return nil, err
		}
		if r.worlds[platform], err = typed.Load(r.module, r.std, one[0]); err != nil {
			return nil, err
		}
	}
	return r.worlds[platform], nil
}
