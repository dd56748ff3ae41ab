// Explain tells about a module's trees what apigate's lines don't: where things are declared, by which ways a break is reached, and why a
// declaration isn't in the profile. It reads one JSON object and prints another.
//
//	explain places     the places of objects and of feature lines, and the ways to what is broken, over an old and a new tree
//	explain reasons    what of a tree isn't in the profile, on one platform
//	explain depends    why the declaration at a place of a tree has no typing, itself or by what it depends on
//	explain untyped    why what stands at a place of a client isn't typed
//	explain outside    each step by which a client is outside of the profile
package main

import (
	"encoding/json"
	"fmt"
	"os"

	"apigate/internal/reasons"
	"apigate/internal/trees"
	"apigate/internal/typed"
)

// A request is what is asked for: the trees, the folder of declarations, the platforms in order, and things of the trees.
type request struct {
	Old, New, Std string
	Platforms     []string
	Breaks        []broken
	Lines         []string
	Client        string
	File          string
	Line, Column  int
}

// A broken is a break as the report has it, once for all platforms.
type broken struct {
	Owner, Rule, Subject string
	Platforms            []string
}

// A dependence is why a declaration has no typing, with the names that lead there.
type dependence struct {
	Reason *reasons.Reason `json:"reason"`
	By     []string        `json:"by"`
}

// listed is a list in JSON, of none too.
func listed(notes []reasons.Note) []reasons.Note {
	if notes == nil {
		return []reasons.Note{}
	}
	return notes
}

func fail(err error) {
	if err != nil {
		fmt.Fprintln(os.Stderr, "explain:", err)
		os.Exit(1)
	}
}

// world loads a tree on a platform, once for each.
func (r *request) world(worlds map[string]*typed.World, folder, platform string) *typed.World {
	key := platform + " " + folder
	if worlds[key] == nil {
		one, err := trees.PlatformsOf(platform)
		fail(err)
		worlds[key], err = typed.Load(folder, r.Std, one[0])
		fail(err)
	}
	return worlds[key]
}

func main() {
	var asked request
	fail(json.NewDecoder(os.Stdin).Decode(&asked))
	if len(os.Args) != 2 || len(asked.Platforms) == 0 {
		fail(fmt.Errorf("places, reasons, depends, untyped or outside, and a platform, are wanted"))
	}
	var answer interface{}
	worlds := map[string]*typed.World{}
	switch os.Args[1] {
	case "places":
		answer = asked.places(worlds)
	case "reasons":
		found := reasons.Find(asked.world(worlds, asked.New, asked.Platforms[0]))
		if found == nil {
			found = []reasons.Reason{}
		}
		answer = found
	case "depends":
		reason, by, is := reasons.Depends(asked.world(worlds, asked.New, asked.Platforms[0]), asked.File, asked.Line)
		found := dependence{By: by}
		if is {
			found.Reason = &reason
		}
		answer = found
	case "untyped":
		answer = listed(reasons.Untyped(asked.world(worlds, asked.New, asked.Platforms[0]), asked.Client, asked.File, asked.Line, asked.Column))
	case "outside":
		answer = listed(reasons.Outside(asked.world(worlds, asked.New, asked.Platforms[0]), asked.Client))
	default:
		fail(fmt.Errorf("no question %s", os.Args[1]))
	}
	fail(json.NewEncoder(os.Stdout).Encode(answer))
}
