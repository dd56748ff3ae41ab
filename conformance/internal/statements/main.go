// Asks Go's type checker about clients with bodies. It reads one JSON object from its input: either clients in folders, with the trees that they
// stand over, or a seed and a number of bodies to make over the packages of a module. It prints a JSON object in a line for each client: the lines
// of `apigate vet` by Go's answer, the classes of differences of each, what Go's checker said, and, of one that was made, its text.
package main

import (
	"bufio"
	"encoding/json"
	"math/rand"
	"os"

	"apigate/internal/trees"
	"apigate/internal/typed"
)

// A client is a folder with the trees that it stands over.
type client struct {
	New, Std, Client, Platforms string
	Into                        string // a folder for the client with its files and declarations in another order; none where it's empty
}

type input struct {
	Clients  []client
	Packages []struct{ Path, Source string } // of a module, and the client's own declarations last
	Seed     int64
	Count    int
	Depth    int
	Together int // how many bodies without a fault stand in one client
}

// told is what is printed of a client.
type told struct {
	Text    string `json:",omitempty"`
	Own     string `json:",omitempty"` // what was made of it
	Faulty  bool   `json:",omitempty"`
	Bodies  int    `json:",omitempty"`
	Answers []answer
	Again   *shuffle `json:",omitempty"`
}

func fail(err error) {
	if err != nil {
		panic(err)
	}
}

var out = bufio.NewWriter(os.Stdout)

func tell(one told) {
	text, err := json.Marshal(one)
	fail(err)
	out.Write(append(text, '\n'))
}

func main() {
	var given input
	fail(json.NewDecoder(os.Stdin).Decode(&given))
	if len(given.Packages) > 0 {
		newDrawer(given).draw(given)
	}
	again := rand.New(rand.NewSource(given.Seed))
	known := map[string]*typed.World{}
	for _, one := range given.Clients {
		var found told
		if one.Into != "" {
			found.Again = shuffledFolder(again, one.Client, one.Into)
		}
		if one.Platforms == "" {
			tell(found)
			continue
		}
		platforms, err := trees.PlatformsOf(one.Platforms)
		fail(err)
		for _, platform := range platforms {
			key := one.New + "\x00" + one.Std + "\x00" + platform.String()
			if known[key] == nil {
				known = map[string]*typed.World{key: nil}
				known[key], err = typed.Load(one.New, one.Std, platform)
				fail(err)
			}
			found.Answers = append(found.Answers, clientOf(known[key], one.Client))
		}
		tell(found)
	}
	fail(out.Flush())
}
