// Go's parser and type checker over a module and one client of it, bodies of the client and all, on platforms. It prints for each platform
// `typed`, or the first error.
package main

import (
	"fmt"
	"os"

	"apigate/internal/trees"
	"apigate/internal/typed"
)

func main() {
	platforms, err := trees.PlatformsOf(os.Args[3])
	if err != nil {
		fmt.Fprintln(os.Stderr, err)
		os.Exit(2)
	}
	for _, platform := range platforms {
		world, err := typed.Load(os.Args[1], "", platform)
		if err != nil {
			fmt.Fprintln(os.Stderr, err)
			os.Exit(2)
		}
		said := "typed"
		if client := world.Client(os.Args[2]); client != nil {
			for _, file := range client.Files {
				if file.Err != nil && said == "typed" {
					said = file.Err.Error()
				}
			}
			for _, fault := range client.Hard() {
				if said == "typed" {
					said = fault.Message
				}
			}
		}
		fmt.Println(said)
	}
}
