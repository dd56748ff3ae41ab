// Files: what agrees on several platforms is written once.
package main

import (
	"fmt"
	"os"
	"path/filepath"
	"sort"

	"apigate/internal/trees"
)

// joined are, for each path of a package, its texts with the platforms that have them.
type joined map[string]map[string][]trees.Platform

func (j joined) add(one trees.Platform, files map[string]string) {
	for path, text := range files {
		if j[path] == nil {
			j[path] = map[string][]trees.Platform{}
		}
		j[path][text] = append(j[path][text], one)
	}
}

// write writes each package's files and tells how many they are. A file is chosen on exactly the platforms whose text it holds.
func (j joined) write(out string, all []trees.Platform) (int, error) {
	count := 0
	var paths []string
	for path := range j {
		paths = append(paths, path)
	}
	sort.Strings(paths)
	for _, path := range paths {
		if err := os.MkdirAll(inFolder(out, path, ""), 0o777); err != nil {
			return count, err
		}
		for name, text := range named(j[path], all) {
			if err := os.WriteFile(inFolder(out, path, name), []byte(text), 0o666); err != nil {
				return count, err
			}
			count++
		}
	}
	return count, os.MkdirAll(filepath.Clean(out), 0o777)
}

// named gives the texts of a package names of files: api.go where all platforms agree, api_SYSTEM_ARCHITECTURE.go for one
// platform, and else a number.
func named(texts map[string][]trees.Platform, all []trees.Platform) map[string]string {
	found := map[string]string{}
	var sets [][]trees.Platform
	of := map[trees.Platform]string{}
	for text, set := range texts {
		trees.InOrder(set)
		sets = append(sets, set)
		of[set[0]] = text
	}
	sort.Slice(sets, func(i, j int) bool { return trees.Before(sets[i][0], sets[j][0]) })
	for i, set := range sets {
		name := fmt.Sprintf("api_%d.go", i+1)
		switch {
		case len(set) == 1:
			name = fmt.Sprintf("api_%s_%s.go", set[0].System, set[0].Architecture)
		case len(set) == len(all):
			name = "api.go"
		}
		found[name] = trees.BuildLine(set) + of[set[0]]
	}
	return found
}
