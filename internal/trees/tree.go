// Package trees has what apigate reads of a module: its path, its folders, and the files of a platform.
//
// Module trees: the path of a module, and the folders of it that apigate reads.
package trees

import (
	"fmt"
	"os"
	"path/filepath"
	"strings"
)

// A Tree is the folder of a module.
type Tree struct {
	Folder string
	Module string            // its path
	Places map[string]string // the folder of each import path, by the walk
}

// IsElement says whether a word may be an element of an import path of apigate's.
func IsElement(word string) bool {
	if word == "" || word[0] == '-' || word[0] == '.' {
		return false
	}
	for i := 0; i < len(word); i++ {
		b := word[i]
		letter := 'a' <= b && b <= 'z' || 'A' <= b && b <= 'Z' || '0' <= b && b <= '9'
		if !letter && !strings.ContainsRune("-._~", rune(b)) {
			return false
		}
	}
	return true
}

// IsWalked says whether the walk goes into a folder of this name.
func IsWalked(name string) bool {
	return IsElement(name) && name[0] != '_' && name != "testdata" && name != "vendor"
}

// IsUnder says whether a path equals another or lies under it.
func IsUnder(path, top string) bool { return path == top || strings.HasPrefix(path, top+"/") }

// ModuleOf reads the path in the one module line of a go.mod.
func ModuleOf(text string) (string, error) {
	path, lines := "", 0
	for _, line := range strings.Split(text, "\n") {
		if words := strings.Fields(line); len(words) > 0 && words[0] == "module" {
			rest, _, _ := strings.Cut(strings.TrimSpace(line)[len("module"):], "//")
			path, lines = strings.Trim(strings.TrimSpace(rest), "\"`"), lines+1
		}
	}
	if lines != 1 || path == "" {
		return "", fmt.Errorf("no module line in go.mod")
	}
	for _, element := range strings.Split(path, "/") {
		if !IsElement(element) {
			return "", fmt.Errorf("no module line in go.mod: %q isn't a path that apigate takes", path)
		}
	}
	return path, nil
}

// Read walks a module's tree.
func Read(folder string) (*Tree, error) {
	text, err := os.ReadFile(filepath.Join(folder, "go.mod"))
	if err != nil {
		return nil, err
	}
	module, err := ModuleOf(string(text))
	if err != nil {
		return nil, fmt.Errorf("%s: %v", folder, err)
	}
	found := &Tree{Folder: folder, Module: module, Places: map[string]string{}}
	return found, found.walk(folder, module)
}

// Reads says whether the walk of the tree would go into a folder, which needn't be there yet.
func (t *Tree) Reads(folder string) bool {
	top, err := filepath.Abs(t.Folder)
	if err != nil {
		return false
	}
	inner, err := filepath.Abs(folder)
	if err != nil {
		return false
	}
	below, err := filepath.Rel(top, inner)
	if err != nil {
		return false
	}
	for _, element := range strings.Split(filepath.ToSlash(below), "/") {
		if element != "." && !IsWalked(element) {
			return false
		}
	}
	return true
}

func (t *Tree) walk(folder, path string) error {
	entries, err := os.ReadDir(folder)
	if err != nil {
		return err
	}
	t.Places[path] = folder
	for _, entry := range entries {
		below := filepath.Join(folder, entry.Name())
		if !entry.IsDir() || !IsWalked(entry.Name()) {
			continue
		}
		if info, err := os.Stat(filepath.Join(below, "go.mod")); err == nil && info.Mode().IsRegular() {
			continue
		}
		if err := t.walk(below, path+"/"+entry.Name()); err != nil {
			return err
		}
	}
	return nil
}
