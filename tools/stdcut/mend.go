// What mends an import that isn't found.
package main

import (
	"os"
	"path/filepath"
	"regexp"
	"strings"

	"apigate/internal/trees"
)

// debian is where Debian's packages of Go modules stand, or would.
const debian = "/usr/share/gocode"

// mends is the command that brings a package which a module of a tree imports, or what else there is to say.
func mends(by *trees.Tree, path string) string {
	first, _, _ := strings.Cut(path, "/")
	switch {
	case by == nil || path == "C":
		return ""
	case trees.IsUnder(path, by.Module):
		return "; the module has no such package, or it begins with . or _, or has a go.mod of its own"
	case !strings.Contains(first, "."):
		return "; this Go release has no such package"
	}
	module, command := required(by, path), "go mod download "
	if module == "" {
		module, command = path, "go get "
	}
	found := "; " + command + module
	if _, err := os.Stat("/etc/debian_version"); err == nil {
		found += ", or apt-get install " + packageOf(module)
	}
	return found
}

// required is the longest module path that the tree's go.mod names and that a package lies under.
func required(by *trees.Tree, path string) (longest string) {
	text, _ := os.ReadFile(filepath.Join(by.Folder, "go.mod"))
	for _, line := range strings.Split(string(text), "\n") {
		words := strings.Fields(strings.TrimPrefix(strings.TrimSpace(line), "require "))
		if len(words) > 1 && strings.HasPrefix(words[1], "v") && trees.IsUnder(path, words[0]) && len(words[0]) > len(longest) {
			longest = words[0]
		}
	}
	return longest
}

var major = regexp.MustCompile(`/v[0-9]+$`)

// packageOf is the name that Debian's rules give the package of a module.
func packageOf(module string) string {
	elements := strings.Split(major.ReplaceAllString(module, ""), "/")
	if most := map[string]int{"github.com": 3, "gitlab.com": 3, "bitbucket.org": 3, "golang.org": 3, "gopkg.in": 2}[elements[0]]; most > 0 && len(elements) > most {
		elements = elements[:most]
	}
	host := strings.Split(elements[0], ".")
	elements[0] = strings.Join(host[:len(host)-1], ".")
	if elements[0] == "google.golang" {
		elements[0] = "google"
	}
	name := strings.ToLower(strings.ReplaceAll(strings.Join(elements, "-"), "_", "-"))
	return "golang-" + name + "-dev"
}
