// Where packages lie outside of a module: Go's own in GOROOT, others where the command `go` or GOPATH has them.
package main

import (
	"go/build"
	"os"
	"os/exec"
	"path/filepath"
	"strings"

	"apigate/internal/trees"
)

// vendored begins the paths under which Go's own packages hold copies of others.
const vendored = "vendor/"

func isFolder(path string) bool {
	info, err := os.Stat(path)
	return err == nil && info.IsDir()
}

// A finder finds the folders of packages that lie outside of the module in one folder, on one platform.
type finder struct {
	context build.Context
	folder  string
	module  string
	listed  map[string]string
	told    func(string) // gets a line on what is taken from where nothing of the user's says so
}

// own finds a package of Go's: its whole path and folder. Those that it imports may be copies.
func (f *finder) own(path string, fromOwn bool) (string, string, bool) {
	source := filepath.Join(f.context.GOROOT, "src")
	if folder := filepath.Join(source, path); isFolder(folder) && !strings.HasPrefix(path, "cmd/") {
		return path, folder, true
	}
	if folder := filepath.Join(source, vendored, path); fromOwn && isFolder(folder) {
		return vendored + path, folder, true
	}
	return "", "", false
}

// other finds the folder of any other package.
func (f *finder) other(path string) (string, bool) {
	if f.listed == nil {
		f.listed = map[string]string{}
		if f.folder != "" {
			f.list("-deps", "./...")
		}
	}
	if _, known := f.listed[path]; !known {
		f.list("-find", "--", path)
	}
	if f.listed[path] == "" {
		f.listed[path] = f.lying(path) // what isn't found is sought once
	}
	return f.listed[path], f.listed[path] != ""
}

// lying finds a package where no command finds it: among the module's vendored ones, below GOPATH, below the GOPATH in which the module
// itself lies, and where Debian's packages put it.
func (f *finder) lying(path string) string {
	if folder := filepath.Join(f.folder, vendored, path); f.folder != "" && isFolder(folder) {
		return folder
	}
	for _, top := range filepath.SplitList(f.context.GOPATH) {
		if folder := below(top, path); folder != "" {
			return folder
		}
	}
	tops := []string{debian}
	if whole, err := filepath.Abs(f.folder); err == nil && f.folder != "" {
		if top := strings.TrimSuffix(whole, filepath.FromSlash("/src/"+f.module)); top != whole {
			tops = []string{top, debian}
		}
	}
	for _, top := range tops {
		if folder := below(top, path); folder != "" {
			f.told(path + " is taken from " + top)
			return folder
		}
	}
	return ""
}

// below is the folder of a package below a GOPATH; a major number in its path may stand in go.mod alone.
func below(top, path string) string {
	if folder := filepath.Join(top, "src", path); isFolder(folder) {
		return folder
	}
	elements := strings.Split(path, "/")
	for i, one := range elements {
		if i == 0 || !major.MatchString("/"+one) {
			continue
		}
		module, rest := strings.Join(elements[:i], "/"), strings.Join(elements[i+1:], "/")
		text, err := os.ReadFile(filepath.Join(top, "src", module, "go.mod"))
		if said, _ := trees.ModuleOf(string(text)); err == nil && said == module+"/"+one && isFolder(filepath.Join(top, "src", module, rest)) {
			return filepath.Join(top, "src", module, rest)
		}
	}
	return ""
}

// list asks the command `go`, which is to fetch nothing.
func (f *finder) list(words ...string) {
	words = append([]string{"list", "-e", "-f", "{{if not .Standard}}{{.ImportPath}}\t{{.Dir}}{{end}}"}, words...)
	command := exec.Command("go", words...)
	command.Dir = f.folder
	command.Env = append(os.Environ(), "GOOS="+f.context.GOOS, "GOARCH="+f.context.GOARCH, "CGO_ENABLED=0", "GOPROXY=off", "GOTOOLCHAIN=local")
	out, err := command.Output()
	if err != nil {
		return
	}
	for _, line := range strings.Split(string(out), "\n") {
		if path, folder, is := strings.Cut(line, "\t"); is && folder != "" {
			f.listed[path] = folder
		}
	}
}
