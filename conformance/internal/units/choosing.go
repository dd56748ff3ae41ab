package units

import (
	"fmt"
	"go/build"
	"path/filepath"
	"strings"
)

// lastRelease is the last release of Go 1 whose tag the gate holds.
const lastRelease = 21

// Chosen is go/build's choice of a file on a platform: true, false, or its refusal.
func Chosen(platform, path string) string {
	system, architecture, _ := strings.Cut(platform, "-")
	context := build.Default
	context.GOOS, context.GOARCH = system, architecture
	context.Compiler, context.CgoEnabled, context.ToolTags = "gc", false, nil
	context.ReleaseTags = nil
	for release := 1; release <= lastRelease; release++ {
		context.ReleaseTags = append(context.ReleaseTags, fmt.Sprintf("go1.%d", release))
	}
	matches, err := context.MatchFile(filepath.Dir(path), filepath.Base(path))
	switch {
	case err != nil:
		return "refused " + err.Error()
	case matches:
		return "true"
	}
	return "false"
}
