// Package place says where journals lie.
package place

import "os"

// Separator stands between the parts of a journal's path.
const Separator = os.PathSeparator

// A Finder finds the path of a journal by its name.
type Finder func(name string) (path string, found bool)
