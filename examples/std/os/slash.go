//go:build !windows

package os

const PathSeparator = '/'
