package main

import (
	"fmt"
	"io/fs"
	"syscall"
	"time"
)

// numbers are what a system changes with each change of a file, and when the last one was.
func numbers(info fs.FileInfo) (string, time.Time) {
	told, is := info.Sys().(*syscall.Stat_t)
	if !is {
		return "", time.Time{}
	}
	last, changed := info.ModTime(), time.Unix(told.Ctim.Unix())
	text := fmt.Sprintf("%d %d %d %d %d", told.Dev, told.Ino, told.Size, last.UnixNano(), changed.UnixNano())
	if last.Before(changed) {
		last = changed
	}
	return text, last
}
