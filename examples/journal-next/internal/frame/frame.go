// Package frame puts marks around records.
package frame

// A Frame is what stands around a text.
type Frame struct {
	Head string
	size int
}

// Of makes the frame of a text.
func Of(text string) Frame {
	return Frame{Head: "> ", size: len(text)}
}
