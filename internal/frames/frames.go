package frames

import (
	"bufio"
	"fmt"
	"io"
	"os"
	"strconv"
	"strings"
)

// Frames calls the function with each source on the input, until it answers false. A source is a line with
// its length in bytes, then the bytes.
func Frames(each func([]byte) bool) {
	in := bufio.NewReaderSize(os.Stdin, 1<<20)
	for {
		line, err := in.ReadString('\n')
		if err == io.EOF && line == "" {
			return
		}
		length, bad := strconv.Atoi(strings.TrimSuffix(line, "\n"))
		if err != nil || bad != nil {
			fmt.Fprintln(os.Stderr, "not a frame")
			os.Exit(2)
		}
		source := make([]byte, length)
		if _, err := io.ReadFull(in, source); err != nil {
			fmt.Fprintln(os.Stderr, "not a frame")
			os.Exit(2)
		}
		if !each(source) {
			return
		}
	}
}
