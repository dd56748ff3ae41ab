// Digests of files, kept from one run to the next: those of a file that has the size, times and number that it had, and by its bytes the digest
// of what counts in one that was parsed before.
package main

import (
	"bytes"
	"crypto/sha256"
	"encoding/hex"
	"fmt"
	"os"
	"path/filepath"
	"regexp"
	"strconv"
	"strings"
	"time"
)

// moment is how long a file may have been still, and yet have changed within one tick of its system's clock.
const moment = 2 * time.Second

// more is how many lines of earlier runs are kept besides.
const more = 1000

// largest is how many bytes of a file apigate reads at most.
const largest = 4 << 20

var (
	oldForm = regexp.MustCompile(`(?m)^//[ \t]*\+build[ \t]`)
	newForm = regexp.MustCompile(`(?m)^//go:build[ \t]`)
)

type sum [sha256.Size]byte

// digests are what is known of a file: the digest of its bytes, that of what counts in it, and whether its build lines are of the old form alone.
type digests struct {
	whole, outer sum
	isOld        bool
}

// known are the digests of an earlier run, by what tells a file apart without reading it, and by a file's bytes.
type known struct {
	begun   time.Time
	stamped map[string]digests
	whole   map[sum]digests
	lines   []string
}

// before reads the digests of an earlier run; what can't be read is none.
func before(path string) *known {
	found := &known{time.Now(), map[string]digests{}, map[sum]digests{}, nil}
	text, err := os.ReadFile(path)
	if path == "" || err != nil {
		return found
	}
	end, rest, _ := strings.Cut(string(text), "\n")
	if end != fmt.Sprintf("%x", sha256.Sum256([]byte(rest))) {
		return found
	}
	for _, line := range strings.Split(rest, "\n") {
		words := strings.SplitN(line, " ", 4)
		if len(words) != 4 {
			continue
		}
		var one digests
		hex.Decode(one.whole[:], []byte(words[0]))
		hex.Decode(one.outer[:], []byte(words[1]))
		one.isOld = words[2] == "old"
		found.whole[one.whole] = one
		found.lines = append(found.lines, line+"\n")
		if words[3] != "-" {
			found.stamped[words[3]] = one
		}
	}
	return found
}

// stampOf is a text that is another one once a file was changed; nothing where that can't be told, as of a file that has just been changed.
func (k *known) stampOf(place string) string {
	info, err := os.Lstat(place)
	if err != nil || !info.Mode().IsRegular() {
		return ""
	}
	told, last := numbers(info)
	if told == "" || !last.Before(k.begun.Add(-moment)) {
		return ""
	}
	return told + " " + strconv.Quote(place)
}

// isOldForm says whether a file has build lines of the old form alone; one that is too large for apigate hasn't.
func isOldForm(text []byte) bool {
	return len(text) <= largest && bytes.Contains(text, []byte("+build")) && oldForm.Match(text) && !newForm.Match(text)
}

// keep writes the digests of this run before the earlier ones, of which some go on. Where they can't be kept, the next run makes them anew.
func (k *known) keep(path string, all []digests, stamps []string) {
	var lines strings.Builder
	written := map[string]bool{}
	for i, one := range all {
		form, stamp := "new", stamps[i]
		if one.isOld {
			form = "old"
		}
		if stamp == "" {
			stamp = "-"
		}
		line := fmt.Sprintf("%x %x %s %s\n", one.whole, one.outer, form, stamp)
		written[line] = true
		lines.WriteString(line)
	}
	for at := 0; at < len(k.lines) && len(written) < 2*len(all)+more; at++ {
		if !written[k.lines[at]] {
			written[k.lines[at]] = true
			lines.WriteString(k.lines[at])
		}
	}
	text := []byte(fmt.Sprintf("%x\n%s", sha256.Sum256([]byte(lines.String())), lines.String()))
	if was, err := os.ReadFile(path); err == nil && bytes.Equal(was, text) {
		return
	}
	made, err := os.CreateTemp(filepath.Dir(path), filepath.Base(path)+".")
	if err != nil {
		return
	}
	_, err = made.Write(text)
	if made.Close(); err == nil {
		err = os.Rename(made.Name(), path)
	}
	if err != nil {
		os.Remove(made.Name())
	}
}
