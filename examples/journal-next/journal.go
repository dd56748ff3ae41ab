// Package journal writes records of what happened, one to a line.
package journal

import (
	"errors"
	"fmt"
	"io"
	"sync"
	"time"

	"example.org/journal/internal/frame"
	"example.org/journal/level"
)

const (
	// Patience is how long a journal waits before it flushes what was added.
	Patience = 3 * time.Second
	// Most is the greatest number of bytes in a record.
	Most = 1 << 16
)

// ErrLong is the error of a record that is too long.
var ErrLong = errors.New("journal: the record is too long")

// A Sink takes what a journal writes.
type Sink interface {
	io.Writer
	io.Closer
	Flush() error
	// Sync ends once what was flushed is safe.
	Sync() error
}

// A Record is a text with its level and the time since the journal began.
type Record struct {
	Level level.Level
	After time.Duration
	Text  string
	frame frame.Frame
	marks []string
}

var _ fmt.Stringer = Record{}

// String gives the record as it stands in the journal.
func (r Record) String() string {
	return fmt.Sprintf("%v %v %s", r.After, r.Level, r.Text)
}

// A Journal adds records to a sink, those of one level or above.
type Journal struct {
	sync.Mutex
	Least level.Level
	begun time.Duration
	sink  Sink
}

// New gives a journal over a sink.
func New(sink Sink) *Journal {
	return &Journal{sink: sink}
}

// Add writes records, and says how many.
func (j *Journal) Add(records ...Record) (int, error) {
	j.Lock()
	defer j.Unlock()
	for at, one := range records {
		if len(one.Text) > Most {
			return at, ErrLong
		}
		one.frame = frame.Of(one.Text)
		if _, err := io.WriteString(j.sink, one.frame.Head+one.String()); err != nil {
			return at, err
		}
	}
	if err := j.sink.Flush(); err != nil {
		return len(records), err
	}
	return len(records), j.sink.Sync()
}

// Each returns a function that gives the records of a reader one after another.
func Each(from io.Reader, most time.Duration) func() (*Record, error) {
	return func() (*Record, error) { return nil, io.EOF }
}
