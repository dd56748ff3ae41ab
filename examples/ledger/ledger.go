// Package ledger keeps a journal in memory. It is a client of package journal.
package ledger

import "example.org/journal"

// A memory is a sink that keeps what it takes.
type memory struct {
	taken []byte
}

func (m *memory) Write(piece []byte) (int, error) {
	m.taken = append(m.taken, piece...)
	return len(piece), nil
}

func (m *memory) Flush() error { return nil }

func (m *memory) Close() error { return nil }

// Keep adds a record, and says what stands in memory then.
func Keep(text string) (string, error) {
	sink := &memory{}
	kept := journal.New(sink)
	if _, err := kept.Add(journal.Record{Text: text}); err != nil {
		return "", err
	}
	return string(sink.taken), nil
}
