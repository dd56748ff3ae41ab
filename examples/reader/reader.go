// Package reader reads into a buffer that grows.
package reader

// A Reader holds what was read.
type Reader struct{ buffer []byte }

const (
	growth = 1.5
	limit  = growth * 64
)

// Room makes room for n bytes more.
func (r *Reader) Room(n int) []byte {
	for cap(r.buffer)-len(r.buffer) < n {
		r.buffer = append(make([]byte, 0, int(float64(cap(r.buffer)+1)*growth)), r.buffer...)
	}
	return r.buffer[len(r.buffer) : len(r.buffer)+n]
}

// Large tells whether the buffer is larger than it should be.
func (r *Reader) Large() bool { return float64(len(r.buffer)) > limit }
