package io

type Writer interface {
	Write(from []byte) (count int, err error)
}

type Reader interface {
	Read(into []byte) (count int, err error)
}

type Closer interface{ Close() error }
