package ndef

// #include "ndef.h"
import "C"

import (
	"bufio"
	"errors"
	"io"
)

// Checker checks a message that arrives in parts. Of its bytes it holds those of one type at most, while that arrives in
// parts. The zero value is that of NewChecker with the zero Options.
type Checker struct {
	state    C.ndef_checker
	fed      C.ndef_checked
	hasBegun bool
}

// NewChecker begins a check. The error is ErrLimits.
func NewChecker(options Options) (*Checker, error) {
	checker := new(Checker)
	if !checker.begin(options) {
		return nil, ErrLimits
	}
	return checker, nil
}

// begin begins the check, and returns whether the limits are in range.
func (checker *Checker) begin(options Options) bool {
	limits := options.limits()
	checker.hasBegun = true
	return C.ndef_begin(&limits, &checker.state) == C.NDEF_OK
}

// Feed checks the next bytes, of which there may be none. It returns whether the bytes fed so far hold a whole message,
// whose length Place returns. The error is a *Refusal. After either, every later call returns the same.
func (checker *Checker) Feed(bytes []byte) (whole bool, err error) {
	if !checker.hasBegun {
		checker.begin(Options{})
	}
	switch C.ndef_feed(&checker.state, first(bytes), size(bytes), &checker.fed) {
	case C.NDEF_OK:
		return true, nil
	case C.NDEF_MORE:
		return false, nil
	default:
		return false, refused(&checker.fed)
	}
}

// Write feeds the bytes, as an io.Writer. It returns how many of them the message takes; the error is a *Refusal, or a *Trailing where
// bytes follow the message.
func (checker *Checker) Write(bytes []byte) (int, error) {
	before := checker.Place()
	whole, err := checker.Feed(bytes)
	taken := checker.Place() - before
	if whole && taken < len(bytes) {
		err = &Trailing{Place: checker.Place()}
	}
	return taken, err
}

// Place returns the length of the whole message, the offset of the refused byte, or else the number of bytes fed.
func (checker *Checker) Place() int { return int(checker.fed.place) }

// Reader reads messages that follow one another in a source. The zero value has no source: its Next returns io.EOF.
type Reader struct {
	source  *bufio.Reader
	options Options
}

// NewReader returns a reader of the messages of a source. It reads ahead, unless the source is a *bufio.Reader: then
// the source is positioned just past each message after Next.
func NewReader(source io.Reader, options Options) *Reader {
	buffered, is := source.(*bufio.Reader)
	if !is {
		buffered = bufio.NewReader(source)
	}
	return &Reader{source: buffered, options: options}
}

// Next reads the next message. At the end of the source the error is io.EOF. Where the source fails within a message the
// error is that of the source, and the bytes of the message so far are consumed. Where bytes are refused, also because
// the source ends within a message, the error is a *Refusal whose offset counts from the first byte of the message; the
// bytes before the refused one are consumed.
func (reader *Reader) Next() (*Message, error) {
	if reader.source == nil {
		return nil, io.EOF
	}
	checker, err := NewChecker(reader.options)
	if err != nil {
		return nil, err
	}
	var taken []byte
	for {
		seen, err := reader.ahead()
		if err != nil {
			return nil, atEnd(err, len(taken))
		}
		whole, refusal := checker.Feed(seen)
		mine := checker.Place() - len(taken)
		taken = append(taken, seen[:mine]...)
		if _, err := reader.source.Discard(mine); err != nil {
			return nil, err
		}
		if whole {
			return &Message{Records: recordsOf(taken)}, nil
		}
		if refusal != nil {
			return nil, refusal
		}
	}
}

// ahead returns the bytes that the source gives next, at least one, and doesn't consume them.
func (reader *Reader) ahead() ([]byte, error) {
	if _, err := reader.source.Peek(1); err != nil {
		return nil, err
	}
	return reader.source.Peek(reader.source.Buffered())
}

// atEnd returns the error where the source gives no further byte.
func atEnd(err error, taken int) error {
	if errors.Is(err, io.EOF) && taken > 0 {
		return &Refusal{Place: taken, Reason: EndOfInput}
	}
	return err
}
