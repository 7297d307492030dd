package ndef

// #include "calls.h"
import "C"

import (
	"errors"
	"io"
)

// ErrPayloadLength is the error where the parts of a payload have fewer or more bytes than was said.
var ErrPayloadLength = errors.New("ndef: the parts of the payload don't have the length that was said")

// steps are a record that is written in steps.
type steps struct {
	state C.ndef_writer
	count C.ndef_size
	name  []byte
	id    []byte
}

// begun begins the record, with a payload of a length; nil where there is none.
func (record *Record) begun(length uint64, form Form, position Position) *steps {
	made, how := &steps{name: []byte(record.Type), id: []byte(record.ID)}, record.writing(form, position)
	if C.ndef_writer_begin(&made.state, size(made.name), size(made.id), C.ndef_size(length), &how) != C.NDEF_OK {
		return nil
	}
	return made
}

// next writes the next bytes of the record to the buffer; its payload goes on with the part. It returns their number, how many bytes of
// the part are written, and the status.
func (steps *steps) next(part, buffer []byte) (count, taken int, status C.uint32_t) {
	before := steps.state.taken
	steps.count = 0
	status = C.ndef_writer_next(&steps.state, first(steps.name), size(steps.name), first(steps.id), size(steps.id),
		first(part), size(part), first(buffer), size(buffer), &steps.count)
	return int(steps.count), int(steps.state.taken - before), status
}

// MessageReader reads the bytes of a message as they are asked for: they are never whole in memory. Message.Reader makes one.
type MessageReader struct {
	records []Record
	form    Form
	checker *Checker
	index   int    // of the record that is read
	steps   *steps // nil before its first byte
	payload []byte // what is left of its payload
	length  int
	before  int // the bytes before this record
	err     error
}

// Reader returns a reader of the bytes that EncodeAs writes in the form. The message may not change before its end.
func (message Message) Reader(form Form) *MessageReader {
	reader := &MessageReader{records: message.Records, form: form}
	switch {
	case len(message.Records) == 0:
		reader.err = unwritable("a message", "it has no record")
	case !form.Unchecked:
		reader.checker, reader.err = NewChecker(form.Options)
	}
	return reader
}

// WriteTo writes the message to a writer in its shortest spelling, in steps; nothing where it is refused. The error is as that of Encode,
// or that of the writer.
func (message Message) WriteTo(to io.Writer) (int64, error) {
	if _, err := io.Copy(io.Discard, message.Reader(Form{})); err != nil {
		return 0, err
	}
	return io.Copy(to, message.Reader(Form{Unchecked: true}))
}

// Read reads the next bytes of the message, as many as there are and fit. The error is as that of EncodeAs, in place of the bytes from the
// refused one on; io.EOF after the message.
func (reader *MessageReader) Read(buffer []byte) (int, error) {
	filled := 0
	for filled < len(buffer) && reader.err == nil {
		filled += reader.step(buffer[filled:])
	}
	if filled > 0 {
		return filled, nil
	}
	return 0, reader.err
}

// step reads the next bytes of the record, and goes on to the next one where it is whole.
func (reader *MessageReader) step(buffer []byte) int {
	if reader.index == len(reader.records) {
		reader.err = io.EOF
		return 0
	}
	record := &reader.records[reader.index]
	if reader.steps == nil {
		reader.payload = record.Payload
		reader.steps = record.begun(uint64(len(record.Payload)), reader.form, positionOf(reader.index, len(reader.records)))
	}
	if reader.steps == nil {
		reader.err = record.withoutSpelling(reader.index)
		return 0
	}
	count, taken, status := reader.steps.next(reader.payload, buffer)
	if status != C.NDEF_OK {
		reader.index, reader.steps, reader.before = reader.index+1, nil, reader.length
		return 0
	}
	reader.payload = reader.payload[taken:]
	accepted := reader.check(record, buffer[:count])
	reader.length += accepted
	return accepted
}

// check returns how many of the bytes of the record are accepted.
func (reader *MessageReader) check(record *Record, bytes []byte) int {
	if reader.checker == nil {
		return len(bytes)
	}
	_, err := reader.checker.Feed(bytes)
	refusal, is := err.(*Refusal)
	if !is {
		return len(bytes)
	}
	reader.err = &RecordError{Record: reader.index, Refusal: &Refusal{Place: refusal.Place - reader.before, Reason: refusal.Reason},
		Sentence: reader.sentence(record, refusal.Reason)}
	return refusal.Place - reader.length
}

// sentence is what was wanted in the record alone, where that is refused for the reason, or else what the reason means.
func (reader *MessageReader) sentence(record *Record, reason Reason) string {
	how := record.writing(Form{}, Only)
	single, _ := record.appendTo(nil, &how)
	if _, _, err := reader.form.Options.Check(single); err != nil {
		refusal, is := err.(*Refusal)
		if sentence, _ := reader.form.Options.Why(single); is && refusal.Reason == reason && sentence != "" {
			return sentence
		}
	}
	return reason.Sentence()
}

// RecordWriter writes a record whose payload comes in parts: it is never whole in memory. What is written isn't checked beyond the
// record: a reader may refuse the message.
type RecordWriter struct {
	to     io.Writer
	steps  *steps
	buffer [512]byte
	err    error
}

// NewRecordWriter writes the head, the type and the id of a record, and then record.Payload, with which the payload begins. The payload
// has length bytes in all. The options of the form aren't used. The error is that the record has no spelling, as of a payload of more
// than 4294967295 bytes, ErrPayloadLength, or that of the writer.
func NewRecordWriter(to io.Writer, record Record, length int64, position Position, form Form) (*RecordWriter, error) {
	made := &RecordWriter{to: to, steps: record.begun(uint64(length), form, position)}
	if made.steps == nil {
		return nil, unwritable("a record", "its type doesn't fit its type name format, or a part is too long")
	}
	if _, err := made.Write(record.Payload); err != nil {
		return nil, err
	}
	return made, nil
}

// Write writes a part of the payload. Where it has more bytes than are left, none of them is written, and the error is ErrPayloadLength.
// After an error of the writer each call returns that.
func (writer *RecordWriter) Write(part []byte) (int, error) {
	written := 0
	for writer.err == nil {
		count, taken, status := writer.steps.next(part[written:], writer.buffer[:])
		if status == C.NDEF_BAD_ARGUMENT {
			return written, ErrPayloadLength
		}
		if status != C.NDEF_OK {
			return written, nil
		}
		if _, writer.err = writer.to.Write(writer.buffer[:count]); writer.err != nil {
			break
		}
		written += taken
		if count < len(writer.buffer) {
			return written, nil
		}
	}
	return written, writer.err
}

// Close ends the record. Where bytes of the payload are missing, the error is ErrPayloadLength. It doesn't close the writer.
func (writer *RecordWriter) Close() error {
	if _, _, status := writer.steps.next(nil, nil); writer.err == nil && status != C.NDEF_END {
		return ErrPayloadLength
	}
	return writer.err
}
