package ndef

import (
	"bytes"
	"errors"
	"io"
	"reflect"
	"strings"
	"testing"
	"testing/iotest"
)

func TestReadersOfMessages(t *testing.T) {
	message := &Message{Records: []Record{{TNF: WellKnown, Type: "T", Payload: []byte("\x02enHello")}, {TNF: Unknown, Payload: make([]byte, 70000)}}}
	whole, err := message.Encode()
	if err != nil {
		t.Fatal(err)
	}
	if err := iotest.TestReader(message.Reader(Form{}), whole); err != nil {
		t.Error(err)
	}
	var to bytes.Buffer
	if count, err := message.WriteTo(&to); count != int64(len(whole)) || err != nil || !bytes.Equal(to.Bytes(), whole) {
		t.Error(count, err)
	}
	var _ io.WriterTo = message
	failing := errors.New("no cable")
	if _, err := message.WriteTo(&failingWriter{100, failing}); err != failing {
		t.Error(err)
	}
}

// A failingWriter takes some bytes and fails then.
type failingWriter struct {
	left int
	err  error
}

func (writer *failingWriter) Write(part []byte) (int, error) {
	if len(part) > writer.left {
		return 0, writer.err
	}
	writer.left -= len(part)
	return len(part), nil
}

func TestStepsOfWhatIsRefused(t *testing.T) {
	for name, want := range refusedRecords {
		message := &Message{Records: []Record{{TNF: Media, Type: "a/b", ID: "x"}, want.record}}
		unchecked, err := message.EncodeAs(Form{Unchecked: true})
		if err != nil {
			t.Fatal(err)
		}
		reader := message.Reader(Form{})
		read, err := io.ReadAll(iotest.OneByteReader(reader))
		var wrong *RecordError
		if !errors.As(err, &wrong) || wrong.Record != 1 || wrong.Refusal == nil || wrong.Refusal.Place != want.place || wrong.Refusal.Reason != want.reason ||
			wrong.Sentence == "" || want.sentence != "" && wrong.Sentence != want.sentence {
			t.Errorf("%s: %v", name, err)
			continue
		}
		if front := unchecked[:len("\x9a\x03\x00\x01a/bx")+want.place]; !bytes.Equal(read, front) {
			t.Errorf("%s: %x is not %x", name, read, front)
		}
		if _, again := reader.Read(make([]byte, 9)); again != err {
			t.Errorf("%s: %v", name, again)
		}
		if read, err := io.ReadAll(message.Reader(Form{Unchecked: true})); err != nil || !bytes.Equal(read, unchecked) {
			t.Errorf("%s: %v", name, err)
		}
		// A buffer that takes all has the same bytes.
		if buffer := make([]byte, len(unchecked)+1); true {
			if count, _ := message.Reader(Form{}).Read(buffer); !bytes.Equal(buffer[:count], read) {
				t.Errorf("%s: %x is not %x", name, buffer[:count], read)
			}
		}
	}
	two := &Message{Records: []Record{{TNF: Unknown}, {TNF: Unknown}}}
	limits := DefaultLimits()
	limits.Records = 1
	var wrong *RecordError
	if _, err := io.ReadAll(two.Reader(Form{Options: Options{Limits: &limits}})); !errors.As(err, &wrong) || wrong.Record != 0 || wrong.Refusal.Place != 0 ||
		wrong.Refusal.Reason != ReasonTooManyRecords || wrong.Sentence != ReasonTooManyRecords.Sentence() {
		t.Error(err)
	}
	if _, err := io.ReadAll(two.Reader(Form{Options: Options{Limits: new(Limits)}})); err != ErrLimits {
		t.Error(err)
	}
	none := &Message{Records: []Record{{TNF: Unknown}, {TNF: Media}}}
	if _, err := io.ReadAll(none.Reader(Form{})); !errors.As(err, &wrong) || wrong.Record != 1 || wrong.Refusal != nil {
		t.Error(err)
	}
	if _, err := io.ReadAll(new(Message).Reader(Form{})); err == nil || err.Error() != "ndef: a message can't be written: it has no record" {
		t.Error(err)
	}
}

func TestPayloadsOfAnotherLength(t *testing.T) {
	var to bytes.Buffer
	begin := func(payload string, length int64) (*RecordWriter, error) {
		to.Reset()
		return NewRecordWriter(&to, Record{TNF: Unknown, Payload: []byte(payload)}, length, Only, Form{})
	}
	writer, err := begin("", 3)
	if err != nil || to.String() != "\xd5\x00\x03" {
		t.Fatal(err)
	}
	if err := writer.Close(); err != ErrPayloadLength {
		t.Error(err)
	}
	if count, err := io.WriteString(writer, "ab"); count != 2 || err != nil {
		t.Error(count, err)
	}
	if count, err := io.WriteString(writer, "cd"); count != 0 || err != ErrPayloadLength || to.String() != "\xd5\x00\x03ab" {
		t.Error(count, err)
	}
	if err := writer.Close(); err != ErrPayloadLength {
		t.Error(err)
	}
	// None of that part was written, so another one can follow.
	if count, err := io.WriteString(writer, "e"); count != 1 || err != nil || writer.Close() != nil || to.String() != "\xd5\x00\x03abe" {
		t.Error(count, err)
	}
	if count, err := io.WriteString(writer, "f"); count != 0 || err != ErrPayloadLength {
		t.Error(count, err)
	}
	if count, err := writer.Write(nil); count != 0 || err != nil {
		t.Error(count, err)
	}
	if writer, err := begin("abcd", 3); writer != nil || err != ErrPayloadLength || to.Len() != 0 {
		t.Error(err)
	}
	for _, length := range []int64{-1, 1 << 32} {
		if writer, err := begin("", length); writer != nil || err == nil || to.Len() != 0 {
			t.Error(length, err)
		}
	}
	for _, record := range []Record{{TNF: Media}, {TNF: Empty}, {TNF: Unknown, ID: strings.Repeat("x", 256)}} {
		if writer, err := NewRecordWriter(&to, record, 1, Only, Form{}); writer != nil || err == nil {
			t.Error(record, err)
		}
	}
}

func TestErrorsOfWriters(t *testing.T) {
	failing := errors.New("no cable")
	if writer, err := NewRecordWriter(&failingWriter{2, failing}, Record{TNF: Unknown}, 9, Only, Form{}); writer != nil || err != failing {
		t.Error(err)
	}
	writer, err := NewRecordWriter(&failingWriter{1000, failing}, Record{TNF: Unknown}, 9000, Only, Form{})
	if err != nil {
		t.Fatal(err)
	}
	if count, err := writer.Write(make([]byte, 9000)); count != 512 || err != failing {
		t.Error(count, err)
	}
	if _, err := writer.Write([]byte("a")); err != failing || writer.Close() != failing {
		t.Error(err)
	}
}

// A value has the methods of what points to it.
var _, _ Value = SmartPoster{}, new(SmartPoster)

func TestACheckerIsAWriter(t *testing.T) {
	whole, _ := Message{Records: []Record{{TNF: Unknown, Payload: []byte("ab")}}}.Encode()
	for cut := range whole {
		for rest, want := range map[string]error{"": nil, "x": &Trailing{Place: len(whole)}} {
			checker := new(Checker)
			first, firstErr := checker.Write(whole[:cut])
			second, err := checker.Write(append(whole[cut:len(whole):len(whole)], rest...))
			if first != cut || firstErr != nil || first+second != len(whole) || !reflect.DeepEqual(err, want) {
				t.Errorf("%d, %d, %v, %v", first, second, firstErr, err)
			}
		}
	}
	taken, err := new(Checker).Write([]byte{0xD1, 1, 3, 'T', 0x42, 'e', 'n'})
	if taken != 4 || !errors.Is(err, ReasonTextBit) || errors.Is(err, ReasonLanguage) {
		t.Errorf("%d, %v", taken, err)
	}
}
