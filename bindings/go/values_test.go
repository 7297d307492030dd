package ndef

import (
	"bufio"
	"bytes"
	"errors"
	"fmt"
	"io"
	"strings"
	"sync"
	"testing"
	"testing/iotest"
	"time"
)

func pointerTo[T any](value T) *T { return &value }

// values are values of each kind, with two of all that there can be several of.
func values() []Value {
	carriers := []AlternativeCarrier{
		{Power: Active, Reference: "wifi", Auxiliary: []string{"a", "b"}}, {Power: UnknownPower, Reference: "ble"}}
	return []Value{
		Text{Language: "en", Text: "Hello"}, Text{Language: "de", Text: "Grüße", UTF16: true}, Text{},
		URI("https://www.example.com/a"), URI(""),
		&SmartPoster{URI: "tel:+1", Titles: []Text{{Language: "en", Text: "Call"}, {Language: "de", Text: "Anruf", UTF16: true}},
			Action: pointerTo(Save), Size: pointerTo(uint32(258)), MediaType: pointerTo("text/html"),
			Icons: []Icon{{MediaType: "image/png", Data: []byte{1, 2}}, {MediaType: "image/gif", Data: []byte{3}}}},
		&SmartPoster{Action: pointerTo(Do), Size: pointerTo(uint32(0)), MediaType: pointerTo("")},
		&HandoverRequest{Minor: 2, Collision: 0x1234, Carriers: carriers},
		&HandoverSelect{Minor: 15, Carriers: carriers, Error: &HandoverError{Reason: 2, Data: []byte{0, 0, 1, 2}, Number: pointerTo(uint32(258))}},
		&HandoverCarrier{Format: 1, Type: "a/b", Data: []byte{5, 6}},
	}
}

func TestNothingIsShared(t *testing.T) {
	given := []byte{0xD1, 1, 8, 'T', 2, 'e', 'n', 'H', 'e', 'l', 'l', 'o'}
	message, err := Parse(given)
	if err != nil {
		t.Fatal(err)
	}
	for index := range given {
		given[index] = 0
	}
	if value, err := message.Records[0].Value(); err != nil || value != (Text{Language: "en", Text: "Hello"}) {
		t.Errorf("%v, %v", value, err)
	}
	long := strings.Repeat("b", 20)
	two := append([]byte{0x91, 1, 1, 'x', 'a', 0x51, 1, 20, 'y'}, long...)
	if message, err = Parse(two); err != nil {
		t.Fatal(err)
	}
	_ = append(message.Records[0].Payload, make([]byte, 10)...)
	if string(message.Records[1].Payload) != long {
		t.Errorf("what is appended to a payload is in the next one: %q", message.Records[1].Payload)
	}
}

// TestNumbers holds the constants to the numbers of Connection Handover 1.2 and RTD Smart Poster 1.0.
func TestNumbers(t *testing.T) {
	if Inactive != 0 || Active != 1 || Activating != 2 || UnknownPower != 3 || Do != 0 || Save != 1 || Open != 2 {
		t.Error("a power state or an action has another number")
	}
}

func TestErrors(t *testing.T) {
	if _, err := Parse([]byte{0xD0, 0, 0, 7}); !errors.As(err, new(*Trailing)) || !strings.Contains(err.Error(), "byte 3") {
		t.Errorf("%v", err)
	}
	if _, err := Parse([]byte{0x57}); err.Error() != "refused at 0: ReservedTnf: The type name format 7 is reserved." {
		t.Errorf("%v", err)
	}
	limits := DefaultLimits()
	limits.Records = 0
	options := Options{Limits: &limits}
	_, checkerErr := NewChecker(options)
	_, readerErr := NewReader(strings.NewReader("x"), options).Next()
	_, parseErr := options.Parse(nil)
	_, fieldsErr := Options{Opaque: true}.Fields(nil)
	for _, err := range []error{checkerErr, readerErr, parseErr, fieldsErr} {
		if err != ErrLimits {
			t.Errorf("%v", err)
		}
	}
	if _, err := new(Message).Encode(); err == nil {
		t.Error("a message without records is written")
	}
	for _, value := range []Value{Text{Language: "é"}, Text{Text: "\xff"}, URI("\xff"), &SmartPoster{URI: "\xff"},
		&HandoverRequest{Minor: 16}, &HandoverSelect{Minor: 16}, &HandoverSelect{Error: &HandoverError{Reason: 1}}, &HandoverCarrier{Format: 8},
		&HandoverSelect{Carriers: []AlternativeCarrier{{Power: 4}}}} {
		if record, err := value.Record(); err == nil {
			t.Errorf("%+v is written as %+v", value, record)
		}
	}
	for _, record := range []Record{{TNF: 7}, {TNF: WellKnown}, {TNF: Empty, ID: "x"}, {TNF: Media, Type: strings.Repeat("x", 256)}} {
		if bytes, err := (&Message{Records: []Record{{}, record}}).Encode(); err == nil || !strings.Contains(err.Error(), "record 1") {
			t.Errorf("%+v is written as %x, %v", record, bytes, err)
		}
	}
	for _, index := range []int{-1, 0, 1} {
		if _, err := (&Message{Records: []Record{{}}}).Links(index); err != ErrPlace {
			t.Errorf("%v", err)
		}
	}
}

func TestReader(t *testing.T) {
	one, two := []byte{0xD0, 0, 0}, []byte{0xD5, 0, 2, 1, 2}
	source := bufio.NewReader(bytes.NewReader(append(append(append([]byte{}, one...), two...), 0xD0, 7)))
	reader := NewReader(source, Options{})
	if first, err := reader.Next(); err != nil || len(first.Records) != 1 || source.Buffered() != 7 {
		t.Fatalf("%v, %v, %d", first, err, source.Buffered())
	}
	if second, err := reader.Next(); err != nil || !bytes.Equal(second.Records[0].Payload, two[3:]) {
		t.Fatalf("%v, %v", second, err)
	}
	if _, err := reader.Next(); err == nil || source.Buffered() != 1 {
		t.Fatalf("%v, %d", err, source.Buffered())
	}
	if _, err := NewReader(strings.NewReader(""), Options{}).Next(); err != io.EOF {
		t.Error(err)
	}
	broken := io.MultiReader(bytes.NewReader(two[:4]), iotest.ErrReader(iotest.ErrTimeout))
	if _, err := NewReader(broken, Options{}).Next(); err != iotest.ErrTimeout {
		t.Error(err)
	}
}

// A source that gives a message and nothing more for the time being: the message is read, whatever comes.
func TestReaderOfASourceThatWaits(t *testing.T) {
	source, to := io.Pipe()
	defer source.Close()
	go to.Write([]byte{0xD5, 0, 2, 1, 2})
	read := make(chan error)
	go func() {
		_, err := NewReader(source, Options{}).Next()
		read <- err
	}()
	select {
	case err := <-read:
		if err != nil {
			t.Error(err)
		}
	case <-time.After(20 * time.Second):
		t.Error("a whole message is not read before more comes")
	}
}

func TestManyAtOnce(t *testing.T) {
	given := []byte{0xD1, 1, 8, 'T', 2, 'e', 'n', 'H', 'e', 'l', 'l', 'o'}
	message, _ := Parse(given)
	var group sync.WaitGroup
	for worker := 0; worker < 8; worker++ {
		group.Add(1)
		go func() {
			defer group.Done()
			for count := 0; count < 2000; count++ {
				value, err := message.Records[0].Value()
				if _, parseErr := Parse(given); err != nil || parseErr != nil || value.(Text).Text != "Hello" {
					t.Error(value, err, parseErr)
				}
			}
		}()
	}
	group.Wait()
}

// timeOf is the least time of ten runs.
func timeOf(run func()) time.Duration {
	least := time.Hour
	for round := 0; round < 10; round++ {
		begun := time.Now()
		run()
		if taken := time.Since(begun); taken < least {
			least = taken
		}
	}
	return least
}

// grows says where ten times as many records take much more than ten times as long.
func grows(t *testing.T, run func(options Options, message *Message) error) {
	var before time.Duration
	for _, count := range []int{100, 1000, 10000} {
		message := &Message{Records: make([]Record, count)}
		limits := DefaultLimits()
		limits.Records = uint32(count)
		taken := timeOf(func() {
			if err := run(Options{Limits: &limits}, message); err != nil {
				t.Fatal(err)
			}
		})
		if t.Logf("%d records: %v", count, taken); before != 0 && taken > 60*before+time.Millisecond {
			t.Errorf("%d records take %v, a tenth of them %v", count, taken, before)
		}
		before = taken
	}
}

func TestGrowth(t *testing.T) {
	grows(t, func(options Options, message *Message) error {
		encoded, err := message.EncodeAs(Form{Options: options})
		if err != nil {
			return err
		}
		if _, err = options.Parse(encoded); err != nil {
			return err
		}
		if _, err = options.Fields(encoded); err != nil {
			return err
		}
		_, err = NewReader(bytes.NewReader(encoded), options).Next()
		return err
	})
}

// The messages lack their last byte, or follow one byte of what surrounds a message on a tag.
func TestGrowthOfSentences(t *testing.T) {
	grows(t, func(options Options, message *Message) error {
		encoded, err := message.EncodeAs(Form{Options: options})
		if err != nil {
			return err
		}
		if why, err := options.Why(encoded[:len(encoded)-1]); err != nil || why == "" {
			return fmt.Errorf("said is %q, %v", why, err)
		}
		if hint, err := options.Hint(append([]byte{3}, encoded...)); err != nil || hint == "" {
			return fmt.Errorf("said is %q, %v", hint, err)
		}
		RecordWarning(encoded, len(message.Records)-1)
		return nil
	})
}

// Each kind of hint has a sentence, whatever the library knows of it.
func TestTextsOfHints(t *testing.T) {
	for kind := HintTLV; kind <= HintOd; kind++ {
		if text := (&FoundHint{Kind: kind}).String(); !strings.HasSuffix(text, ".") && !strings.HasSuffix(text, "?") {
			t.Errorf("the kind %d has the sentence %q", kind, text)
		}
	}
}
