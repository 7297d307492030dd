package ndef

import (
	"io"
	"reflect"
	"strings"
	"testing"
)

// refusedRecords are records that have a spelling and that Parse refuses, with the place in the record and the reason.
var refusedRecords = map[string]struct {
	record   Record
	place    int
	reason   Reason
	sentence string
}{
	"a text of no bytes":     {Record{TNF: WellKnown, Type: "T"}, 3, ReasonDoesNotFit, "A text (`T`) has at least 1 octet; 0 were given."},
	"a reserved code":        {Record{TNF: WellKnown, Type: "U", Payload: []byte{0x24}}, 4, ReasonURICode, "The URI identifier codes from 24 to FF (hexadecimal) are reserved."},
	"a poster without a URI": {Record{TNF: WellKnown, Type: "Sp", Payload: []byte{0xD0, 0, 0}}, 4, ReasonDoesNotFit, ""},
	"a long language":        {Record{TNF: WellKnown, Type: "T", Payload: []byte{0x3F, 'a', 'b', 'c', 'd', 'e'}}, 4, ReasonDoesNotFit, "The language code has 63 octets; 5 are left in the payload."},
	"a payload of 1 MiB + 1": {Record{TNF: Unknown, Payload: make([]byte, 1<<20+1)}, 5, ReasonPayloadTooLarge, ""},
}

func TestRangesOfLimits(t *testing.T) {
	usual := DefaultLimits()
	ranges := []struct {
		of   func(*Limits) *uint32
		most uint32
	}{
		{func(limits *Limits) *uint32 { return &limits.Payload }, 4294967295},
		{func(limits *Limits) *uint32 { return &limits.Records }, 65535},
		{func(limits *Limits) *uint32 { return &limits.Chunks }, 65535},
	}
	for index, one := range ranges {
		for number, is := range map[uint32]bool{0: false, 1: true, one.most: true, one.most + 1: false} {
			limits := usual
			*one.of(&limits) = number
			if _, err := NewChecker(Options{Limits: &limits}); (err == nil) != is {
				t.Errorf("limit %d: %d: %v", index, number, err)
			}
		}
	}
}

func TestZeroValues(t *testing.T) {
	var checker Checker
	if whole, err := checker.Feed([]byte{0xD5, 0, 1}); whole || err != nil {
		t.Error(whole, err)
	}
	if whole, err := checker.Feed([]byte{7, 7}); !whole || err != nil || checker.Place() != 4 {
		t.Error(whole, err, checker.Place())
	}
	checker = Checker{}
	if _, err := checker.Feed([]byte("\xd1\x01\x01T\x40")); err == nil || checker.Place() != 4 {
		t.Error(err, checker.Place())
	}
	var reader Reader
	if message, err := reader.Next(); message != nil || err != io.EOF {
		t.Error(message, err)
	}
	if _, err := new(SmartPoster).Record(); err != nil {
		t.Error(err)
	}
}

func TestWhatIsNotWritten(t *testing.T) {
	of := func(value Value) error { _, err := value.Record(); return err }
	carriers := "its minor version is above 15, or a carrier has a power state above 3, more than 255 auxiliary references or a reference of more than 255 bytes"
	_, empty := Message{}.Encode()
	_, read := Message{}.Reader(Form{}).Read(make([]byte, 1))
	_, untyped := NewRecordWriter(io.Discard, Record{TNF: WellKnown}, 0, Only, Form{})
	for _, one := range []struct {
		err error
		why string
	}{
		{of(Text{Language: "\u00e4"}), "the text can't be written: the language code has more than 63 bytes or isn't ASCII, or the text isn't UTF-8"},
		{of(URI("\xff")), "the URI can't be written: it isn't UTF-8"},
		{of(SmartPoster{URI: "a", Icons: []Icon{{}}}), "the smart poster of \"a\" can't be written: a text isn't UTF-8, " +
			"a language code has more than 63 bytes or isn't ASCII, or the media type of an icon has none or more than 255"},
		{of(&HandoverRequest{Minor: 16}), "the request can't be written: " + carriers},
		{of(&HandoverSelect{Minor: 16}), "the select can't be written: " + carriers + ", or the data of its error don't fit the reason"},
		{of(&HandoverCarrier{Format: 8}), "the carrier can't be written: its format is above 7, or its type has more than 255 bytes"},
		{empty, "a message can't be written: it has no record"},
		{read, "a message can't be written: it has no record"},
		{untyped, "a record can't be written: its type doesn't fit its type name format, or a part is too long"},
	} {
		if one.err == nil || one.err.Error() != "ndef: "+one.why {
			t.Error(one.err)
		}
	}
}

func TestReasons(t *testing.T) {
	all := []Reason{ReasonReservedTNF, ReasonBeginMissing, ReasonBeginAgain, ReasonUnchangedOutside, ReasonChangedInside, ReasonIDInside,
		ReasonChunkAtEnd, ReasonChunkOfEmpty, ReasonTooManyPieces, ReasonTooManyRecords, ReasonTypeNotEmpty, ReasonTypeEmpty,
		ReasonEmptyNotEmpty, ReasonPayloadTooLarge, ReasonTextBit, ReasonLanguage, ReasonUTF8, ReasonUTF16, ReasonURICode,
		ReasonURIMissing, ReasonURIAgain, ReasonVersion, ReasonDoesNotFit, ReasonEndOfInput, ReasonCollisionMissing}
	names := strings.Fields(`ReservedTnf BeginMissing BeginAgain UnchangedOutside ChangedInside IdInside ChunkAtEnd ChunkOfEmpty
		TooManyPieces TooManyRecords TypeNotEmpty TypeEmpty EmptyNotEmpty PayloadTooLarge TextBit Language Utf8 Utf16 UriCode
		UriMissing UriAgain Version DoesNotFit EndOfInput CollisionMissing`)
	for index, reason := range all {
		if int(reason) != index+1 || reason.String() != names[index] {
			t.Errorf("%d is %v, not %s", reason, reason, names[index])
		}
	}
	if next := Reason(len(all) + 1).String(); next != "" && next != "unknown" {
		t.Errorf("there is the reason %s too", next)
	}
}

func TestNames(t *testing.T) {
	var said []string
	for number := 0; number < 7; number++ {
		said = append(said, TNF(number).String())
	}
	for number := 0; number < 14; number++ {
		said = append(said, Kind(number).String())
	}
	for number := 0; number < 5; number++ {
		said = append(said, Power(number).String())
	}
	wanted := strings.Split("empty,well-known,media,absolute URI,external,unknown,TNF(6),other,text,URI,smart poster,handover request,"+
		"handover select,handover carrier,action,size,media type,alternative carrier,collision resolution,error,Kind(13),"+
		"inactive,active,activating,unknown,Power(4)", ",")
	if !reflect.DeepEqual(said, wanted) {
		t.Errorf("%q", said)
	}
}

func TestCheckAllocatesNothing(t *testing.T) {
	for _, options := range []Options{{}, {Standard: true, Limits: &Limits{Payload: 100, Records: 2, Chunks: 3}}} {
		given := []byte{0xD1, 1, 8, 'T', 2, 'e', 'n', 'H', 'e', 'l', 'l', 'o'}
		if count := testing.AllocsPerRun(1000, func() {
			if length, _, err := options.Check(given); length != 12 || err != nil {
				t.Error(length, err)
			}
		}); count != 0 {
			t.Errorf("%v allocations", count)
		}
	}
}

// A message takes three allocations: it, its bytes and its records. A value takes one for its text and one as an interface.
func TestParseAllocatesLittle(t *testing.T) {
	given := []byte{0xD1, 1, 8, 'T', 2, 'e', 'n', 'H', 'e', 'l', 'l', 'o'}
	message, err := Parse(given)
	if count := testing.AllocsPerRun(1000, func() { message, err = Parse(given) }); count > 3 || err != nil {
		t.Errorf("%v allocations, %v", count, err)
	}
	var value Value
	if count := testing.AllocsPerRun(1000, func() { value, err = message.Records[0].Value() }); count > 2 || err != nil {
		t.Errorf("%v allocations for %v, %v", count, value, err)
	}
}

// Messages of as many records as are kept room for, and of more.
func TestParseManyRecords(t *testing.T) {
	for _, count := range []int{1, 8, 9, 1024, 1025, 65535} {
		given := []byte(strings.Repeat("\x11\x01\x01xy", count))
		given[0] |= 0x80
		given[5*count-5] |= 0x40
		message, length, err := Options{Limits: &Limits{Payload: 1, Records: 65535, Chunks: 1}}.ParsePrefix(append(given, 1, 2))
		if err != nil || length != 5*count || len(message.Records) != count {
			t.Fatal(count, length, err)
		}
		for _, record := range message.Records {
			if record.TNF != WellKnown || record.Type != "x" || record.ID != "" || string(record.Payload) != "y" {
				t.Fatal(count, record)
			}
		}
	}
}

// What a large message took is not kept for others.
func TestLargeScratchGoes(t *testing.T) {
	message := Message{Records: make([]Record, mostItems+1)}
	given, err := message.EncodeAs(Form{Unchecked: true})
	if read, wrong := (Options{Limits: &Limits{Payload: 1, Records: mostItems + 1, Chunks: 1}}).Parse(given); err != nil || wrong != nil || len(read.Records) != mostItems+1 {
		t.Fatal(err, wrong)
	}
	if scratch := taken(); len(scratch.items) > mostItems {
		t.Error(len(scratch.items))
	}
}

// More bytes follow the message than 32 bits count.
func TestParsePrefixOfManyBytes(t *testing.T) {
	many := uint64(1) << 32
	if testing.Short() || uint64(int(many)) != many {
		t.Skip("it takes 4 GiB of addresses")
	}
	given := make([]byte, many)
	copy(given, "\xd1\x01\x01xy")
	message, length, err := ParsePrefix(given)
	if err != nil || length != 5 || len(message.Records) != 1 || string(message.Records[0].Payload) != "y" {
		t.Error(message, length, err)
	}
}
