package ndef_test

import (
	"encoding/hex"
	"errors"
	"fmt"
	"log"

	"simbegyor/ndef"
)

// Read a dump of a text, a URI and a smart poster.
func Example_read() {
	bytes, err := hex.DecodeString("9101085402656e48656c6c6f11010c55026578616d706c652e636f6d5102" +
		"1c537091010c55026578616d706c652e636f6d5101085402656e5469746c65")
	if err != nil {
		log.Fatal(err)
	}
	message, err := ndef.Parse(bytes)
	if err != nil {
		log.Fatal(err)
	}
	for index := range message.Records {
		value, err := message.Records[index].Value()
		if err != nil {
			log.Fatal(err)
		}
		switch value := value.(type) {
		case ndef.Text:
			fmt.Println("text", value.Language, value.Text)
		case ndef.URI:
			fmt.Println("URI", value)
		case *ndef.SmartPoster:
			fmt.Println("poster", value.URI, value.Titles[0].Text)
		}
	}
	// Output:
	// text en Hello
	// URI https://www.example.com
	// poster https://www.example.com Title
}

// Write a select with two carriers.
func Example_write() {
	chosen := ndef.HandoverSelect{Minor: 2, Carriers: []ndef.AlternativeCarrier{
		{Power: ndef.Active, Reference: "w"}, {Power: ndef.Active, Reference: "b"}}}
	record, err := chosen.Record()
	if err != nil {
		log.Fatal(err)
	}
	message := ndef.Message{Records: []ndef.Record{record,
		{TNF: ndef.Media, Type: "application/vnd.wfa.wsc", ID: "w", Payload: []byte{0x10, 0x4A}},
		{TNF: ndef.Media, Type: "application/vnd.bluetooth.ep.oob", ID: "b", Payload: []byte{0x08, 0x00}}}}
	bytes, err := message.Encode()
	if err != nil {
		log.Fatal(err)
	}
	links, err := message.Links(0)
	if err != nil {
		log.Fatal(err)
	}
	fmt.Println(len(bytes), "bytes")
	for _, link := range links {
		fmt.Println(link.Carrier.Reference, "is", message.Records[link.Record].Type)
	}
	// Output:
	// 93 bytes
	// w is application/vnd.wfa.wsc
	// b is application/vnd.bluetooth.ep.oob
}

// Show where a broken message breaks.
func Example_refusal() {
	broken := []byte("\xD1\x01\x08T\x02enHel")
	_, err := ndef.Parse(broken)
	var refusal *ndef.Refusal
	if errors.As(err, &refusal) {
		fmt.Println(refusal.Place, refusal.Reason, refusal.Reason.Sentence())
		fmt.Println(ndef.Why(broken))
	}
	// Output:
	// 10 EndOfInput The input ends within a message.
	// 2 octets of the payload are missing.
}
