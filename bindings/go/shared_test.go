package ndef

import (
	"bufio"
	"bytes"
	"encoding/hex"
	"encoding/json"
	"os"
	"testing"
)

// A suiteCase is a line of conformance/cases.jsonl.
type suiteCase struct{ Bytes, Answer string }

// cases reads the cases of the suite. The first line says what the file is, and is left out.
func cases(t testing.TB) []suiteCase {
	file, err := os.Open("../../conformance/cases.jsonl")
	if err != nil {
		t.Fatal(err)
	}
	defer file.Close()
	var read []suiteCase
	for decoder := json.NewDecoder(bufio.NewReader(file)); decoder.More(); {
		var given suiteCase
		if err := decoder.Decode(&given); err != nil {
			t.Fatal(err)
		}
		read = append(read, given)
	}
	return read[1:]
}

func unhex(t testing.TB, digits string) []byte {
	bytes, err := hex.DecodeString(digits)
	if err != nil {
		t.Fatal(err)
	}
	return bytes
}

func isSame(one, other *Message) bool {
	if len(one.Records) != len(other.Records) {
		return false
	}
	for index, record := range one.Records {
		same := other.Records[index]
		if record.TNF != same.TNF || record.Type != same.Type || record.ID != same.ID || !bytes.Equal(record.Payload, same.Payload) {
			return false
		}
	}
	return true
}
