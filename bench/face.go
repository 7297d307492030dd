// face FOLDER MILLISECONDS: times the package for Go and the parser of hand.go: a message, and the same with the value of each record.
package main

import (
	"fmt"
	"log"
	"os"
	"path/filepath"
	"strconv"
	"syscall"

	"simbegyor/ndef"
)

// now is the processor time of this process in nanoseconds.
func now() float64 {
	var usage syscall.Rusage
	if err := syscall.Getrusage(syscall.RUSAGE_SELF, &usage); err != nil {
		log.Fatal(err)
	}
	return float64(usage.Utime.Nano() + usage.Stime.Nano())
}

// report prints the nanoseconds of a call: the least of batches of five milliseconds or of one call.
func report(operation, name string, milliseconds float64, call func() error) {
	begun, least, batch := now(), 0.0, 1
	for now()-begun < milliseconds*1e6 {
		from := now()
		for i := 0; i < batch; i++ {
			if err := call(); err != nil {
				log.Fatal(err)
			}
		}
		took := now() - from
		if took < 5e6 {
			batch *= 2
		}
		if each := took / float64(batch); took >= 5e6 && (least == 0 || each < least) {
			least = each
		}
	}
	if least > 0 {
		fmt.Printf("%s %s %.1f\n", operation, name, least)
	}
}

// What a call gives is kept here, so that it isn't left out.
var held any

func main() {
	milliseconds, err := strconv.ParseFloat(os.Args[2], 64)
	if err != nil {
		log.Fatal(err)
	}
	for _, name := range []string{"hello", "uri", "poster", "records-1000", "ascii-1M", "wide-1M"} {
		bytes, err := os.ReadFile(filepath.Join(os.Args[1], name))
		if err != nil {
			log.Fatal(err)
		}
		report("check", name, milliseconds, func() error { _, _, err := ndef.Options{}.Check(bytes); return err })
		report("hand-read", name, milliseconds, func() error { _, err := parse(bytes); return err })
		if name != "poster" {
			report("hand-value", name, milliseconds, func() error {
				records, err := parse(bytes)
				for index := range records {
					held = records[index].value()
				}
				return err
			})
		}
		report("read", name, milliseconds, func() error { _, err := ndef.Parse(bytes); return err })
		report("value", name, milliseconds, func() error {
			message, err := ndef.Parse(bytes)
			for index := 0; err == nil && index < len(message.Records); index++ {
				_, err = message.Records[index].Value()
			}
			return err
		})
	}
}
