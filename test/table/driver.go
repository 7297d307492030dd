// driver TABLE: makes each call of the table through the public interface of the package for Go, and prints a line for each row.
//
// What is given is overwritten before an answer is read, bytes are appended to what is answered, and eight goroutines make all calls
// again: nothing may be another answer then.
package main

import (
	"bufio"
	"bytes"
	"encoding/hex"
	"encoding/json"
	"errors"
	"fmt"
	"io"
	"os"
	"reflect"
	"regexp"
	"strings"
	"sync"

	"simbegyor/ndef"
)

var reasons = map[string]string{
	"range": "a number of 8 bits is none of more", "which": "an error says what all of them are", "layout": "there are no layouts", "number": "an error is written with its data",
	"utf8": "a text is UTF-8", "within": "a value has no records",
}

type object = map[string]any
type list = []any

// A row of the table: the arguments of all operations.
type row struct {
	ID, Op, Profile             string
	Bytes, Type, Payload        string
	Language                    string
	Opaque, Unchecked, Fails    bool
	Parts                       []string
	Index, Size, Length, Number int
	Limits                      map[string]uint32
	Records                     []list
	Record                      list
	Form                        struct {
		Long  bool
		Chunk uint32
	}
	Value object
}

type not string

func (why not) Error() string { return string(why) }

func hexed(text any) []byte {
	bytes, err := hex.DecodeString(text.(string))
	if err != nil {
		panic(err)
	}
	return bytes
}

func shown[T string | []byte | ndef.URI](octets T) string { return hex.EncodeToString([]byte(octets)) }

func (row *row) options() ndef.Options {
	options := ndef.Options{Standard: row.Profile == "standard", Opaque: row.Opaque}
	if row.Limits != nil {
		limits := ndef.DefaultLimits()
		for name, to := range map[string]*uint32{"payload": &limits.Payload, "records": &limits.Records, "chunks": &limits.Chunks} {
			if number, has := row.Limits[name]; has {
				*to = number
			}
		}
		options.Limits = &limits
	}
	return options
}

// ---- values

func titleOf(text ndef.Text) list { return list{shown(text.Language), shown(text.Text), text.UTF16} }

func carrierOf(carrier ndef.AlternativeCarrier) list {
	others := list{}
	for _, name := range carrier.Auxiliary {
		others = append(others, shown(name))
	}
	return list{carrier.Power, shown(carrier.Reference), others}
}

func carriersOf(carriers []ndef.AlternativeCarrier) list {
	all := list{}
	for _, carrier := range carriers {
		all = append(all, carrierOf(carrier))
	}
	return all
}

func valueOf(value ndef.Value) any {
	switch value := value.(type) {
	case ndef.Text:
		return object{"kind": "text", "language": shown(value.Language), "text": shown(value.Text), "utf16": value.UTF16}
	case ndef.URI:
		return object{"kind": "uri", "uri": shown(value)}
	case *ndef.SmartPoster:
		titles, icons := list{}, list{}
		for _, title := range value.Titles {
			titles = append(titles, titleOf(title))
		}
		for _, icon := range value.Icons {
			icons = append(icons, list{shown(icon.MediaType), shown(icon.Data)})
		}
		var media any
		if value.MediaType != nil {
			media = shown(*value.MediaType)
		}
		return object{"kind": "poster", "uri": shown(value.URI), "titles": titles, "action": value.Action, "size": value.Size, "media": media, "icons": icons}
	case *ndef.HandoverRequest:
		return object{"kind": "request", "version": list{1, value.Minor}, "carriers": carriersOf(value.Carriers), "collision": value.Collision}
	case *ndef.HandoverSelect:
		var wrong any
		if value.Error != nil {
			wrong = list{value.Error.Reason, shown(value.Error.Data), value.Error.Number}
		}
		return object{"kind": "select", "version": list{1, value.Minor}, "carriers": carriersOf(value.Carriers), "error": wrong}
	case *ndef.HandoverCarrier:
		return object{"kind": "carrier", "format": value.Format, "type": shown(value.Type), "data": shown(value.Data)}
	}
	return nil
}

func valueOrRefusal(options ndef.Options, record *ndef.Record) any {
	value, err := options.Value(record)
	if err != nil {
		return answerFor(err)
	}
	shown := valueOf(value)
	switch value := value.(type) {
	case *ndef.SmartPoster:
		for _, icon := range value.Icons {
			_ = append(icon.Data, 0xbb, 0xbb, 0xbb, 0xbb)
		}
	case *ndef.HandoverSelect:
		if value.Error != nil {
			_ = append(value.Error.Data, 0xbb, 0xbb, 0xbb, 0xbb)
		}
	case *ndef.HandoverCarrier:
		_ = append(value.Data, 0xbb, 0xbb, 0xbb, 0xbb)
	}
	if again, err := options.Value(record); err != nil || shownJSON(valueOf(again)) != shownJSON(shown) {
		return object{"failed": "what is appended to a value is in its record"}
	}
	return shown
}

func text(value any) string { return string(hexed(value)) }

func within(number any, most float64) (float64, error) {
	if number.(float64) > most {
		return 0, errors.New("no such number")
	}
	return number.(float64), nil
}

func carriersFor(given any) (carriers []ndef.AlternativeCarrier) {
	for _, one := range given.([]any) {
		parts := one.([]any)
		carrier := ndef.AlternativeCarrier{Power: ndef.Power(parts[0].(float64)), Reference: text(parts[1])}
		for _, other := range parts[2].([]any) {
			carrier.Auxiliary = append(carrier.Auxiliary, text(other))
		}
		carriers = append(carriers, carrier)
	}
	return carriers
}

func made(value object) (ndef.Value, error) {
	switch value["kind"] {
	case "text":
		return ndef.Text{Language: text(value["language"]), Text: text(value["text"]), UTF16: value["utf16"].(bool)}, nil
	case "uri":
		return ndef.URI(text(value["uri"])), nil
	case "poster":
		poster := &ndef.SmartPoster{URI: ndef.URI(text(value["uri"]))}
		for _, one := range value["titles"].([]any) {
			title := one.([]any)
			poster.Titles = append(poster.Titles, ndef.Text{Language: text(title[0]), Text: text(title[1]), UTF16: title[2].(bool)})
		}
		for _, one := range value["icons"].([]any) {
			icon := one.([]any)
			poster.Icons = append(poster.Icons, ndef.Icon{MediaType: text(icon[0]), Data: hexed(icon[1])})
		}
		if value["action"] != nil {
			if value["action"].(float64) > 255 {
				return nil, not("range")
			}
			action := ndef.Action(value["action"].(float64))
			poster.Action = &action
		}
		if value["size"] != nil {
			size := uint32(value["size"].(float64))
			poster.Size = &size
		}
		if value["media"] != nil {
			media := text(value["media"])
			poster.MediaType = &media
		}
		return poster, nil
	case "carrier":
		return &ndef.HandoverCarrier{Format: uint8(value["format"].(float64)), Type: text(value["type"]), Data: hexed(value["data"])}, nil
	}
	version := value["version"].([]any)
	if version[0].(float64) != 1 {
		return nil, errors.New("no such version")
	}
	minor, carriers := uint8(version[1].(float64)), carriersFor(value["carriers"])
	if value["kind"] == "request" {
		if value["collision"].(float64) > 65535 {
			return nil, not("range")
		}
		return &ndef.HandoverRequest{Minor: minor, Collision: uint16(value["collision"].(float64)), Carriers: carriers}, nil
	}
	chosen := &ndef.HandoverSelect{Minor: minor, Carriers: carriers}
	if value["error"] != nil {
		wrong := value["error"].([]any)
		chosen.Error = &ndef.HandoverError{Reason: uint8(wrong[0].(float64)), Data: hexed(wrong[1])}
	}
	return chosen, nil
}

// ---- operations

func partsOf(record *ndef.Record) list {
	return list{record.TNF, shown(record.Type), shown(record.ID), shown(record.Payload)}
}

// spoilt overwrites the bytes that were given, and appends to each payload that was answered.
func spoilt(given []byte, message *ndef.Message) {
	for index := range given {
		given[index] = 0xaa
	}
	if message != nil {
		for index := range message.Records {
			_ = append(message.Records[index].Payload, 0xbb, 0xbb, 0xbb, 0xbb)
		}
	}
}

func recordsOf(options ndef.Options, message *ndef.Message) list {
	records := list{}
	for index := range message.Records {
		record := &message.Records[index]
		records = append(records, append(partsOf(record), record.Kind(), valueOrRefusal(options, record)))
	}
	return records
}

func recordFor(parts list) ndef.Record {
	record := ndef.Record{TNF: ndef.TNF(parts[0].(float64)), Type: text(parts[1]), ID: text(parts[2])}
	if len(parts) > 3 {
		record.Payload = hexed(parts[3])
	}
	return record
}

func (row *row) message() *ndef.Message {
	message := new(ndef.Message)
	for _, record := range row.Records {
		message.Records = append(message.Records, recordFor(record))
	}
	return message
}

func (row *row) form() ndef.Form {
	return ndef.Form{Long: row.Form.Long, Chunk: row.Form.Chunk, Options: row.options(), Unchecked: row.Unchecked}
}

var errSource = errors.New("a source that fails")

// partsReader gives a part at each read, and fails then or ends.
type partsReader struct {
	parts [][]byte
	fails bool
}

func (reader *partsReader) Read(to []byte) (int, error) {
	if len(reader.parts) == 0 && reader.fails {
		return 0, errSource
	}
	if len(reader.parts) == 0 {
		return 0, io.EOF
	}
	count := copy(to, reader.parts[0])
	if reader.parts[0] = reader.parts[0][count:]; len(reader.parts[0]) == 0 {
		reader.parts = reader.parts[1:]
	}
	return count, nil
}

var places = regexp.MustCompile("read `bytes\\[(\\d+):(\\d*)\\]`")

func foundText(found *ndef.FoundHint) any {
	if found == nil {
		return nil
	}
	said, numbers := found.String(), list{}
	if part := places.FindStringSubmatch(said); part != nil {
		for _, digits := range part[1:] {
			if digits != "" {
				numbers = append(numbers, json.Number(digits))
			}
		}
	}
	before, _, _ := strings.Cut(said, ":")
	return list{before, numbers}
}

func orBad(result any, err error) any {
	if err != nil {
		return answerFor(err)
	}
	return result
}

func sentence(said string) any {
	if said == "" {
		return nil
	}
	return said
}

// decode reads the message that the bytes begin with, or all of them.
func decode(row *row) (object, error) {
	parse, usual, given := row.options().ParsePrefix, ndef.ParsePrefix, hexed(row.Bytes)
	if row.Op == "decode_all" {
		all := func(parse func([]byte) (*ndef.Message, error)) func([]byte) (*ndef.Message, int, error) {
			return func(given []byte) (*ndef.Message, int, error) {
				message, err := parse(given)
				return message, len(given), err
			}
		}
		parse, usual = all(row.options().Parse), all(ndef.Parse)
	}
	message, length, err := parse(given)
	if again, againLength, againErr := usual(given); row.options() == (ndef.Options{}) && (!reflect.DeepEqual(again, message) || againLength != length || shownError(againErr) != shownError(err)) {
		return object{"failed": "the function without options"}, nil
	}
	if err != nil {
		return nil, err
	}
	spoilt(given, message)
	return object{"length": length, "records": recordsOf(row.options(), message)}, nil
}

var operations = map[string]func(*row) (object, error){
	"check": func(row *row) (object, error) {
		length, records, err := row.options().Check(hexed(row.Bytes))
		return object{"length": length, "records": records}, err
	},
	"decode":     decode,
	"decode_all": decode,
	"feed": func(row *row) (object, error) {
		checker, err := ndef.NewChecker(row.options())
		if err != nil {
			return nil, err
		}
		fed := list{}
		for _, part := range row.Parts {
			whole, err := checker.Feed(hexed(part))
			var refusal *ndef.Refusal
			switch {
			case errors.As(err, &refusal):
				fed = append(fed, list{"refused", checker.Place(), refusal.Reason.String()})
			case whole:
				fed = append(fed, list{"whole", checker.Place()})
			default:
				fed = append(fed, list{"more", checker.Place()})
			}
		}
		return object{"fed": fed}, nil
	},
	"stream": func(row *row) (object, error) {
		source, given := &partsReader{fails: row.Fails}, 0
		for _, part := range row.Parts {
			if part != "" {
				source.parts = append(source.parts, hexed(part))
				given += len(part) / 2
			}
		}
		buffered := bufio.NewReader(source)
		reader, messages := ndef.NewReader(buffered, row.options()), list{}
		for {
			message, err := reader.Next()
			if err == io.EOF {
				return object{"messages": messages, "end": nil}, nil
			}
			if err == errSource {
				return object{"messages": messages, "end": "source"}, nil
			}
			var refusal *ndef.Refusal
			if errors.As(err, &refusal) { // the bytes before the refused one are consumed
				left, _ := io.ReadAll(buffered)
				return object{"messages": messages, "end": object{"place": refusal.Place, "in_stream": given - len(left), "reason": refusal.Reason.String()}}, nil
			}
			if err != nil {
				return nil, err
			}
			spoilt(nil, message)
			records := list{}
			for index := range message.Records {
				records = append(records, partsOf(&message.Records[index]))
			}
			messages = append(messages, records)
		}
	},
	"fields": func(row *row) (object, error) {
		fields, err := row.options().Fields(hexed(row.Bytes))
		var refusal *ndef.Refusal
		if err != nil && !errors.As(err, &refusal) {
			return nil, err
		}
		items := list{}
		for _, field := range fields {
			items = append(items, list{field.At, field.Length, field.Depth, field.Name.String()})
		}
		var refused any
		if refusal != nil {
			refused = list{refusal.Place, refusal.Reason.String()}
		}
		return object{"fields": items, "refused": refused}, nil
	},
	"refusal": func(row *row) (object, error) {
		bytes, options := hexed(row.Bytes), row.options()
		why, whyErr := options.Why(bytes)
		hint, hintErr := options.Hint(bytes)
		found, foundErr := options.FindHint(bytes)
		if row.Profile == "" && row.Limits == nil && !row.Opaque && (ndef.Why(bytes) != why || ndef.Hint(bytes) != hint || !reflect.DeepEqual(ndef.FindHint(bytes), found)) {
			return nil, errors.New("the functions say another thing than the methods")
		}
		var numbers any
		if found != nil {
			numbers = list{found.Kind, found.Place, found.Length}
		}
		return object{"why": orBad(sentence(why), whyErr), "hint": orBad(sentence(hint), hintErr), "found": orBad(numbers, foundErr), "text": foundText(found)}, nil
	},
	"warnings": func(row *row) (object, error) {
		bytes, ofFields, ofRecords := hexed(row.Bytes), list{}, list{}
		fields, err := ndef.Options{}.Fields(bytes)
		if err != nil {
			return nil, err
		}
		for index, field := range fields {
			if said := ndef.FieldWarning(field.Name, bytes[field.At:field.At+field.Length]); said != "" {
				ofFields = append(ofFields, list{index, said})
			}
		}
		_, records, err := ndef.Options{}.Check(bytes)
		for index := 0; index <= records; index++ {
			if said := ndef.RecordWarning(bytes, index); said != "" {
				ofRecords = append(ofRecords, list{index, said})
			}
		}
		return object{"fields": ofFields, "records": ofRecords}, err
	},
	"links": func(row *row) (object, error) {
		message, _, err := row.options().ParsePrefix(hexed(row.Bytes))
		if err != nil {
			return nil, err
		}
		links, err := message.Links(row.Index)
		items := list{}
		for _, link := range links {
			var record any = link.Record
			if link.Record < 0 {
				record = nil
			}
			items = append(items, append(carrierOf(link.Carrier), record))
		}
		return object{"links": items}, err
	},
	"value_of": func(row *row) (object, error) {
		value, err := row.options().Value(&ndef.Record{TNF: ndef.WellKnown, Type: text(row.Type), Payload: hexed(row.Payload)})
		return object{"value": valueOf(value)}, err
	},
	"reason": func(row *row) (object, error) {
		reason := ndef.Reason(row.Number)
		return object{"name": reason.String(), "sentence": reason.Sentence()}, nil
	},
	"title": func(row *row) (object, error) {
		value, err := (&ndef.Record{TNF: ndef.WellKnown, Type: "Sp", Payload: hexed(row.Payload)}).Value()
		if err != nil {
			return nil, err
		}
		if title, has := value.(*ndef.SmartPoster).Title(text(row.Language)); has {
			return object{"title": titleOf(title)}, nil
		}
		return object{"title": nil}, nil
	},
	"encode": func(row *row) (object, error) {
		message := row.message()
		made, err := message.EncodeAs(row.form())
		if row.form() == (ndef.Form{}) {
			var to bytes.Buffer
			usual, usualErr := message.Encode()
			count, toErr := message.WriteTo(&to)
			if !bytes.Equal(usual, made) || shownError(usualErr) != shownError(err) || (toErr == nil) != (err == nil) || err != nil && count+int64(to.Len()) != 0 || err == nil && (!bytes.Equal(to.Bytes(), made) || count != int64(len(made))) {
				return object{"failed": "Encode or WriteTo"}, nil
			}
		}
		return object{"bytes": shown(made)}, err
	},
	"line": func(row *row) (object, error) {
		err := error(nil)
		if row.Records != nil {
			_, err = row.message().Encode()
		} else {
			_, err = ndef.Parse(hexed(row.Bytes))
		}
		return object{"line": err.Error()}, nil
	},
	"parts": func(row *row) (object, error) {
		reader, parts := row.message().Reader(row.form()), list{}
		for {
			part := make([]byte, row.Size)
			count, err := reader.Read(part)
			if err == io.EOF {
				return object{"parts": parts}, nil
			}
			if err != nil {
				return nil, err
			}
			parts = append(parts, shown(part[:count]))
		}
	},
	"record_parts": func(row *row) (object, error) {
		var to bytes.Buffer
		writer, err := ndef.NewRecordWriter(&to, recordFor(row.Record), int64(row.Length), ndef.Only, ndef.Form{})
		if err != nil {
			return nil, err
		}
		for _, part := range row.Parts {
			if _, err := writer.Write(hexed(part)); err != nil {
				return nil, err
			}
		}
		return object{"bytes": shown(to.Bytes())}, writer.Close()
	},
	"normalize": func(row *row) (object, error) {
		message, _, err := row.options().ParsePrefix(hexed(row.Bytes))
		if err != nil {
			return nil, err
		}
		bytes, err := message.EncodeAs(ndef.Form{Options: row.options()})
		return object{"bytes": shown(bytes)}, err
	},
	"make": func(row *row) (object, error) {
		value, err := made(row.Value)
		if err != nil {
			return nil, err
		}
		record, err := value.Record()
		if err != nil {
			return nil, err
		}
		return object{"payload": shown(record.Payload), "value": valueOrRefusal(ndef.Options{}, &record)}, nil
	},
	"layout": func(row *row) (object, error) { return nil, not("layout") },
	"within": func(row *row) (object, error) { return nil, not("within") },
}

func answerFor(err error) object {
	var wrong *ndef.RecordError
	var refusal *ndef.Refusal
	var trailing *ndef.Trailing
	var missing not
	switch {
	case errors.As(err, &missing):
		return object{"not": string(missing)}
	case errors.As(err, &wrong) && wrong.Refusal != nil:
		return object{"refused": object{"record": wrong.Record, "place": wrong.Refusal.Place, "reason": wrong.Refusal.Reason.String(), "sentence": wrong.Sentence}}
	case errors.As(err, &refusal):
		return object{"refused": list{refusal.Place, refusal.Reason.String()}}
	case errors.As(err, &trailing):
		return object{"trailing": trailing.Place}
	}
	return object{"bad": true}
}

func answer(row *row) (result object) {
	defer func() {
		if wrong := recover(); wrong != nil {
			result = object{"failed": fmt.Sprint(wrong)}
		}
	}()
	result, err := operations[row.Op](row)
	if err != nil {
		var wrong *ndef.RecordError
		var refusal *ndef.Refusal
		if errors.As(err, &wrong) && wrong.Refusal != nil && !errors.As(err, &refusal) {
			return object{"failed": "a refusal that isn't wrapped"}
		}
		if errors.As(err, &refusal) && (errors.Is(err, io.ErrUnexpectedEOF) != (refusal.Reason == ndef.EndOfInput) ||
			!errors.Is(err, refusal.Reason) || errors.Is(err, refusal.Reason+1)) {
			return object{"failed": "errors.Is"}
		}
		var missing not
		if row.Op == "make" && !errors.As(err, &missing) {
			return object{"bad": "-which"}
		}
		if beside, has := result["bytes"]; has && beside != "" && row.Op == "encode" {
			return object{"failed": "bytes beside an error"}
		}
		return answerFor(err)
	}
	return result
}

func shownError(err error) string {
	if err == nil {
		return ""
	}
	return err.Error()
}

func shownJSON(value any) string {
	var to bytes.Buffer
	encoder := json.NewEncoder(&to)
	encoder.SetEscapeHTML(false)
	encoder.Encode(value)
	return strings.TrimSpace(to.String())
}

func shownRow(row *row) string { return shownJSON(object{"id": row.ID, "answer": answer(row)}) }

func main() {
	table, err := os.ReadFile(os.Args[1])
	if err != nil {
		panic(err)
	}
	var rows []*row
	for _, line := range bytes.Split(bytes.TrimSpace(table), []byte("\n")) {
		one := new(row)
		if err := json.Unmarshal(line, one); err != nil {
			panic(err)
		}
		rows = append(rows, one)
	}
	answers := make([]string, len(rows))
	for index, one := range rows {
		answers[index] = shownRow(one)
	}
	var others sync.Map
	var all sync.WaitGroup
	for turn := 0; turn < 8; turn++ {
		all.Add(1)
		go func(turn int) {
			defer all.Done()
			for index := range rows {
				at := (index + turn*len(rows)/8) % len(rows)
				if shownRow(rows[at]) != answers[at] {
					others.Store(at, true)
				}
			}
		}(turn)
	}
	all.Wait()
	to := bufio.NewWriter(os.Stdout)
	defer to.Flush()
	fmt.Fprintln(to, shownJSON(object{"language": "Go", "not": reasons}))
	for index, line := range answers {
		if _, is := others.Load(index); is {
			line = shownJSON(object{"id": rows[index].ID, "answer": object{"failed": "another answer in goroutines"}})
		}
		fmt.Fprintln(to, line)
	}
}
