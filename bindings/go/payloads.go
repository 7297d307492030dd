package ndef

// #include "calls.h"
import "C"

import (
	"fmt"
	"strings"
	"sync/atomic"
)

// Text is the payload of a Text record (RTD Text 1.0).
type Text struct {
	Language string // the language code, such as "en": ASCII, at most 63 bytes
	Text     string // in UTF-8
	UTF16    bool   // whether the payload has the text in UTF-16
}

func textOf(payload []byte) (Text, error) {
	var parts C.ndef_text_parts
	var why C.ndef_checked
	if C.ndef_text(first(payload), size(payload), &parts, &why) != C.NDEF_OK {
		return Text{}, refused(&why)
	}
	return textIn(payload, &parts)
}

// textIn returns the text of a payload, whose parts are given.
func textIn(payload []byte, parts *C.ndef_text_parts) (Text, error) {
	if parts.utf16 == 0 {
		all := string(payload) // in one allocation
		return Text{Language: all[parts.language_at:][:parts.language_length], Text: all[parts.text_at:][:parts.text_length]}, nil
	}
	var why C.ndef_checked
	text, status := filled(nil, func(buffer *C.uint8_t, most C.ndef_size, count *C.ndef_size) C.uint32_t {
		return C.ndef_text_in_utf8(first(payload), size(payload), buffer, most, count, &why)
	})
	if status != C.NDEF_OK {
		return Text{}, refused(&why)
	}
	return Text{Language: string(within(payload, parts.language_at, parts.language_length)), Text: string(text), UTF16: true}, nil
}

// Record makes the record of the text.
func (text Text) Record() (Record, error) {
	language, bytes := []byte(text.Language), []byte(text.Text)
	flags := flag(text.UTF16) * C.NDEF_AS_UTF16
	return typed("T", "the text", "the language code has more than 63 bytes or isn't ASCII, or the text isn't UTF-8",
		func(buffer *C.uint8_t, most C.ndef_size, count *C.ndef_size) C.uint32_t {
			return C.ndef_write_text(first(language), size(language), first(bytes), size(bytes), flags, buffer, most, count)
		})
}

// URI is the payload of a URI record (RTD URI 1.0), its prefix spelled out, in UTF-8.
type URI string

func uriOf(payload []byte, flags C.uint32_t) (URI, error) {
	var parts C.ndef_uri_parts
	var why C.ndef_checked
	if C.ndef_split_uri(first(payload), size(payload), flags, &parts, &why) != C.NDEF_OK {
		return "", refused(&why)
	}
	return uriIn(payload, &parts), nil
}

// uriIn returns the URI of a payload, whose parts are given.
func uriIn(payload []byte, parts *C.ndef_uri_parts) URI {
	return URI(prefixOf(uint8(parts.code)) + string(within(payload, parts.rest_at, parts.rest_length)))
}

// prefixes are those of the codes that were asked for.
var prefixes [256]atomic.Pointer[string]

// prefixOf returns the prefix for which a code of URIs stands.
func prefixOf(code uint8) string {
	if known := prefixes[code].Load(); known != nil {
		return *known
	}
	bytes, _ := filled(nil, func(buffer *C.uint8_t, most C.ndef_size, count *C.ndef_size) C.uint32_t {
		return C.ndef_uri_prefix(C.uint32_t(code), buffer, most, count)
	})
	prefix := string(bytes)
	prefixes[code].Store(&prefix)
	return prefix
}

// Record makes the record of the URI, with the longest prefix code that fits it.
func (uri URI) Record() (Record, error) {
	bytes := []byte(uri)
	return typed("U", "the URI", "it isn't UTF-8", func(buffer *C.uint8_t, most C.ndef_size, count *C.ndef_size) C.uint32_t {
		return C.ndef_write_uri(first(bytes), size(bytes), buffer, most, count)
	})
}

// Icon is an icon of a smart poster. The standard asks for media types that begin with "image/" or "video/"; reading
// doesn't look at that.
type Icon struct {
	MediaType string // 1 to 255 bytes
	Data      []byte
}

// Action is what a reader of a smart poster does with its URI: 0 to 255, of which 3 and above are reserved.
type Action uint8

// The actions of the standard.
const (
	Do   Action = 0
	Save Action = 1
	Open Action = 2
)

// SmartPoster is the payload of a Smart Poster record (Smart Poster 1.1).
type SmartPoster struct {
	URI       URI
	Titles    []Text  // at most one in each language
	Action    *Action // nil where the poster has none
	Size      *uint32 // bytes of what the URI leads to; nil where the poster has none
	MediaType *string // of what the URI leads to; nil where the poster has none
	Icons     []Icon
}

func posterOf(payload []byte, flags C.uint32_t) (*SmartPoster, error) {
	var parts C.ndef_poster_parts
	var why C.ndef_checked
	if C.ndef_poster(first(payload), size(payload), flags, &parts, &why) != C.NDEF_OK {
		return nil, refused(&why)
	}
	uri, err := uriOf(within(payload, parts.uri_at, parts.uri_length), flags)
	if err != nil {
		return nil, err
	}
	titles, err := titlesOf(payload)
	if err != nil {
		return nil, err
	}
	poster := &SmartPoster{URI: uri, Titles: titles, Icons: iconsOf(payload)}
	if parts.has_action == 1 {
		action := Action(parts.action)
		poster.Action = &action
	}
	if parts.has_size == 1 {
		bytes := uint32(parts.size)
		poster.Size = &bytes
	}
	var media C.ndef_part
	if C.ndef_poster_media_type(first(payload), size(payload), &media) == C.NDEF_OK {
		name := string(within(payload, media.at, media.length))
		poster.MediaType = &name
	}
	return poster, nil
}

// titlesOf returns the titles of a smart poster that was read: its payload is a message.
func titlesOf(payload []byte) ([]Text, error) {
	var titles []Text
	for _, record := range recordsOf(payload) {
		if record.kindWithin(KindSmartPoster) != KindText {
			continue
		}
		title, err := textOf(record.Payload)
		if err != nil {
			return nil, err
		}
		titles = append(titles, title)
	}
	return titles, nil
}

// Title returns the first title in a language, such as "en", in upper or lower case.
func (poster SmartPoster) Title(language string) (Text, bool) {
	for _, title := range poster.Titles {
		if len(title.Language) == len(language) && strings.EqualFold(title.Language, language) {
			return title, true
		}
	}
	return Text{}, false
}

// iconsOf returns the icons of a smart poster that was read.
func iconsOf(payload []byte) []Icon {
	array, _ := elements(func(array *C.ndef_icon, most C.ndef_size, count *C.ndef_size) C.uint32_t {
		return C.ndef_poster_icons(first(payload), size(payload), array, most, count)
	})
	icons := make([]Icon, 0, len(array))
	for _, icon := range array {
		icons = append(icons, Icon{MediaType: string(within(payload, icon.media_type.at, icon.media_type.length)),
			Data: within(payload, icon.data.at, icon.data.length)})
	}
	return icons
}

// An arena holds parts for calls that take offsets within an array of bytes.
type arena struct{ bytes []byte }

func (arena *arena) put(text string) C.ndef_part {
	part := C.ndef_part{at: size(arena.bytes), length: C.ndef_size(len(text))}
	arena.bytes = append(arena.bytes, text...)
	return part
}

// Record makes the record of the smart poster: of the URI, the titles, the action, the size, the media type and the
// icons, in this order.
func (poster SmartPoster) Record() (Record, error) {
	var arena arena
	how := C.ndef_poster_writing{uri: arena.put(string(poster.URI))}
	if poster.Action != nil {
		how.has_action, how.action = 1, C.uint32_t(*poster.Action)
	}
	if poster.Size != nil {
		how.has_size, how.size = 1, C.uint32_t(*poster.Size)
	}
	if poster.MediaType != nil {
		how.has_media_type, how.media_type = 1, arena.put(*poster.MediaType)
	}
	titles := make([]C.ndef_title_writing, len(poster.Titles))
	for index, title := range poster.Titles {
		titles[index] = C.ndef_title_writing{language: arena.put(title.Language), text: arena.put(title.Text), utf16: flag(title.UTF16)}
	}
	icons := make([]C.ndef_icon_writing, len(poster.Icons))
	for index, icon := range poster.Icons {
		icons[index] = C.ndef_icon_writing{media_type: arena.put(icon.MediaType), data: arena.put(string(icon.Data))}
	}
	why := "a text isn't UTF-8, a language code has more than 63 bytes or isn't ASCII, or the media type of an icon has none or more than 255"
	return typed("Sp", fmt.Sprintf("the smart poster of %q", string(poster.URI)), why,
		func(buffer *C.uint8_t, most C.ndef_size, count *C.ndef_size) C.uint32_t {
			return C.ndef_write_poster(first(arena.bytes), size(arena.bytes), &how, pointer(titles), C.ndef_size(len(poster.Titles)),
				pointer(icons), C.ndef_size(len(poster.Icons)), buffer, most, count)
		})
}
