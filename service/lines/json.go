package lines

import (
	"bytes"
	"encoding/json"
	"strconv"
	"unicode/utf16"
	"unicode/utf8"
)

// deepest is how deep objects and lists may nest.
const deepest = 127

// parse reads the one value of JSON that a line is. It is stricter than Go's reader, as csi-replay is: no half of a surrogate pair, no number that
// is too large for 64 bits of floating point, and nothing too deep.
func parse(line []byte) (value any, ok bool) {
	if !utf8.Valid(line) || !json.Valid(line) || hasHalf(line) || !isMeasured(line) {
		return nil, false
	}
	reader := json.NewDecoder(bytes.NewReader(line))
	reader.UseNumber()
	return value, reader.Decode(&value) == nil
}

// hasHalf says whether a text in JSON has an escaped half of a surrogate pair alone.
func hasHalf(line []byte) bool {
	for at := 0; at < len(line); at++ {
		if line[at] != '\\' {
			continue
		}
		if line[at+1] != 'u' {
			at++
			continue
		}
		first := unit(line[at:])
		at += 5
		if !utf16.IsSurrogate(first) {
			continue
		}
		if utf16.DecodeRune(first, unit(line[at+1:])) == utf8.RuneError {
			return true
		}
		at += 6
	}
	return false
}

// unit is what an escape says that bytes begin with, or else 0, which is no half.
func unit(from []byte) rune {
	if len(from) < 6 || from[0] != '\\' || from[1] != 'u' {
		return 0
	}
	value, err := strconv.ParseUint(string(from[2:6]), 16, 16)
	if err != nil {
		return 0
	}
	return rune(value)
}

// isMeasured says whether valid JSON isn't nested too deep, and its numbers aren't too large.
func isMeasured(line []byte) bool {
	reader := json.NewDecoder(bytes.NewReader(line))
	reader.UseNumber()
	for depth := 0; ; {
		token, err := reader.Token()
		if err != nil {
			return true // the end
		}
		switch it := token.(type) {
		case json.Delim:
			if it == '{' || it == '[' {
				depth++
			} else {
				depth--
			}
		case json.Number:
			if _, err := strconv.ParseFloat(string(it), 64); err != nil {
				return false
			}
		}
		if depth > deepest {
			return false
		}
	}
}
