package daemon

import (
	"fmt"
	"io"
	"strconv"
	"time"

	"go.uber.org/zap"
	"go.uber.org/zap/zapcore"
)

// together is how many bytes of lines may wait.
const together = 64 << 10

// toLines writes entries as lines of JSON: as zap's own encoder does, which it uses where a field isn't one of the simple ones.
type toLines struct {
	to      io.Writer
	encoder zapcore.Encoder
	lines   []byte // that wait
	spare   []byte // the room of those that were written
	second  int64  // since 1970, of which this is the time without its fraction
	stamp   []byte
}

func newLines(to io.Writer) *toLines {
	how := zap.NewProductionEncoderConfig()
	how.EncodeTime = zapcore.RFC3339NanoTimeEncoder
	return &toLines{to: to, encoder: zapcore.NewJSONEncoder(how)}
}

func (it *toLines) add(entry zapcore.Entry, fields []zapcore.Field) (isFull bool, err error) {
	line, isSimple := it.appendLine(it.lines, entry, fields)
	if !isSimple {
		encoded, err := it.encoder.EncodeEntry(entry, fields)
		if err != nil {
			return false, err
		}
		line = append(it.lines, encoded.Bytes()...)
		encoded.Free()
	}
	it.lines = line
	return len(line) >= together, nil
}

// take gives what writes the lines. What can't be written is lost.
func (it *toLines) take() func() error {
	if len(it.lines) == 0 {
		return func() error { return nil }
	}
	lines := it.lines
	it.lines, it.spare = it.spare[:0], lines
	return func() error {
		_, err := it.to.Write(lines)
		return err
	}
}

// appendLine appends an entry whose texts and fields are simple.
func (it *toLines) appendLine(to []byte, entry zapcore.Entry, fields []zapcore.Field) (line []byte, isSimple bool) {
	if !isPlain(entry.Message) || entry.LoggerName != "" || entry.Caller.Defined || entry.Stack != "" || entry.Time.Location() != time.Local {
		return to, false
	}
	line = append(append(to, `{"level":"`...), entry.Level.String()...)
	line = it.appendTime(append(line, `","ts":"`...), entry.Time)
	line = append(append(line, `","msg":"`...), entry.Message...)
	line = append(line, '"')
	for at := range fields {
		if line, isSimple = appendField(line, &fields[at]); !isSimple {
			return to, false
		}
	}
	return append(line, '}', '\n'), true
}

// beforeFraction is how long a time is up to its second.
const beforeFraction = len("2006-01-02T15:04:05")

// appendTime appends a time of here, as time.RFC3339Nano is.
func (it *toLines) appendTime(to []byte, at time.Time) []byte {
	if second := at.Unix(); second != it.second || it.stamp == nil {
		it.second, it.stamp = second, at.Truncate(time.Second).AppendFormat(it.stamp[:0], time.RFC3339)
	}
	to = appendFraction(append(to, it.stamp[:beforeFraction]...), int64(at.Nanosecond()))
	return append(to, it.stamp[beforeFraction:]...)
}

// appendField appends a field that is simple.
func appendField(to []byte, field *zapcore.Field) (line []byte, isSimple bool) {
	line = append(append(append(to, `,"`...), field.Key...), `":`...)
	switch field.Type {
	case zapcore.StringType:
		return appendText(line, field.String)
	case zapcore.StringerType:
		text, isOne := textOf(field.Interface.(fmt.Stringer))
		if !isOne {
			return to, false
		}
		return appendText(line, text)
	case zapcore.BoolType:
		return strconv.AppendBool(line, field.Integer == 1), true
	case zapcore.Uint64Type, zapcore.Uint32Type, zapcore.Uint8Type:
		return strconv.AppendUint(line, uint64(field.Integer), 10), true
	case zapcore.Int64Type:
		return strconv.AppendInt(line, field.Integer, 10), true
	case zapcore.DurationType:
		return appendSeconds(line, field.Integer), true
	}
	return to, false
}

// mostExact is the first number of nanoseconds whose seconds a float of 64 bits may not have exactly, in as many digits.
const mostExact = 1e15

// appendSeconds appends nanoseconds as seconds, in the fewest digits that tell the float, as zap's own encoder does.
func appendSeconds(to []byte, nanoseconds int64) []byte {
	if nanoseconds < 0 || nanoseconds >= mostExact {
		return strconv.AppendFloat(to, float64(nanoseconds)/float64(time.Second), 'f', -1, 64)
	}
	return appendFraction(strconv.AppendInt(to, nanoseconds/1e9, 10), nanoseconds%1e9)
}

// appendFraction appends a point and so many billionths without the zeros at their end, and nothing of none.
func appendFraction(to []byte, fraction int64) []byte {
	if fraction == 0 {
		return to
	}
	digits := strconv.AppendInt(to, fraction+1e9, 10) // the 1 is where the point belongs
	digits[len(to)] = '.'
	for to = digits; to[len(to)-1] == '0'; {
		to = to[:len(to)-1]
	}
	return to
}

// textOf is what a value says of itself, unless it panics.
func textOf(it fmt.Stringer) (text string, isOne bool) {
	defer func() {
		if recover() != nil {
			isOne = false
		}
	}()
	return it.String(), true
}

// isPlain says whether a text stands in JSON as it is.
func isPlain(text string) bool {
	for at := 0; at < len(text); at++ {
		if it := text[at]; it < ' ' || it > '~' || it == '"' || it == '\\' {
			return false
		}
	}
	return true
}

// appendText appends a text in which at most quotation marks and backslashes don't stand in JSON as they are.
func appendText(to []byte, text string) (line []byte, isSimple bool) {
	line = append(to, '"')
	from := 0
	for at := 0; at < len(text); at++ {
		switch it := text[at]; {
		case it < ' ' || it > '~':
			return to, false
		case it == '"' || it == '\\':
			line = append(append(line, text[from:at]...), '\\')
			from = at
		}
	}
	return append(append(line, text[from:]...), '"'), true
}
