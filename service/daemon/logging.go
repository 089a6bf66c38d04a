package daemon

import (
	"encoding/json"
	"fmt"
	"io"
	"os"
	"strings"
	"syscall"
	"time"

	"github.com/coreos/go-systemd/journal"
	"go.uber.org/zap"
	"go.uber.org/zap/zapcore"
)

// Levels are those that a log may have: what is below isn't told.
var Levels = []string{"debug", "info", "warn", "error"}

// IsLevel says whether a text is one of them.
func IsLevel(text string) bool {
	for _, it := range Levels {
		if it == text {
			return true
		}
	}
	return false
}

// Logger makes a log of a level, info where that is empty, in which each event is a line, and none is left out: of JSON, to standard error; or where
// that is systemd's journal, to there, with a field for each key (TUFAYON_VOLUME, ..). It has to be synchronised at the end: an event below a warning is
// written a moment after it was logged.
func Logger(level string) (*zap.Logger, error) {
	least, err := leastOf(level)
	if err != nil {
		return nil, err
	}
	if isJournal() {
		return zap.New(hold(least, &toJournal{send: journal.Send})), nil
	}
	return LoggerTo(os.Stderr, least), nil
}

// leastOf is the level that a text says: none but those of Levels, since zap has some above all that is logged.
func leastOf(level string) (zapcore.Level, error) {
	least := zapcore.InfoLevel
	if level == "" {
		return least, nil
	}
	if !IsLevel(level) {
		return least, fmt.Errorf("%q is none of %s", level, strings.Join(Levels, ", "))
	}
	return least, least.Set(level)
}

// LoggerTo makes a log of lines of JSON, from a level on.
func LoggerTo(to io.Writer, least zapcore.Level) *zap.Logger {
	return zap.New(hold(least, newLines(to)))
}

// isJournal says whether standard error is the journal's, as systemd says in JOURNAL_STREAM: its device and inode.
func isJournal() bool {
	var stream syscall.Stat_t
	if syscall.Fstat(int(os.Stderr.Fd()), &stream) != nil {
		return false
	}
	return os.Getenv("JOURNAL_STREAM") == fmt.Sprintf("%d:%d", stream.Dev, stream.Ino) && journal.Enabled()
}

// mostMessages is how many may wait for the journal.
const mostMessages = 1024

// toJournal sends entries to the journal.
type toJournal struct {
	send     func(message string, priority journal.Priority, variables map[string]string) error
	messages []message // that wait
}

// A message is one for the journal.
type message struct {
	text      string
	priority  journal.Priority
	variables map[string]string
}

var priorities = map[zapcore.Level]journal.Priority{
	zapcore.DebugLevel: journal.PriDebug, zapcore.InfoLevel: journal.PriInfo, zapcore.WarnLevel: journal.PriWarning, zapcore.ErrorLevel: journal.PriErr,
}

// add has an entry wait: a message that is one line, whatever stands in its fields, and the fields.
func (it *toJournal) add(entry zapcore.Entry, fields []zapcore.Field) (isFull bool, err error) {
	encoder := zapcore.NewMapObjectEncoder()
	for _, field := range fields {
		field.AddTo(encoder)
	}
	made := message{entry.Message, journal.PriCrit, make(map[string]string, len(encoder.Fields)+1)}
	for key, value := range encoder.Fields {
		text := textFor(value)
		made.variables["TUFAYON_"+strings.ToUpper(key)], encoder.Fields[key] = text, text
	}
	made.variables["TUFAYON_TS"] = entry.Time.Format(time.RFC3339Nano) // the journal's own time is that of the writing
	if len(encoder.Fields) > 0 {
		text, err := json.Marshal(encoder.Fields)
		if err != nil {
			return false, err
		}
		made.text += " " + string(text)
	}
	if priority, isOne := priorities[entry.Level]; isOne {
		made.priority = priority
	}
	it.messages = append(it.messages, made)
	return len(it.messages) >= mostMessages, nil
}

// textFor is a field's value as the journal gets it: how long something took in seconds, as in a line of JSON.
func textFor(value any) string {
	if it, is := value.(time.Duration); is {
		return string(appendSeconds(nil, int64(it)))
	}
	return fmt.Sprint(value)
}

// take gives what sends the messages, and tells the first fault.
func (it *toJournal) take() func() error {
	messages := it.messages
	it.messages = nil
	return func() (first error) {
		for _, its := range messages {
			if err := it.send(its.text, its.priority, its.variables); first == nil {
				first = err
			}
		}
		return first
	}
}
