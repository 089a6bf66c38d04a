package daemon

import (
	"bytes"
	"errors"
	"io"
	"math"
	"math/rand"
	"net"
	"testing"
	"time"

	"go.uber.org/zap"
	"go.uber.org/zap/zapcore"
)

// faulty panics when it is asked what it is.
type faulty struct{}

func (*faulty) String() string { panic("a fault") }

// A line is what zap's own encoder makes of an entry, whatever its fields are.
func TestLinesAsZaps(t *testing.T) {
	drawn := rand.New(rand.NewSource(1))
	texts := []string{"", "v", "a b", "a\nb", `"\"`, `\`, "ä", "\xff", "\u2028", "<&>", "\x7f", "\x00"}
	text := func() string { return texts[drawn.Intn(len(texts))] }
	fields := []func() zap.Field{
		func() zap.Field { return zap.String("volume", text()) },
		func() zap.Field { return zap.Uint64("call", drawn.Uint64()) },
		func() zap.Field { return zap.Uint8("status", uint8(drawn.Intn(256))) },
		func() zap.Field { return zap.Uint32("mode", drawn.Uint32()) },
		func() zap.Field { return zap.Int("line", drawn.Int()-drawn.Int()) },
		func() zap.Field { return zap.Duration("took", time.Duration(drawn.Int63n(1<<40))-1<<30) },
		func() zap.Field { return zap.Stringer("from", &net.UnixAddr{Name: text(), Net: "unix"}) },
		func() zap.Field { return zap.Stringer("from", (*faulty)(nil)) },
		func() zap.Field { return zap.Stringer("from", &faulty{}) },
		func() zap.Field { return zap.Error(errors.New(text())) },
		func() zap.Field { return zap.Error(nil) },
		func() zap.Field { return zap.Strings("nodes", []string{text(), text()}) },
		func() zap.Field { return zap.Bool("is", drawn.Intn(2) == 0) },
		func() zap.Field { return zap.Any("panic", map[string]int{"a": 1}) },
	}
	var got bytes.Buffer
	its := newLines(&got)
	for at := 0; at < 5000; at++ {
		entry := zapcore.Entry{
			Level: zapcore.Level(drawn.Intn(4) - 1), Time: time.Unix(drawn.Int63n(1<<32), drawn.Int63n(1000)*int64(math.Pow10(drawn.Intn(7)))), Message: "a call",
		}
		if drawn.Intn(2) == 0 {
			entry.Time = time.Unix(1e9, int64(drawn.Intn(2)))
		}
		if drawn.Intn(10) == 0 {
			entry.Time = entry.Time.In(time.FixedZone("", 3600*(drawn.Intn(20)-10)))
		}
		if drawn.Intn(10) == 0 {
			entry.Message, entry.LoggerName, entry.Stack = text(), text(), text()
		}
		var some []zap.Field
		for count := drawn.Intn(6); count > 0; count-- {
			some = append(some, fields[drawn.Intn(len(fields))]())
		}
		got.Reset()
		if _, err := its.add(entry, some); err != nil || its.take()() != nil {
			t.Fatal(err)
		}
		want, err := its.encoder.EncodeEntry(entry, some)
		if err != nil || got.String() != want.String() {
			t.Fatalf("it is\n%s, not\n%s, %v", got.String(), want.String(), err)
		}
	}
}

// BenchmarkLine has a call's line written.
func BenchmarkLine(b *testing.B) {
	log := LoggerTo(io.Discard, zapcore.InfoLevel)
	b.ReportAllocs()
	for at := 0; at < b.N; at++ {
		log.Info("a call", zap.String("volume", "v1"), zap.String("kind", "NodePublishVolume"), zap.String("plugin", "node:n1"),
			zap.Uint64("session", 1700000000), zap.Uint64("call", uint64(at)), zap.Duration("took", 123456*time.Nanosecond), zap.Uint8("status", 0), zap.String("detail", ""))
	}
	log.Sync()
}
