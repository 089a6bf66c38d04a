package daemon

import (
	"context"
	"encoding/json"
	"errors"
	"fmt"
	"net"
	"os"
	"path/filepath"
	"strings"
	"testing"
	"time"

	"github.com/coreos/go-systemd/journal"
	"go.uber.org/zap"
	"go.uber.org/zap/zapcore"
)

// An event is a line of JSON on standard error, whatever stands in it, and none is left out; below the level nothing is told.
func TestLines(t *testing.T) {
	file, err := os.Create(filepath.Join(t.TempDir(), "log"))
	if err != nil {
		t.Fatal(err)
	}
	before := os.Stderr
	os.Stderr = file
	log, err := Logger("warn")
	os.Stderr = before
	if err != nil {
		t.Fatal(err)
	}
	log.Info("a call")
	for at := 0; at < 1000; at++ {
		log.Warn("a call", zap.String("volume", "a\nb\"\u2028"), zap.Duration("took", 1500*time.Millisecond))
	}
	content, _ := os.ReadFile(file.Name())
	lines := strings.Split(strings.TrimSuffix(string(content), "\n"), "\n")
	var first struct {
		Level, Msg, Volume, Ts string
		Took                   float64
	}
	if err := json.Unmarshal([]byte(lines[0]), &first); err != nil || len(lines) != 1000 {
		t.Fatalf("%d lines, %v", len(lines), err)
	}
	if _, err := time.Parse(time.RFC3339Nano, first.Ts); err != nil || first.Level != "warn" || first.Volume != "a\nb\"\u2028" || first.Took != 1.5 {
		t.Errorf("%+v, %v", first, err)
	}
	for _, level := range []string{"loud", "fatal", "INFO"} {
		if _, err := Logger(level); err == nil {
			t.Errorf("another level, %s", level)
		}
	}
	if debug, err := Logger("debug"); err != nil || !debug.Core().Enabled(zapcore.DebugLevel) {
		t.Errorf("debug: %v", err)
	}
}

// To the journal an event is a message of one line, and a field for each key.
func TestJournal(t *testing.T) {
	var said []string
	core := hold(zapcore.InfoLevel, &toJournal{send: func(message string, priority journal.Priority, variables map[string]string) error {
		if at, err := time.Parse(time.RFC3339Nano, variables["TUFAYON_TS"]); err != nil || time.Since(at) > time.Minute {
			t.Errorf("it is of %v, %v", at, err)
		}
		delete(variables, "TUFAYON_TS")
		said = append(said, fmt.Sprint(message, " ", priority, " ", variables))
		return nil
	}})
	log := zap.New(core).With(zap.String("set", "s1"))
	log.Debug("nothing")
	log.Error("a call", zap.String("volume", "a\nb"), zap.Error(errors.New("no reply")), zap.Uint64("call", 7), zap.Duration("took", 1500*time.Microsecond))
	want := `a call {"call":"7","error":"no reply","set":"s1","took":"0.0015","volume":"a\nb"} 3 map[TUFAYON_CALL:7 TUFAYON_ERROR:no reply TUFAYON_SET:s1 ` +
		"TUFAYON_TOOK:0.0015 TUFAYON_VOLUME:a\nb]"
	if len(said) != 1 || said[0] != want {
		t.Errorf("it is %q", said)
	}
}

// What systemd is told, by its protocol: a datagram for each, with lines of NAME=VALUE.
func TestNotify(t *testing.T) {
	path := filepath.Join(t.TempDir(), "notify")
	socket, err := net.ListenUnixgram("unixgram", &net.UnixAddr{Name: path, Net: "unixgram"})
	if err != nil {
		t.Fatal(err)
	}
	defer socket.Close()
	t.Setenv("NOTIFY_SOCKET", path)
	t.Setenv("WATCHDOG_USEC", "30000")
	t.Setenv("WATCHDOG_PID", fmt.Sprint(os.Getpid()))
	next := func(want string) {
		t.Helper()
		buffer := make([]byte, 4096)
		socket.SetReadDeadline(time.Now().Add(10 * time.Second))
		count, err := socket.Read(buffer)
		if err != nil || string(buffer[:count]) != want {
			t.Errorf("it is told %q, %v, not %q", buffer[:count], err, want)
		}
	}
	Ready("waits\nfor the store")
	next("READY=1\nSTATUS=waits for the store")
	Status("leads")
	next("STATUS=leads")
	Ready("x" + strings.Repeat("\u00e9", 4000)) // as a hook may have failed with
	next("READY=1\nSTATUS=x" + strings.Repeat("\u00e9", 511))
	ctx, end := context.WithCancel(context.Background())
	Watchdog(ctx, func() bool { return true })
	next("WATCHDOG=1")
	next("WATCHDOG=1")
	end()
	time.Sleep(50 * time.Millisecond)
	for socket.SetReadDeadline(time.Now().Add(50 * time.Millisecond)); err == nil; {
		_, err = socket.Read(make([]byte, 4096))
	}
	Watchdog(context.Background(), func() bool { return false })
	Stopping()
	next("STOPPING=1")
}
