package daemon

import (
	"bytes"
	"encoding/binary"
	"fmt"
	"io"
	"net"
	"os"
	"os/exec"
	"path/filepath"
	"strings"
	"syscall"
	"testing"
	"time"

	"go.uber.org/zap"
)

const (
	inNamespace   = "TUFAYON_TEST_NAMESPACE" // in the environment of a test that runs in a mount namespace of its own
	journalSocket = "/run/systemd/journal/socket"
)

// What systemd's journal gets, at its own socket and by its own protocol, of a process whose standard error goes there: a datagram for each event with a
// field for each key, a value of several lines too; and a file, where a datagram would be too large.
func TestJournalSocket(t *testing.T) {
	if os.Geteuid() != 0 {
		t.Skip("left out, since there is no mount namespace: it needs root")
	}
	if os.Getenv(inNamespace) == "" {
		inside := exec.Command("/proc/self/exe", "-test.run", "^TestJournalSocket$")
		inside.Env = append(os.Environ(), inNamespace+"=1")
		inside.SysProcAttr = &syscall.SysProcAttr{Unshareflags: syscall.CLONE_NEWNS}
		if said, err := inside.CombinedOutput(); err != nil {
			t.Errorf("%v: %s", err, said)
		}
		return
	}
	if err := syscall.Mount("tmpfs", "/run", "tmpfs", 0, ""); err != nil {
		t.Fatal(err)
	}
	if err := os.MkdirAll(filepath.Dir(journalSocket), 0o700); err != nil {
		t.Fatal(err)
	}
	socket, err := net.ListenUnixgram("unixgram", &net.UnixAddr{Name: journalSocket, Net: "unixgram"})
	if err != nil {
		t.Fatal(err)
	}
	reader, writer, err := os.Pipe()
	if err != nil {
		t.Fatal(err)
	}
	before := os.Stderr
	os.Stderr = writer
	defer func() { os.Stderr = before }()
	t.Setenv("JOURNAL_STREAM", "1:2")
	if isJournal() {
		t.Error("another stream is taken for the journal's")
	}
	var stream syscall.Stat_t
	if err := syscall.Fstat(int(writer.Fd()), &stream); err != nil {
		t.Fatal(err)
	}
	t.Setenv("JOURNAL_STREAM", fmt.Sprintf("%d:%d", stream.Dev, stream.Ino))
	log, err := Logger("")
	if err != nil {
		t.Fatal(err)
	}
	log.Debug("nothing")
	log.With(zap.String("set", "s1")).Info("a call", zap.String("volume", "v"), zap.Uint64("call", 7), zap.String("detail", "a\nb"))
	log.Warn("a call got no reply", zap.String("volume", strings.Repeat("w", 1<<20)))
	first, second := received(t, socket), received(t, socket)
	for name, want := range map[string]string{
		"PRIORITY": "6", "MESSAGE": `a call {"call":"7","detail":"a\nb","set":"s1","volume":"v"}`, "TUFAYON_SET": "s1", "TUFAYON_VOLUME": "v", "TUFAYON_CALL": "7",
		"TUFAYON_DETAIL": "a\nb",
	} {
		if first[name] != want {
			t.Errorf("%s is %q, not %q", name, first[name], want)
		}
	}
	if second["PRIORITY"] != "4" || len(second["TUFAYON_VOLUME"]) != 1<<20 {
		t.Errorf("the second has %d fields, and a volume of %d bytes", len(second), len(second["TUFAYON_VOLUME"]))
	}
	writer.Close()
	if said, err := io.ReadAll(reader); err != nil || len(said) > 0 {
		t.Errorf("standard error got %q, %v", said, err)
	}
}

// received is what the journal gets next: its fields, by docs of systemd's "Native Journal Protocol".
func received(t *testing.T, socket *net.UnixConn) map[string]string {
	t.Helper()
	socket.SetReadDeadline(time.Now().Add(10 * time.Second))
	content, beside := make([]byte, 64<<10), make([]byte, 1<<10)
	count, rights, _, _, err := socket.ReadMsgUnix(content, beside)
	if err != nil {
		t.Fatal(err)
	}
	content = content[:count]
	if rights > 0 { // it is in a file
		messages, err := syscall.ParseSocketControlMessage(beside[:rights])
		if err != nil {
			t.Fatal(err)
		}
		files, err := syscall.ParseUnixRights(&messages[0])
		if err != nil {
			t.Fatal(err)
		}
		file := os.NewFile(uintptr(files[0]), "the entry")
		defer file.Close()
		if content, err = io.ReadAll(io.NewSectionReader(file, 0, 1<<30)); err != nil {
			t.Fatal(err)
		}
	}
	fields := map[string]string{}
	for len(content) > 0 {
		line, rest, _ := bytes.Cut(content, []byte("\n"))
		name, value, isOne := bytes.Cut(line, []byte("="))
		if !isOne { // a value of several lines
			size := binary.LittleEndian.Uint64(rest)
			value, rest = rest[8:8+size], rest[8+size+1:]
		}
		fields[string(name)], content = string(value), rest
	}
	return fields
}
