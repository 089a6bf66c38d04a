package hosting

import (
	"bytes"
	"context"
	"encoding/hex"
	"errors"
	"fmt"
	"net"
	"os"
	"path/filepath"
	"strings"
	"sync/atomic"
	"syscall"
	"testing"
	"time"

	"google.golang.org/grpc"
	"google.golang.org/grpc/codes"
	"google.golang.org/grpc/status"

	"tufayon/service/carrying/carryingtest"
	"tufayon/service/frames"
)

// asked is an orchestrator that wants nothing, and notes what it is asked together.
type asked struct {
	groups []int
	lines  []string
	fault  int // the line that it fails at, from 1; 0 for none
	closed bool
}

var errAsked = errors.New("memory")

func (asked *asked) Answers(lines [][]byte) ([]Answer, error) {
	asked.groups = append(asked.groups, len(lines))
	var answers []Answer
	for _, line := range lines {
		asked.lines = append(asked.lines, string(line))
		if len(asked.lines) == asked.fault {
			return answers, errAsked
		}
		answers = append(answers, Answer{Line: []byte(fmt.Sprintf("answer to %s\n", line))})
	}
	return answers, nil
}

func (asked *asked) Close() error { asked.closed = true; return nil }

// slowly waits before each write, so that lines wait behind it.
type slowly struct{ bytes.Buffer }

func (output *slowly) Write(text []byte) (int, error) {
	time.Sleep(20 * time.Millisecond)
	return output.Buffer.Write(text)
}

// Lines that wait are answered together, in their order, and a loss ends a group; where the orchestrator fails, what it answered before is printed.
func TestTogether(t *testing.T) {
	var input, want strings.Builder
	losses := []string{`{"lose":"n1"}`, `{"l\u006fse":"n1"}`}
	want.WriteString("first\n")
	for at := 0; at < 200; at++ {
		line := fmt.Sprintf(`{"create":"v%d"}`, at)
		if at%50 == 7 {
			line = losses[at/50%2]
		}
		fmt.Fprintln(&input, line)
		fmt.Fprintf(&want, "answer to %s\n", line)
	}
	for _, fault := range []int{0, 123} {
		orchestrator, output := &asked{fault: fault}, &slowly{}
		err := Serve(context.Background(), Config{}, orchestrator, Answer{Line: []byte("first\n")}, strings.NewReader(input.String()), output)
		right := want.String()
		if fault > 0 {
			right = strings.Join(strings.SplitAfter(right, "\n")[:fault], "")
		}
		if errors.Is(err, errAsked) != (fault > 0) || output.String() != right || !orchestrator.closed {
			t.Errorf("it ended by %v, after %d lines", err, strings.Count(output.String(), "\n"))
		}
		from := 0
		for _, count := range orchestrator.groups {
			for at := from; at < from+count-1; at++ {
				if at < len(orchestrator.lines) && (orchestrator.lines[at] == losses[0] || orchestrator.lines[at] == losses[1]) {
					t.Errorf("line %d, a loss, is in the midst of a group", at)
				}
			}
			from += count
		}
	}
}

// A program is written to and read from at once, so that neither waits for the other.
func TestProcess(t *testing.T) {
	running, first, err := Run("sh", "-c", `echo '{"wanted":["v"]}'; while read -r line; do echo '{"name":"'"$line"'"}'; done`)
	if err != nil || len(first.Wanted) != 1 {
		t.Fatalf("its first line is %+v, %v", first, err)
	}
	var asked [][]byte
	for at := 0; at < MostTogether; at++ {
		asked = append(asked, bytes.Repeat([]byte("x"), 4000))
	}
	if pid := running.(*process).command.Process.Pid; !leads(pid) {
		t.Error("a terminal interrupts it beside its host")
	}
	answers, err := running.Answers(asked)
	if err != nil || len(answers) != len(asked) || len(answers[63].Name) != 4000 {
		t.Errorf("%d answers, %v", len(answers), err)
	}
	if err := running.Close(); err != nil {
		t.Error(err)
	}
	if _, err := running.Answers(asked[:1]); !errors.Is(err, ErrOrchestrator) {
		t.Errorf("a program that ended: %v", err)
	}
}

// leads says whether a process has a group of its own.
func leads(pid int) bool {
	group, err := syscall.Getpgid(pid)
	return err == nil && group == pid
}

// A driver that hangs up is sought again and again, but no more than ten times in the first half of a second.
func TestReconnecting(t *testing.T) {
	path := filepath.Join(t.TempDir(), "csi.sock")
	listener, err := net.Listen("unix", path)
	if err != nil {
		t.Fatal(err)
	}
	defer listener.Close()
	var sought int32
	go func() {
		for {
			connection, err := listener.Accept()
			if err != nil {
				return
			}
			atomic.AddInt32(&sought, 1)
			connection.Close()
		}
	}()
	carrier, err := connect(Config{Controller: "unix://" + path})
	if err != nil {
		t.Fatal(err)
	}
	defer carrier.close()
	time.Sleep(500 * time.Millisecond)
	if count := atomic.LoadInt32(&sought); count < 2 || count > 10 {
		t.Errorf("it was sought %d times", count)
	}
}

// A driver's socket is reached without the proxy that the environment has.
func TestProxy(t *testing.T) {
	if !carryingtest.HasProxy(t) {
		return
	}
	driver := (&carryingtest.Plugin{}).Serve(t, "unix://"+filepath.Join(t.TempDir(), "csi.sock"), nil)
	carrier, err := connect(Config{Controller: driver.Address, DeadlineSeconds: 5})
	if err != nil {
		t.Fatal(err)
	}
	defer carrier.close()
	frame, err := frames.Call{Number: frames.Number{Session: 1, Call: 1}, Body: frames.DeleteVolume{ID: 1}}.Encode()
	if err != nil {
		t.Fatal(err)
	}
	if reply, err := carrier.carry(context.Background(), Sending{Frame: hex.EncodeToString(frame), Plugin: "controller"}); err != nil || reply == nil {
		t.Errorf("it replied %x, %v", reply, err)
	}
}

// creating is an orchestrator that wants a volume, and sends the call that makes it at each timeout.
type creating struct {
	send  Sending
	asked int32
}

func (creating *creating) Answers(lines [][]byte) ([]Answer, error) {
	answers := make([]Answer, len(lines))
	for at := range lines {
		atomic.AddInt32(&creating.asked, 1)
		answers[at] = Answer{Line: []byte("sent\n"), Name: "v", Goal: []byte(`"create"`), Send: &creating.send}
	}
	return answers, nil
}

func (*creating) Close() error { return nil }

// A driver that refuses each call at once, as one that isn't ready, is called again no sooner than a timeout would be told.
func TestRefusedAtOnce(t *testing.T) {
	path := filepath.Join(t.TempDir(), "csi.sock")
	listener, err := net.Listen("unix", path)
	if err != nil {
		t.Fatal(err)
	}
	server := grpc.NewServer(grpc.UnknownServiceHandler(func(any, grpc.ServerStream) error { return status.Error(codes.Unavailable, "not ready") }))
	go server.Serve(listener)
	defer server.Stop()
	frame, err := frames.Call{Number: frames.Number{Session: 1, Call: 1}, Body: frames.DeleteVolume{ID: 1}}.Encode()
	if err != nil {
		t.Fatal(err)
	}
	wants := &creating{send: Sending{Frame: hex.EncodeToString(frame), Plugin: "controller"}}
	ctx, cancel := context.WithTimeout(context.Background(), time.Second)
	defer cancel()
	config := Config{Controller: "unix://" + path, DeadlineSeconds: 60, RetrySeconds: 0.2}
	Serve(ctx, config, wants, Answer{Line: []byte("first\n"), Wanted: []string{"v"}}, strings.NewReader(""), &bytes.Buffer{})
	if count := atomic.LoadInt32(&wants.asked); count < 2 || count > 7 {
		t.Errorf("in a second it is asked %d times", count)
	}
}

// A file is one object, whose times are some; a plugin without a socket in it can't be called.
func TestRead(t *testing.T) {
	file := filepath.Join(t.TempDir(), "host.json")
	for content, isOne := range map[string]bool{
		`{"store": "o.db", "retry_seconds": 0.1, "deadline_seconds": 1000000000}`: true, `{}`: true, "{}\n": true, `{} {}`: false, `{}]`: false, `[]`: false,
		`{"stor": "o.db"}`: false, `{"retry_seconds": 0}`: false, `{"deadline_seconds": -1}`: false, `{"retry_seconds": 1e300}`: false, ``: false,
	} {
		if err := os.WriteFile(file, []byte(content), 0o600); err != nil {
			t.Fatal(err)
		}
		if config, err := Read(file); (err == nil) != isOne {
			t.Errorf("%s: %+v, %v", content, config, err)
		}
	}
	carrier, err := connect(Config{DeadlineSeconds: 0.1})
	if err != nil {
		t.Fatal(err)
	}
	defer carrier.close()
	frame, err := frames.Call{Number: frames.Number{Session: 1, Call: 1}, Body: frames.DeleteVolume{ID: 1}}.Encode()
	if err != nil {
		t.Fatal(err)
	}
	if _, err := carrier.carry(context.Background(), Sending{Frame: hex.EncodeToString(frame), Plugin: "controller"}); err == nil {
		t.Error("a controller without a socket is called")
	}
}
