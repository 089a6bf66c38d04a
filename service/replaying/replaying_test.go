package replaying

import (
	"context"
	"encoding/json"
	"errors"
	"os"
	"path/filepath"
	"strings"
	"testing"
)

var ctx = context.Background()

// program is what stands in for csi-replay: a script, to which $1 says what it is to do with the schedule in the file $2.
func program(t *testing.T, script string) string {
	t.Helper()
	path := filepath.Join(t.TempDir(), "program")
	if err := os.WriteFile(path, []byte("#!/bin/sh\n"+script), 0o700); err != nil {
		t.Fatal(err)
	}
	return path
}

func schedule(outcomes ...string) *Schedule {
	made := &Schedule{Config: json.RawMessage(`{"greatest":1,"nodes":[]}`), Outcomes: outcomes}
	for range outcomes {
		made.Events = append(made.Events, json.RawMessage(`{"timeout":"v"}`))
	}
	return made
}

// The program is asked for what is wanted, of the schedule as docs/LINES.md has one, whose file is gone then.
func TestDraw(t *testing.T) {
	t.Setenv("TMPDIR", t.TempDir())
	drawn, err := schedule("met", "met").Draw(ctx, program(t, `echo "$1"; cat "$2"`))
	word, file, _ := strings.Cut(string(drawn), "\n")
	var read struct {
		Config json.RawMessage
		Events []struct{ Timeout string }
	}
	if err != nil || word != "draw" || json.Unmarshal([]byte(file), &read) != nil {
		t.Fatalf("%s: %v", drawn, err)
	}
	if string(read.Config) != `{"greatest":1,"nodes":[]}` || len(read.Events) != 2 || read.Events[1].Timeout != "v" {
		t.Errorf("the schedule is %s", file)
	}
	if left, err := os.ReadDir(os.Getenv("TMPDIR")); err != nil || len(left) != 0 {
		t.Errorf("%d files are left, %v", len(left), err)
	}
}

// Why the program gives nothing is what it says, or how it ended; and a picture may have so many bytes.
func TestFails(t *testing.T) {
	defer func(most int) { mostOutput = most }(mostOutput)
	mostOutput = 100
	for script, why := range map[string]string{
		"echo 'fault at event 2' >&2; exit 1": "fault at event 2", "exit 3": "exit status 3", "head -c 101 /dev/zero": errLarge.Error(),
	} {
		if drawn, err := schedule("met").Draw(ctx, program(t, script)); err == nil || err.Error() != why {
			t.Errorf("%s: %d bytes, %v", script, len(drawn), err)
		}
	}
	if _, err := schedule("met").Draw(ctx, filepath.Join(t.TempDir(), "missing")); !errors.Is(err, os.ErrNotExist) {
		t.Errorf("no program: %v", err)
	}
	gone, end := context.WithCancel(ctx)
	end()
	if _, err := schedule("met").Draw(gone, program(t, "sleep 60")); !errors.Is(err, context.Canceled) {
		t.Errorf("who asked has gone: %v", err)
	}
}

// A run is held against what happened, event by event, up to the first that comes to something else.
func TestCheck(t *testing.T) {
	for _, it := range []struct {
		report string
		at     int
		why    string
	}{
		{`{"events":["sent 1","met"]}`, 0, ""},
		{`{"events":["sent 1"]}`, 0, ""},
		{`{"events":["sent 1","sent 2"]}`, 2, `{"timeout":"v"} came to "met", and in a run to "sent 2"`},
	} {
		at, why, err := schedule("sent 1", "met").Check(ctx, program(t, `[ "$1" = run ] && echo '`+it.report+`'`))
		if at != it.at || why != it.why || err != nil {
			t.Errorf("%s: %d, %s, %v", it.report, at, why, err)
		}
	}
	if _, _, err := schedule("met").Check(ctx, program(t, "echo nonsense")); err == nil || !strings.HasPrefix(err.Error(), "the report: ") {
		t.Errorf("no report: %v", err)
	}
	fewer := schedule("met")
	fewer.Outcomes = nil // as of another version's service
	for _, it := range []*Schedule{schedule("met"), fewer} {
		if _, _, err := it.Check(ctx, program(t, `echo '{"events":["met","met"]}'`)); err == nil || !strings.HasPrefix(err.Error(), "the report: it has 2 events") {
			t.Errorf("a report of more events: %v", err)
		}
	}
	if _, _, err := schedule("met").Check(ctx, program(t, "exit 1")); err == nil {
		t.Error("a program that fails")
	}
}
