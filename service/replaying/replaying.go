// Package replaying has csi-replay, a program, run and draw what happened.
package replaying

import (
	"bytes"
	"context"
	"encoding/json"
	"errors"
	"fmt"
	"os"
	"os/exec"
)

// mostOutput is how many bytes a picture, or a report, may have: fewer in a test.
var mostOutput = 64 << 20

// errLarge says that a picture is larger.
var errLarge = errors.New("it is too large")

// A Schedule is what happened as csi-replay runs and draws it: docs/LINES.md, "Schedules". What a driver did with a call is known by its reply alone: so
// a call is delivered when its reply came, and one that got none never.
type Schedule struct {
	Config   json.RawMessage
	Events   []json.RawMessage
	Outcomes []string // what each event came to, as a report has it
}

// JSON is the schedule, an event a line.
func (made *Schedule) JSON() []byte {
	var text bytes.Buffer
	fmt.Fprintf(&text, "{\"config\":%s,\n \"events\":[", made.Config)
	for at, event := range made.Events {
		if at > 0 {
			text.WriteByte(',')
		}
		text.WriteString("\n  ")
		text.Write(event)
	}
	text.WriteString("\n]}\n")
	return text.Bytes()
}

// Draw has csi-replay, a program, draw it.
func (made *Schedule) Draw(ctx context.Context, program string) ([]byte, error) {
	return made.Replay(ctx, program, "draw")
}

// Replay has csi-replay do something with it.
func (made *Schedule) Replay(ctx context.Context, program, what string) ([]byte, error) {
	file, err := os.CreateTemp("", "schedule")
	if err != nil {
		return nil, err
	}
	defer os.Remove(file.Name())
	_, err = file.Write(made.JSON())
	if closed := file.Close(); err == nil {
		err = closed
	}
	if err != nil {
		return nil, err
	}
	command := exec.CommandContext(ctx, program, what, file.Name())
	var faults bytes.Buffer
	command.Stderr = &faults
	output, err := command.Output()
	switch {
	case err != nil && faults.Len() > 0:
		return nil, errors.New(string(bytes.TrimSpace(faults.Bytes())))
	case err != nil:
		return nil, err
	case len(output) > mostOutput:
		return nil, errLarge
	}
	return output, nil
}

// Check has csi-replay run it, and says at which event, from 1, the run comes to something else than what happened, and to what: 0 where it doesn't.
func (made *Schedule) Check(ctx context.Context, program string) (at int, why string, err error) {
	output, err := made.Replay(ctx, program, "run")
	if err != nil {
		return 0, "", err
	}
	var report struct {
		Events []string `json:"events"`
	}
	if err := json.Unmarshal(output, &report); err != nil {
		return 0, "", fmt.Errorf("the report: %w", err)
	}
	if most := len(made.Outcomes); len(report.Events) > most || len(made.Events) < most {
		return 0, "", fmt.Errorf("the report: it has %d events, and the schedule %d with %d outcomes", len(report.Events), len(made.Events), most)
	}
	for at, outcome := range report.Events {
		if outcome != made.Outcomes[at] {
			return at + 1, fmt.Sprintf("%s came to %q, and in a run to %q", made.Events[at], made.Outcomes[at], outcome), nil
		}
	}
	return 0, "", nil
}
