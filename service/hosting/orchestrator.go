// Package hosting carries what an orchestrator decides: its calls as CSI's gRPC calls to the drivers' sockets, and what comes of them back to it.
package hosting

import (
	"encoding/json"
	"errors"
	"fmt"
	"os"
	"os/signal"
	"syscall"

	"tufayon/service/lines"
	"tufayon/service/numbers"
	"tufayon/service/plugin"
)

// MostTogether is how many lines are answered together at most.
const MostTogether = 64

// ErrOrchestrator says that the program of an orchestrator ended, or wrote what no orchestrator writes.
var ErrOrchestrator = errors.New("the orchestrator")

// An Orchestrator answers lines by lines, as docs/LINES.md, "The lines of `csi-replay orchestrator`", has them: the library's (Open), or a program
// that runs beside this one (Run). What an answer says is committed. One thread asks, that which made it.
type Orchestrator interface {
	// Answers gives the answers to lines, in their order, once all that they changed is committed. Where it fails, nothing more is to be asked; the
	// answers that it gives then are those of the lines before, which are committed.
	Answers(lines [][]byte) ([]Answer, error)
	// Close ends it.
	Close() error
}

// An Answer is a line of an orchestrator's, and what it says.
type Answer struct {
	Line    []byte          `json:"-"`
	Goal    json.RawMessage `json:"goal"`
	Name    string          `json:"name"`
	Outcome string          `json:"outcome"`
	Send    *Sending        `json:"send"`
	Wanted  []string        `json:"wanted"` // of the first line
	Node    string          `json:"node"`   // of an answer about a loss
}

// A Sending is a call to be sent.
type Sending struct {
	Frame  string `json:"frame"` // in hexadecimal
	Plugin string `json:"plugin"`
}

// HasGoal says whether something is wanted of the volume now.
func (answer Answer) HasGoal() bool { return len(answer.Goal) > 0 && string(answer.Goal) != "null" }

// IsLoss says whether a node was lost: a session began, and every call under way was given up.
func (answer Answer) IsLoss() bool { return answer.Node != "" && answer.Outcome == lines.HasLost }

// answerOf reads what a line says, which ends with its newline.
func answerOf(line []byte) (Answer, error) {
	answer := Answer{Line: line}
	if err := json.Unmarshal(line, &answer); err != nil {
		return Answer{}, fmt.Errorf("%w: %v", ErrOrchestrator, err)
	}
	return answer, nil
}

// OutliveReader has what is written fail where nobody reads it any more, so that it is told and ends in order, as csi-replay does: Go would end the process
// by SIGPIPE. What it starts isn't concerned.
func OutliveReader() { signal.Notify(make(chan os.Signal, 1), syscall.SIGPIPE) }

// StatusOf is the exit status of an end, as csi-replay's.
func StatusOf(err error) int {
	switch {
	case err == nil:
		return 0
	case errors.Is(err, plugin.BadName), errors.Is(err, plugin.BadRecord), errors.Is(err, plugin.NodeInUse), errors.Is(err, plugin.OlderStore),
		errors.Is(err, numbers.ErrSpent),
		errors.Is(err, lines.ErrLong):
		return 1
	}
	return 3
}
