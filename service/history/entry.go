package history

import (
	"encoding/json"
	"fmt"
	"strconv"
	"strings"
	"time"

	"google.golang.org/grpc/codes"

	"tufayon/service/carrying"
	"tufayon/service/frames"
	"tufayon/service/host"
	"tufayon/service/records"
)

// An Entry is an event of the service, as it is kept: a line of JSON.
type Entry struct {
	Time    int64  `json:"time"` // Unix milliseconds
	Session uint64 `json:"session"`
	What    string `json:"what"`           // create, use, stop, delete, reply, none, timeout, session or lose
	Name    string `json:"name,omitempty"` // the volume's

	Event   json.RawMessage `json:"event,omitempty"`   // of a command, a timeout or a loss: as a schedule has it
	Outcome string          `json:"outcome,omitempty"` // of a command: sent, met, or "refused 4 Busy"
	Call    *Call           `json:"call,omitempty"`    // of a reply, or of none: the call
	Status  uint8           `json:"status,omitempty"`  // of a reply
	Volume  uint64          `json:"volume,omitempty"`  // of a reply that made one: its id
	Detail  string          `json:"detail,omitempty"`  // of a reply, or of none: why; of a session: why it began
	Sent    *Call           `json:"sent,omitempty"`    // the call that is made now
	Nodes   []string        `json:"nodes,omitempty"`   // of a session or a loss: the list
	Config  json.RawMessage `json:"config,omitempty"`  // of a session: CONFIG
	Row     *records.Row    `json:"row,omitempty"`     // as the volume is then

	// IsCut says that something is missing between this and what the volume was like later: it is told, and is no part of a schedule.
	IsCut bool                    `json:"cut,omitempty"`
	Rows  map[string]*records.Row `json:"rows,omitempty"` // of a session or a loss: as the volumes are then that it changed; null of names that are free

	at where // of a use or a stop that came since this process began, and isn't packed
}

// where is what a command says beside the name.
type where struct{ Node, Target string }

// What entries are of, beside the commands.
const (
	reply   = "reply"
	none    = "none"
	timeout = "timeout"
	session = "session"
	lose    = "lose"
	sent    = "sent"
	met     = "met"
)

// A Call is one of the orchestrator's.
type Call struct {
	Number frames.Number `json:"number"`
	Kind   string        `json:"kind"`
	Plugin string        `json:"plugin"`
}

// String is as a log has it.
func (call Call) String() string { return string(call.appendTo(nil)) }

func (call *Call) appendTo(to []byte) []byte {
	to = strconv.AppendUint(append(append(to, call.Kind...), ' '), call.Number.Session, 10)
	to = strconv.AppendUint(append(to, '.'), call.Number.Call, 10)
	return append(append(to, " to "...), call.Plugin...)
}

// plugins are names of plugins, each made once.
type plugins map[string]string // by the nodes' ids

// of is the name of the plugin that a call goes to.
func (names plugins) of(call *frames.Call) string {
	if !call.Kind().OfNode() {
		return carrying.Controller
	}
	name, isThere := names[call.Node]
	if !isThere {
		name = carrying.NodeName(call.Node)
		names[call.Node] = name
	}
	return name
}

func (names plugins) callOf(call *frames.Call) *Call {
	return &Call{Number: call.Number, Kind: call.Kind().String(), Plugin: names.of(call)}
}

// keepIn has an entry, which is empty, be what is kept of something that happened.
func (names plugins) keepIn(entry *Entry, it *host.Happening) {
	entry.Time, entry.Session, entry.Name, entry.Row = it.Time.UnixMilli(), it.Session, it.Name, it.Row
	if it.Sent != nil {
		entry.Sent = names.callOf(it.Sent)
	}
	switch it.What {
	case host.Commanded:
		entry.What, entry.Event, entry.Outcome = commandNames[it.Command.Kind], appendEvent(make([]byte, 0, 160), &it.Command), outcomeOf(it)
		entry.at = where{it.Command.Node, it.Command.Target}
	case host.Replied:
		entry.What, entry.Call, entry.Status, entry.Volume, entry.Detail = reply, names.callOf(&it.Call), it.Reply.Status, it.Reply.Volume, it.Reply.Detail
	case host.Unanswered:
		entry.What, entry.Call, entry.Detail = none, names.callOf(&it.Call), it.Why
	case host.TimedOut:
		entry.What, entry.Event = timeout, encode(map[string]string{timeout: it.Name})
	case host.Began:
		entry.What, entry.Nodes, entry.Detail = session, it.Nodes, it.Why
	case host.Lost:
		entry.What, entry.Nodes, entry.Event = lose, it.Nodes, encode(map[string]string{lose: it.Node})
	}
}

// outcomeOf is what a command came to.
func outcomeOf(it *host.Happening) string {
	switch {
	case it.IsMet:
		return met
	case it.Refusal != 0:
		return fmt.Sprintf("refused %d %s", uint32(it.Refusal), it.Refusal.Name())
	}
	return sent
}

// Text is what the entry says, in a line, without its time and name.
func (entry *Entry) Text() string { return string(entry.AppendText(nil)) }

// AppendText appends that.
func (entry *Entry) AppendText(to []byte) []byte {
	switch entry.What {
	case reply:
		to = append(append(entry.Call.appendTo(to), ": "...), codes.Code(entry.Status).String()...)
		if entry.Detail != "" {
			to = append(append(to, ' '), entry.Detail...)
		}
	case none:
		return append(append(entry.Call.appendTo(to), ": "...), entry.Detail...)
	case timeout:
		to = append(to, timeout...)
	case session:
		return fmt.Appendf(to, "session %d begins: %s", entry.Session, entry.Detail)
	case lose:
		var event map[string]string
		_ = json.Unmarshal(entry.Event, &event) // this package wrote it
		return fmt.Appendf(to, "node %s is lost, session %d begins", event[lose], entry.Session)
	default:
		to = entry.appendAsked(to)
		if entry.Outcome != sent {
			return append(append(to, ": "...), entry.Outcome...)
		}
	}
	if entry.Sent != nil {
		to = entry.Sent.appendTo(append(to, ", sends "...))
	} else if entry.What == reply {
		to = append(to, ", at rest"...)
	}
	return to
}

// node is the one that a command names.
func (entry *Entry) node() string {
	var event map[string]struct{ Node string }
	_ = json.Unmarshal(entry.Event, &event) // of a delete the value is a text
	return event[entry.What].Node
}

// appendAsked appends the command, without the volume's name.
func (entry *Entry) appendAsked(to []byte) []byte {
	at := entry.at
	if at.Node == "" && (entry.What == commandNames[host.Use] || entry.What == commandNames[host.Stop]) {
		var event map[string]where
		_ = json.Unmarshal(entry.Event, &event) // this package wrote it
		at = event[entry.What]
	}
	if at.Node == "" {
		return append(to, entry.What...)
	}
	return append(append(append(append(append(to, entry.What...), " at "...), at.Node...), ' '), at.Target...)
}

// At is the entry's time.
func (entry *Entry) At() time.Time { return time.UnixMilli(entry.Time) }

// encode is a value as JSON, which texts, numbers and lists of them always can be. Bytes that are no UTF-8 become U+FFFD, as a schedule can't have them.
func encode(value any) json.RawMessage {
	bytes, _ := json.Marshal(value)
	return bytes
}

// IsWrong says whether something was refused, got no reply, or was given up for lost.
func (entry *Entry) IsWrong() bool {
	return entry.What == none || entry.What == lose || entry.What == reply && entry.Status != 0 || strings.HasPrefix(entry.Outcome, "refused")
}
