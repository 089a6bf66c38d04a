package history

import (
	"encoding/json"
	"fmt"
	"strings"

	"tufayon/service/frames"
	"tufayon/service/records"
	"tufayon/service/replaying"
)

// Schedule gives what is known as a schedule, of all volumes, or of one by its name: then sessions between which nothing happened to it are one, and
// what other volumes took of a node's slots is told by the controller's configuration. It begins with what brings the volumes to where they were before
// the first event that is kept, or of one volume before the last so many, if that isn't 0. Numbers of calls may differ from those of the service.
func (made *History) Schedule(name string, most int) *replaying.Schedule {
	made.mutex.Lock()
	defer made.mutex.Unlock()
	made.keep(made.come.take())
	first, entries := made.settled(), made.all(name)
	if made.before == 0 && made.beginsWith() == session {
		entries = entries[1:] // its list and rows are the base's
	}
	if name != "" {
		row := first.Rows[name]
		first.Rows = map[string]*records.Row{}
		if row != nil {
			first.Rows[name] = row
		}
		first, entries = since(first, entries, name, most)
	}
	making := newMaking(name, first)
	if name != "" {
		making.concern(entries)
	}
	making.begin()
	for at := range entries {
		if it := &entries[at]; !it.IsCut && (name == "" || it.Name == name || it.Name == "") {
			making.take(it)
		}
	}
	return making.schedule()
}

// since leaves out what was before the first entry of a name, or before the last so many, if that isn't 0.
func since(first base, entries []Entry, name string, most int) (base, []Entry) {
	count := 0
	for at := range entries {
		count += countIf(entries[at].Name == name && !entries[at].IsCut)
	}
	from := 0
	for at := range entries {
		it := &entries[at]
		if it.Name == name && !it.IsCut {
			if most == 0 || count <= most {
				break
			}
			count--
			first.Rows[name] = it.Row
			if it.Row == nil {
				delete(first.Rows, name)
			}
		}
		if row, isChanged := it.Rows[name]; isChanged {
			first.Rows[name] = row
			if row == nil {
				delete(first.Rows, name)
			}
		}
		if it.What == session || it.What == lose {
			first.Config, first.Nodes = it.Config, it.Nodes
		}
		from = at + 1
	}
	return first, entries[from:]
}

// making makes a schedule: it counts the frames as the run will.
type making struct {
	name     string // of the one volume, or empty
	first    base
	nodes    map[string]bool // those that concern the one volume; nil for all
	made     replaying.Schedule
	frames   int
	open     map[frames.Number]*delivery // calls by their numbers
	last     map[string]*delivery        // by the volume: the last call that was sent
	config   config                      // the controller's
	listed   []string                    // the orchestrator's
	gone     map[string]bool             // nodes that were lost
	extra    []string                    // nodes that stay listed, since what was before the first event uses them
	sessions []*Entry                    // that wait for an event of the volume
}

// A delivery is a call's: its frame, and that of the reply, 0 before it was delivered.
type delivery struct {
	frame, answer int
}

func newMaking(name string, first base) *making {
	it := &making{name: name, first: first, open: map[frames.Number]*delivery{}, last: map[string]*delivery{}, gone: map[string]bool{}}
	it.config = it.configOf(first.Config)
	it.listed = first.Nodes
	return it
}

func (it *making) schedule() *replaying.Schedule {
	if it.name == "" {
		it.flush()
	}
	return &it.made
}

// event adds an event, and what it comes to.
func (it *making) event(event json.RawMessage, outcome string) {
	it.made.Events = append(it.made.Events, event)
	it.made.Outcomes = append(it.made.Outcomes, outcome)
}

// sends counts a frame that is sent, and gives its number.
func (it *making) sends() int {
	it.frames++
	return it.frames
}

// sent counts the call that an entry sends, if it does, and gives its number.
func (it *making) sent(entry *Entry) (frame int, does bool) {
	if entry.Sent == nil {
		return 0, false
	}
	call := &delivery{frame: it.sends()}
	it.open[entry.Sent.Number], it.last[entry.Name] = call, call
	return call.frame, true
}

// take takes what an entry says.
func (it *making) take(entry *Entry) {
	switch entry.What {
	case none:
		return
	case session:
		it.sessions = append(it.sessions, entry)
		if it.name == "" {
			it.flush()
		}
		return
	case lose:
		it.flush()
		it.lose(entry)
		return
	}
	it.flush()
	switch entry.What {
	case reply:
		it.reply(entry)
	case timeout:
		if frame, does := it.sent(entry); does {
			it.event(entry.Event, fmt.Sprint("sent ", frame))
		}
	default:
		it.command(entry)
	}
}

// cantBe are refusals for which the orchestrator's whole record, or the machine's memory, would have to be the same.
var cantBe = []string{"NumbersSpent", "Full", "NoMemory"}

func (it *making) command(entry *Entry) {
	outcome := entry.Outcome
	for _, name := range cantBe {
		if strings.HasSuffix(outcome, name) {
			return
		}
	}
	if frame, does := it.sent(entry); does {
		outcome = fmt.Sprint("sent ", frame)
	}
	it.event(entry.Event, outcome)
}

// reply delivers a call, unless that was, and then its reply.
func (it *making) reply(entry *Entry) {
	call := it.open[entry.Call.Number]
	if call == nil {
		call = it.last[entry.Name] // it was sent before the first event
	}
	if call == nil {
		return
	}
	if it.name != "" && entry.Status == noRoom && entry.Call.Kind == frames.ControllerPublishVolumeKind.String() {
		it.withoutSlots(func() { it.deliver(call) })
	} else {
		it.deliver(call)
	}
	outcome := "taken"
	if frame, does := it.sent(entry); does {
		outcome = fmt.Sprint("taken, sent ", frame)
	}
	it.event(deliver(call.answer), outcome)
}

// deliver delivers a call, if it wasn't.
func (it *making) deliver(call *delivery) {
	if call.answer == 0 {
		call.answer = it.sends()
		it.event(deliver(call.frame), fmt.Sprint("answered ", call.answer))
	}
}

func deliver(frame int) json.RawMessage { return encode(map[string]int{"deliver": frame}) }
