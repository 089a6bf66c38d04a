package history

import (
	"encoding/json"
	"math/rand"
	"reflect"
	"testing"
	"time"

	"tufayon/service/frames"
	"tufayon/service/host"
	"tufayon/service/records"
)

var texts = []string{"", "v", "n1", "/srv/a b", "a\nb", `"\`, "<&>", "\x7f", "ä€", "\xff", "\u2028"}

// drawing draws entries and rows.
type drawing struct{ *rand.Rand }

func (it drawing) text() string { return texts[it.Intn(len(texts))] }

func (it drawing) capability() frames.Capability {
	if it.Intn(2) == 0 {
		return frames.Capability{Mode: uint8(it.Intn(8))}
	}
	return frames.Capability{Mount: true, FsType: it.text(), Mode: uint8(it.Intn(8))}
}

func (it drawing) capabilities() []frames.Capability {
	var list []frames.Capability
	for count := it.Intn(4); count > 0; count-- {
		list = append(list, it.capability())
	}
	return list
}

func (it drawing) call() *Call {
	if it.Intn(2) == 0 {
		return nil
	}
	return &Call{Number: frames.Number{Session: it.Uint64(), Call: it.Uint64()}, Kind: it.text(), Plugin: it.text()}
}

func (it drawing) row() *records.Row {
	row := &records.Row{
		Wanted: records.Wanted{
			Name: it.text(), Required: it.Uint64(), Limit: uint64(it.Intn(2)), Capabilities: it.capabilities(), Goal: records.Goal(it.Intn(5)),
			Node: it.text(), Target: it.text(), Capability: it.capability(), Readonly: it.Intn(2) == 0,
		},
		ID: it.Uint64(), Exists: records.Known(it.Intn(3)), Tries: uint8(it.Intn(4)),
	}
	for count := it.Intn(3); count > 0; count-- {
		at := records.At{
			Node: it.text(), Capability: it.capability(), Readonly: it.Intn(2) == 0, Attached: records.Known(it.Intn(3)), Staged: records.Known(it.Intn(3)),
		}
		for targets := it.Intn(3); targets > 0; targets-- {
			at.Targets = append(at.Targets, records.Target{Path: it.text(), Published: records.Known(it.Intn(3))})
		}
		row.At = append(row.At, at)
	}
	return row
}

// readBack is what is read of a line.
func readBack(t *testing.T, line []byte) (entry Entry) {
	t.Helper()
	if err := json.Unmarshal(line, &entry); err != nil {
		t.Fatalf("%s: %v", line, err)
	}
	return entry
}

// What is written of an entry is read as what encoding/json says of it, whatever stands in it.
func TestEntries(t *testing.T) {
	it := drawing{rand.New(rand.NewSource(1))}
	whats := []string{reply, none, timeout, session, lose, "create", "use"}
	count := 2000
	if testing.Short() {
		count = 500
	}
	for at := 0; at < count; at++ {
		entry := Entry{
			Time: it.Int63(), Session: it.Uint64(), What: whats[it.Intn(len(whats))], Name: it.text(), Outcome: it.text(), Call: it.call(),
			Status: uint8(it.Intn(3)), Volume: uint64(it.Intn(2)), Detail: it.text(), Sent: it.call(), IsCut: it.Intn(2) == 0,
		}
		if it.Intn(2) == 0 {
			entry.Event = json.RawMessage(`{"delete":"v"}`)
		}
		if it.Intn(4) > 0 {
			entry.Row = it.row()
		}
		if entry.What == session {
			entry.Rows, entry.Nodes = map[string]*records.Row{"v": it.row(), "w": nil}, []string{"n1"}
		}
		want, err := json.Marshal(&entry)
		if got := appendEntry(nil, &entry); err != nil || !reflect.DeepEqual(readBack(t, got), readBack(t, want)) {
			t.Fatalf("%+v is written as\n%s, not\n%s, %v", entry, got, want, err)
		}
	}
}

// A command is what a schedule has: docs/LINES.md, "Schedules". Keys are in their order.
func TestEvents(t *testing.T) {
	any := frames.Capability{Mount: true, Mode: 5}
	for want, command := range map[string]host.Command{
		`{"create":{"capabilities":[],"limit":0,"name":"v","required":1}}`: {Kind: host.Create, Name: "v", Required: 1},
		`{"create":{"capabilities":[{"access":"block","mode":1},{"access":"mount","fs":"","mode":5}],"limit":9,"name":"a\nb","required":0}}`: {
			Kind: host.Create, Name: "a\nb", Limit: 9, Capabilities: []frames.Capability{block, any},
		},
		`{"use":{"capability":{"access":"mount","fs":"ext4","mode":5},"name":"v","node":"n1","readonly":true,"target":"/a"}}`: {
			Kind: host.Use, Name: "v", Node: "n1", Target: "/a", Capability: anywhere, Readonly: true,
		},
		`{"stop":{"name":"v","node":"n1","target":"/a"}}`: {Kind: host.Stop, Name: "v", Node: "n1", Target: "/a"},
		`{"delete":"v"}`: {Kind: host.Delete, Name: "v"},
	} {
		command := command
		if event := appendEvent(nil, &command); string(event) != want {
			t.Errorf("%+v is %s, not %s", command, event, want)
		}
	}
}

// What is written of something that happened is what is written of its entry.
func TestHappenings(t *testing.T) {
	it, names := drawing{rand.New(rand.NewSource(2))}, plugins{}
	call := func() frames.Call {
		number := frames.Number{Session: it.Uint64(), Call: it.Uint64()}
		if it.Intn(2) == 0 {
			return frames.Call{Number: number, Body: frames.DeleteVolume{ID: 1}}
		}
		return frames.Call{Number: number, Node: it.text(), Body: frames.NodePublishVolume{ID: 1}}
	}
	for at := 0; at < 2000; at++ {
		happened := host.Happening{
			What: host.What(it.Intn(4)), Time: time.UnixMilli(it.Int63n(1 << 42)), Session: it.Uint64(), Name: it.text(), IsMet: it.Intn(2) == 0,
			Refusal: host.Refusal(it.Intn(20)), Call: call(), Why: it.text(), Row: it.row(),
			Reply: frames.Reply{Status: uint8(it.Intn(3)), Volume: uint64(it.Intn(2)), Detail: it.text()},
			Command: host.Command{
				Kind: host.Kind(it.Intn(4)), Name: it.text(), Required: it.Uint64(), Capabilities: it.capabilities(), Node: it.text(), Target: it.text(),
				Capability: it.capability(), Readonly: it.Intn(2) == 0,
			},
		}
		if it.Intn(2) == 0 {
			sent := call()
			happened.Sent = &sent
		}
		if it.Intn(4) == 0 {
			happened.Row = nil
		}
		var entry Entry
		names.keepIn(&entry, &happened)
		if got, want := names.appendHappening(nil, &happened), appendLine(nil, &entry); string(got) != string(want) {
			t.Fatalf("%+v is written as\n%s, not\n%s", happened, got, want)
		}
	}
}
