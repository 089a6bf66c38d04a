package web

import (
	"encoding/json"
	"sort"
	"strconv"
	"strings"

	"tufayon/service/carrying"
	"tufayon/service/history"
	"tufayon/service/host"
	"tufayon/service/records"
)

// A volume is one as the page gets it. What is known is 0 for no, 1 for yes, 2 for maybe; times are Unix milliseconds.
type volume struct {
	Name    string        `json:"name"`
	ID      uint64        `json:"id,omitempty"`
	Exists  records.Known `json:"exists"`
	Goal    string        `json:"goal,omitempty"`
	Node    string        `json:"node,omitempty"`
	Target  string        `json:"target,omitempty"`
	Tries   uint8         `json:"tries,omitempty"`
	Since   int64         `json:"since,omitempty"`
	Plugin  string        `json:"plugin,omitempty"` // whose reply is waited for
	Call    string        `json:"call,omitempty"`   // that is under way, or was last
	Again   int64         `json:"again,omitempty"`  // when it is tried again
	Trouble string        `json:"trouble,omitempty"`
	Size    uint64        `json:"size,omitempty"`
	At      []at          `json:"at,omitempty"`
}

type at struct {
	Node     string        `json:"node"`
	Attached records.Known `json:"attached"`
	Staged   records.Known `json:"staged"`
	Readonly bool          `json:"readonly,omitempty"`
	Mode     uint8         `json:"mode"`
	Targets  []target      `json:"targets,omitempty"`
}

type target struct {
	Path      string        `json:"path"`
	Published records.Known `json:"published"`
}

func volumeOf(it host.Volume) volume {
	made := volume{
		Name: it.Name, ID: it.ID, Exists: it.Exists, Goal: it.Goal.String(), Since: milliseconds(it.Since), Plugin: it.HeldUpBy,
		Again: milliseconds(it.Again), Trouble: it.Trouble, Size: it.Required,
	}
	if it.Goal != records.None {
		made.Node, made.Target, made.Tries = it.Row.Node, it.Row.Target, it.Tries
		if it.Due != 0 {
			made.Call = it.Due.String()
		}
	}
	for _, where := range it.At {
		shown := at{Node: where.Node, Attached: where.Attached, Staged: where.Staged, Readonly: where.Readonly, Mode: where.Capability.Mode}
		for _, its := range where.Targets {
			shown.Targets = append(shown.Targets, target{its.Path, its.Published})
		}
		made.At = append(made.At, shown)
	}
	return made
}

// A plugin is one as the page gets it.
type plugin struct {
	Name       string `json:"name"` // controller, or node: and the id
	Node       string `json:"node,omitempty"`
	Address    string `json:"address"`
	Connection string `json:"connection"`
	IsReached  bool   `json:"reached"`
	UnderWay   int    `json:"under_way,omitempty"`
	Queued     int    `json:"queued,omitempty"`
	Slots      uint64 `json:"slots,omitempty"`
	Trouble    string `json:"trouble,omitempty"`
}

// plugins are the controller, and the nodes in the order of the list; then those that aren't listed any more. One that hasn't begun the session of a host, if
// there is one, isn't used, and so counts as not reached.
func (source *Source) plugins(leads *host.Host) []plugin {
	states, slots := source.Plugins(), source.Slots()
	list := make([]plugin, 0, len(states))
	add := func(name, node string, state carrying.State) {
		shown := plugin{
			Name: name, Node: node, Address: state.Address, Connection: state.Connection, IsReached: state.IsReached(), UnderWay: state.UnderWay,
			Queued: state.Queued, Slots: slots[node], Trouble: state.Trouble,
		}
		if leads != nil && shown.Trouble == "" {
			shown.Trouble = leads.Trouble(name)
			shown.IsReached = shown.IsReached && shown.Trouble == ""
		}
		if shown.Trouble == "" {
			shown.Trouble = state.Amiss
		}
		list = append(list, shown)
		delete(states, name)
	}
	add(carrying.Controller, "", states[carrying.Controller])
	var listed []string
	if leads != nil {
		listed = leads.Nodes()
	}
	for _, id := range listed {
		add(carrying.NodeName(id), id, states[carrying.NodeName(id)])
	}
	rest := make([]string, 0, len(states))
	for name := range states {
		rest = append(rest, name)
	}
	sort.Strings(rest)
	for _, name := range rest {
		add(name, strings.TrimPrefix(name, carrying.NodeName("")), states[name])
	}
	return list
}

// entries are the history's as the page gets them.
type entries []history.Entry

// MarshalJSON gives the list of them.
func (all entries) MarshalJSON() ([]byte, error) {
	return append(appendEntries([]byte{'['}, all), ']'), nil
}

// appendEntries appends them in JSON, with commas between.
func appendEntries(to []byte, all []history.Entry) []byte {
	var text []byte
	for at := range all {
		it := &all[at]
		if at > 0 {
			to = append(to, ',')
		}
		to = strconv.AppendInt(append(to, `{"time":`...), it.Time, 10)
		to = strconv.AppendUint(append(to, `,"session":`...), it.Session, 10)
		to = appendText(append(to, `,"what":`...), []byte(it.What))
		if it.Name != "" {
			to = appendText(append(to, `,"name":`...), []byte(it.Name))
		}
		text = it.AppendText(text[:0])
		to = appendText(append(to, `,"text":`...), text)
		if it.IsWrong() {
			to = append(to, `,"wrong":true`...)
		}
		to = append(to, '}')
	}
	return to
}

// appendText appends a text in JSON.
func appendText(to, text []byte) []byte {
	for _, it := range text {
		if it < ' ' || it > '~' || it == '"' || it == '\\' {
			bytes, _ := json.Marshal(string(text)) // a text always can be
			return append(to, bytes...)
		}
	}
	return append(append(append(to, '"'), text...), '"')
}
