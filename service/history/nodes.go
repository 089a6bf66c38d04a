package history

import (
	"encoding/json"

	"tufayon/service/records"
)

// A config is a controller's CONFIG.
type config struct {
	Greatest uint64 `json:"greatest"`
	Nodes    []slot `json:"nodes"`
}

type slot struct {
	ID    string `json:"id"`
	Slots uint64 `json:"slots"`
}

// concern leaves out nodes with which the volume has nothing to do.
func (it *making) concern(entries []Entry) {
	it.nodes = map[string]bool{}
	sees := func(row *records.Row) {
		if row == nil {
			return
		}
		it.nodes[row.Node] = true
		for _, at := range row.At {
			it.nodes[at.Node] = true
		}
	}
	sees(it.first.Rows[it.name])
	for at := range entries {
		if entry := &entries[at]; entry.Name == it.name && !entry.IsCut {
			sees(entry.Row)
			it.nodes[entry.node()] = true
		}
	}
	it.first.Nodes = it.concerned(it.first.Nodes)
	it.config = it.configOf(it.first.Config)
}

// concerned are the nodes of a list that concern the schedule.
func (it *making) concerned(nodes []string) []string {
	if it.nodes == nil {
		return nodes
	}
	var left []string
	for _, node := range nodes {
		if it.nodes[node] {
			left = append(left, node)
		}
	}
	return left
}

// configOf reads a CONFIG, without the nodes that don't concern the schedule. Where there is none, it is one without nodes.
func (it *making) configOf(text json.RawMessage) config {
	read, left := config{Greatest: 1<<63 - 1}, config{Nodes: []slot{}}
	if len(text) > 0 {
		_ = json.Unmarshal(text, &read) // the service checked it
	}
	left.Greatest = read.Greatest
	for _, node := range read.Nodes {
		if it.nodes == nil || it.nodes[node.ID] {
			left.Nodes = append(left.Nodes, node)
		}
	}
	return left
}

// noRoom is RESOURCE_EXHAUSTED: other volumes take all slots of the node.
const noRoom = 8

// withoutSlots has the controller have no slots while something is done.
func (it *making) withoutSlots(do func()) {
	full := config{Greatest: it.config.Greatest, Nodes: []slot{}}
	for _, node := range it.config.Nodes {
		full.Nodes = append(full.Nodes, slot{ID: node.ID})
	}
	it.event(encode(map[string]any{"restart_controller": full}), "restarted")
	do()
	it.event(encode(map[string]any{"restart_controller": it.config}), "restarted")
}

// flush has the last of the sessions begin that wait for an event.
func (it *making) flush() {
	if len(it.sessions) == 0 {
		return
	}
	last := it.sessions[len(it.sessions)-1]
	it.sessions = nil
	list := it.concerned(last.Nodes)
	it.configure(it.configOf(last.Config))
	it.joins(list)
	it.restart(list)
}

// joins has nodes join again that were lost.
func (it *making) joins(nodes []string) {
	for _, node := range nodes {
		if it.gone[node] {
			it.gone[node] = false
			it.event(encode(map[string]string{"join": node}), "joined")
		}
	}
}

// configure has the controller have the nodes that a service's CONFIG lists. What joins is there from then on; what is left out stays there.
func (it *making) configure(anew config) {
	known := map[string]bool{}
	for _, node := range it.config.Nodes {
		known[node.ID] = true
	}
	var joins []string
	listed := map[string]bool{}
	for _, node := range anew.Nodes {
		listed[node.ID] = true
		if !known[node.ID] {
			joins = append(joins, node.ID)
		}
	}
	for _, node := range it.config.Nodes {
		if !listed[node.ID] {
			anew.Nodes = append(anew.Nodes, node)
		}
	}
	if string(encode(anew)) != string(encode(it.config)) {
		it.config = anew
		it.event(encode(map[string]any{"restart_controller": anew}), "restarted")
	}
	for _, node := range joins {
		it.event(encode(map[string]string{"join": node}), "joined")
	}
}

// restart begins a session with a list of nodes.
func (it *making) restart(nodes []string) {
	list := it.withExtra(nodes)
	if sameList(list, it.listed) {
		it.event(json.RawMessage(`{"restart":"orchestrator"}`), "restarted")
		return
	}
	it.listed = list
	it.event(encode(map[string]any{"restart_orchestrator": list}), "restarted")
}

func (it *making) withExtra(nodes []string) []string {
	list := append([]string{}, nodes...)
	for _, node := range it.extra {
		if !contains(list, node) && !it.gone[node] {
			list = append(list, node)
		}
	}
	return list
}

func (it *making) lose(entry *Entry) {
	var event map[string]string
	_ = json.Unmarshal(entry.Event, &event) // this package wrote it
	it.lost(event[lose])
}

// lost has a node lost, if it is there.
func (it *making) lost(node string) {
	var left []string
	for _, id := range it.listed {
		if id != node {
			left = append(left, id)
		}
	}
	isThere := len(left) < len(it.listed)
	for _, slot := range it.config.Nodes {
		isThere = isThere || slot.ID == node && !it.gone[node]
	}
	if !isThere {
		return
	}
	it.listed, it.gone[node] = left, true
	it.event(encode(map[string]string{lose: node}), "lost")
}

func contains(list []string, wanted string) bool {
	for _, it := range list {
		if it == wanted {
			return true
		}
	}
	return false
}
