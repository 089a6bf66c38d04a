package history

import (
	"fmt"
	"sort"

	"tufayon/service/host"
	"tufayon/service/records"
)

// begin brings the volumes to where they were before the first event: first what is done of them, then the nodes that were lost, then what is wanted.
func (it *making) begin() {
	names := make([]string, 0, len(it.first.Rows))
	for name := range it.first.Rows {
		names = append(names, name)
	}
	sort.Slice(names, func(i, j int) bool { // in the order in which they were made
		some, other := it.first.Rows[names[i]], it.first.Rows[names[j]]
		if some.ID != other.ID {
			return some.ID < other.ID
		}
		return names[i] < names[j]
	})
	it.know(names)
	it.made.Config = encode(it.config)
	for _, name := range names {
		it.create(it.first.Rows[name])
	}
	it.leave(names)
	for _, name := range names {
		it.settle(it.first.Rows[name])
	}
	for _, name := range names {
		it.want(it.first.Rows[name])
	}
}

func sameList(some, other []string) bool { return fmt.Sprint(some) == fmt.Sprint(other) }

// know has the configuration have all nodes that volumes are at, and the orchestrator list all that the configuration has.
func (it *making) know(names []string) {
	for _, name := range names {
		for _, at := range it.first.Rows[name].At {
			it.knows(at.Node)
		}
	}
	for _, node := range it.first.Nodes {
		it.knows(node)
	}
	it.listed = nil
	for _, node := range it.config.Nodes {
		it.listed = append(it.listed, node.ID)
	}
}

func (it *making) knows(node string) {
	for _, slot := range it.config.Nodes {
		if slot.ID == node {
			return
		}
	}
	it.config.Nodes = append(it.config.Nodes, slot{ID: node, Slots: 4096})
}

// isLeft says whether a volume is attached at a node that was lost, and that may have joined again.
func (it *making) isLeft(row *records.Row, at records.At) bool {
	isHere := row.Goal != records.None && row.Node == at.Node
	return at.Staged == records.No && len(at.Targets) == 0 && !(isHere && (row.Goal == records.ToUse || contains(it.first.Nodes, at.Node)))
}

// leave has nodes be lost where volumes are attached and nothing more, and those join again that are listed; and the list be as it was.
func (it *making) leave(names []string) {
	var lost []string
	for _, name := range names {
		row := it.first.Rows[name]
		for _, at := range row.At {
			if it.isLeft(row, at) {
				it.use(name, at, "/")
				it.answers(name, 3, 3)
				if !contains(lost, at.Node) {
					lost = append(lost, at.Node)
				}
			} else if !contains(it.first.Nodes, at.Node) && !contains(it.extra, at.Node) {
				it.extra = append(it.extra, at.Node) // it is listed later than the first event
			}
		}
	}
	for _, node := range lost {
		it.lost(node)
	}
	if list := it.withExtra(it.first.Nodes); !sameList(list, it.listed) {
		it.joins(list)
		it.restart(list)
	}
}

// commands asks for a command, which sends a call.
func (it *making) commands(command host.Command) {
	it.sendsOf(command.Name)
	it.event(appendEvent(nil, &command), fmt.Sprint("sent ", it.frames))
}

func (it *making) sendsOf(name string) { it.last[name] = &delivery{frame: it.sends()} }

// answer delivers the last call of a volume, and its reply, which sends another one or none.
func (it *making) answer(name string, sendsMore bool) {
	call := it.last[name]
	it.deliver(call)
	outcome := "taken"
	if sendsMore {
		it.sendsOf(name)
		outcome = fmt.Sprint("taken, sent ", it.frames)
	}
	it.event(deliver(call.answer), outcome)
}

// answers delivers so many calls of a volume one after another, of so many that there will be.
func (it *making) answers(name string, count, of int) {
	for at := 1; at <= count; at++ {
		it.answer(name, at < of)
	}
}

// isGone says whether a volume is deleted, so that the next session frees its name.
func isGone(row *records.Row) bool { return row.Goal == records.None && row.Exists == records.No }

// create makes a volume, unless that is wanted still, or it is gone.
func (it *making) create(row *records.Row) {
	if row.Goal != records.ToCreate && !isGone(row) {
		it.makes(row)
	}
}

func (it *making) makes(row *records.Row) {
	it.commands(host.Command{Kind: host.Create, Name: row.Name, Required: row.Required, Limit: row.Limit, Capabilities: row.Capabilities})
	it.answer(row.Name, false)
}

// settle does what is done of a volume at nodes, and for what is being stopped also that which it undoes. One that is gone is made and deleted: no session
// may begin after that.
func (it *making) settle(row *records.Row) {
	if isGone(row) {
		it.makes(row)
		it.commands(host.Command{Kind: host.Delete, Name: row.Name})
		it.answer(row.Name, false)
	}
	for _, at := range row.At {
		if it.isLeft(row, at) {
			continue
		}
		calls := 3 // attach, stage, publish
		for _, target := range targetsOf(row, at) {
			it.use(row.Name, at, target)
			it.answers(row.Name, calls, calls)
			calls = 1
		}
	}
}

func (it *making) use(name string, at records.At, target string) {
	it.commands(host.Command{Kind: host.Use, Name: name, Node: at.Node, Target: target, Capability: at.Capability, Readonly: at.Readonly})
}

// targetsOf are those that a volume was published at, at a node, before what is wanted of it was: where none is known any more, one that is stopped there,
// or any.
func targetsOf(row *records.Row, at records.At) []string {
	var targets []string
	for _, target := range at.Targets {
		if row.Goal != records.ToUse || row.Node != at.Node || row.Target != target.Path {
			targets = append(targets, target.Path)
		}
	}
	isHere := row.Goal != records.None && row.Node == at.Node
	switch {
	case isHere && row.Goal == records.ToStop && !contains(targets, row.Target):
		targets = append(targets, row.Target)
	case len(targets) == 0 && !(isHere && row.Goal == records.ToUse):
		targets = []string{"/"}
	}
	return targets
}

// want asks for what is wanted of a volume, and does as much of it as was done.
func (it *making) want(row *records.Row) {
	at, _ := row.Where(row.Node)
	switch row.Goal {
	case records.None:
		return
	case records.ToCreate:
		it.commands(host.Command{Kind: host.Create, Name: row.Name, Required: row.Required, Limit: row.Limit, Capabilities: row.Capabilities})
	case records.ToDelete:
		it.commands(host.Command{Kind: host.Delete, Name: row.Name})
	case records.ToUse:
		it.commands(host.Command{Kind: host.Use, Name: row.Name, Node: row.Node, Target: row.Target, Capability: row.Capability, Readonly: row.Readonly})
		if len(targetsOf(row, at)) == 0 {
			it.answers(row.Name, countIf(at.Attached == records.Yes)+countIf(at.Staged == records.Yes), 3)
		}
	case records.ToStop:
		it.commands(host.Command{Kind: host.Stop, Name: row.Name, Node: row.Node, Target: row.Target})
		isUndone := row.PublishedAt(row.Node, row.Target) == records.No
		if isUndone && !it.gone[row.Node] {
			it.answers(row.Name, 1+countIf(at.Staged == records.No), 3)
		}
	}
	for tries := uint8(1); tries < row.Tries; tries++ {
		it.sendsOf(row.Name)
		it.event(encode(map[string]string{timeout: row.Name}), fmt.Sprint("sent ", it.frames))
	}
}

func countIf(is bool) int {
	if is {
		return 1
	}
	return 0
}
