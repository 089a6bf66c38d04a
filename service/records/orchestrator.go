package records

import "tufayon/service/frames"

// Known is what an orchestrator knows of a thing: that it isn't so, that it is, or that it may be.
type Known uint8

// What may be known.
const (
	No Known = iota
	Yes
	Maybe
)

// A Row is all that an orchestrator's row says of a volume.
type Row struct {
	Wanted
	ID     uint64 // 0 before a reply told it
	Exists Known
	Tries  uint8 // of the call that is due
	At     []At  // where it is used, oldest first
}

// An At is a node at which a volume is used, or may be.
type At struct {
	Node             string
	Capability       frames.Capability
	Readonly         bool
	Attached, Staged Known
	Targets          []Target
}

// A Target is where a volume is published at a node, or may be.
type Target struct {
	Path      string
	Published Known
}

// ReadRow reads the value of an orchestrator's row.
func ReadRow(value []byte) (Row, error) {
	wanted, err := ReadWanted(value)
	if err != nil {
		return Row{}, err
	}
	row := Row{Wanted: wanted}
	from := &fields{rest: value}
	from.byte() // the version
	from.text()
	from.number()
	from.number()
	from.capabilities()
	if from.flag() {
		row.ID = from.number()
	}
	row.Exists = from.known()
	from.goal()
	row.Tries = from.byte()
	for count := from.byte(); count > 0 && from.err == nil; count-- {
		row.At = append(row.At, from.at())
	}
	if from.err == nil && len(from.rest) > 0 {
		from.err = ErrValue
	}
	return row, from.err
}

func (from *fields) known() Known {
	known := Known(from.byte())
	if known > Maybe {
		from.err = ErrValue
	}
	return known
}

// goal takes what ReadWanted has read.
func (from *fields) goal() {
	switch Goal(from.byte()) {
	case ToUse:
		from.text()
		from.text()
		from.capability()
		from.flag()
	case ToStop:
		from.text()
		from.text()
	}
}

func (from *fields) at() At {
	at := At{Node: from.text(), Capability: from.capability(), Readonly: from.flag(), Attached: from.known(), Staged: from.known()}
	for count := from.byte(); count > 0 && from.err == nil; count-- {
		at.Targets = append(at.Targets, Target{Path: from.text(), Published: from.known()})
	}
	return at
}

// Where is the entry of a node, if it has one.
func (row *Row) Where(node string) (At, bool) {
	for _, at := range row.At {
		if at.Node == node {
			return at, true
		}
	}
	return At{}, false
}

// PublishedAt is what is known of the volume's publication at a target of a node.
func (row *Row) PublishedAt(node, target string) Known {
	at, _ := row.Where(node)
	for _, it := range at.Targets {
		if it.Path == target {
			return it.Published
		}
	}
	return No
}
