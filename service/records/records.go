// Package records reads what a driver wants to know of a plugin's record, and a host of an orchestrator's, by docs/RECORDS.md, "Records".
package records

import (
	"encoding/binary"
	"errors"

	"tufayon/service/frames"
)

// ErrValue says that bytes aren't the value of such a part.
var ErrValue = errors.New("no part of a record in the present version")

const (
	version      = 3
	orchestrator = 2 // the kind of a head
)

// HeadKey is the key of a record's head; a volume's row has its id as key.
const HeadKey = 0

// Session is the latest session that the plugin has heard of, as the head's value says: its last field.
func Session(head []byte) (uint64, error) {
	if len(head) < 10 || head[0] != version {
		return 0, ErrValue
	}
	return binary.BigEndian.Uint64(head[len(head)-8:]), nil
}

// Next is the id of the next volume that a controller makes, as its head's value says: 0 once all were given.
func Next(head []byte) (uint64, error) {
	if len(head) != 18 || head[0] != version || head[1] != 0 {
		return 0, ErrValue
	}
	return binary.BigEndian.Uint64(head[2:]), nil
}

// A Volume is what a controller's row says of a volume that it made: nothing where there is no row.
type Volume struct {
	Name         string
	Live         bool
	Capacity     uint64
	Capabilities []frames.Capability
	Nodes        []string      // where it is attached
	Last         frames.Number // of the volume's last call that passed the fence
}

// ReadVolume reads the value of a controller's row, as far as the number of its kept call.
func ReadVolume(value []byte) (Volume, error) {
	if value == nil {
		return Volume{}, nil
	}
	from := &fields{rest: value}
	head, state := from.byte(), from.byte()
	if head != version || state < 1 || state > 2 {
		return Volume{}, ErrValue
	}
	volume := Volume{Name: from.text(), Live: state == 1, Capacity: from.number(), Capabilities: from.capabilities()}
	for count := from.byte(); count > 0 && from.err == nil; count-- {
		volume.Nodes = append(volume.Nodes, from.text())
		from.capability()
		from.flag() // readonly
	}
	volume.Last = frames.Number{Session: from.number(), Call: from.number()}
	return volume, from.err
}

// IsAt says whether the volume is attached to a node.
func (volume Volume) IsAt(node string) bool {
	for _, it := range volume.Nodes {
		if it == node {
			return true
		}
	}
	return false
}

// Has says whether the volume was made with this capability.
func (volume Volume) Has(capability frames.Capability) bool {
	for _, it := range volume.Capabilities {
		if it == capability {
			return true
		}
	}
	return false
}
