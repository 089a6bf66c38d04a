package serving

import (
	"crypto/sha256"
	"encoding/binary"
	"fmt"
	"strconv"
	"strings"

	"tufayon/service/frames"
	"tufayon/service/records"
	"tufayon/service/store"
)

// A last is the call of a volume that the fence let through last.
type last struct {
	number frames.Number
	asked  [sha256.Size]byte // a digest of what it asked
}

// lastKey is that of the sides that have the last calls, and before a volume's id in 16 hexadecimal digits.
const lastKey = "last/"

// mostLate is how many sides of volumes without a row are taken out with a commit that is full by itself: the others go with later ones.
const mostLate = 8

func lastName(volume uint64) string { return lastKey + fmt.Sprintf("%016x", volume) }

// value is what a side has: session and call, and the digest.
func (last last) value() []byte {
	value := binary.BigEndian.AppendUint64(nil, last.number.Session)
	value = binary.BigEndian.AppendUint64(value, last.number.Call)
	return append(value, last.asked[:]...)
}

func readLast(value []byte) (read last, is bool) {
	if len(value) != 16+sha256.Size {
		return read, false
	}
	read.number = frames.Number{Session: binary.BigEndian.Uint64(value), Call: binary.BigEndian.Uint64(value[8:])}
	copy(read.asked[:], value[16:])
	return read, true
}

// isLast says whether a call of a number that the volume's last call has asks the same as that one, as far as that is known: a driver of before kept
// nothing. One that the fence let through is the last one. Of a CreateVolume that was refused no volume is known.
func (core *Core) isLast(group *group, volume uint64, number frames.Number, request Request, isFresh bool) bool {
	if volume == 0 || !core.isByMetadata() { // by arrival no number comes twice
		return true
	}
	frame, _ := frames.Call{Number: number, Node: request.Node, Body: request.Body}.Encode() // the plugin has answered it
	this := last{number, sha256.Sum256(frame)}
	if isFresh {
		core.keepLast(group, volume, this)
		return true
	}
	its, isKnown := core.last[volume]
	return !isKnown || its.number != number || its == this
}

// keepLast keeps the last call of a volume beside the record, with its commit, in a store that has sides.
func (core *Core) keepLast(group *group, volume uint64, this last) {
	core.last[volume] = this
	if _, hasSides := core.config.Store.(store.Sided); hasSides {
		delete(core.late, volume)
		group.addSide(store.Side{Name: lastName(volume), Value: this.value(), First: true})
	}
}

// forgetLast notes, once a commit is made, which volumes' calls are to be taken out: their rows have gone with it.
func (core *Core) forgetLast(group *group) {
	for _, key := range group.order {
		if group.changes[key].Out && core.isByMetadata() {
			core.late[key] = true
		}
	}
}

// addLate adds the sides of some volumes whose rows went with an earlier commit, as many as there is room for: where many calls wait, rows go faster than
// commits are made.
func (core *Core) addLate(group *group) {
	for volume := range core.late {
		if len(group.sides) == 0 || group.late >= mostLate && group.isFull() {
			return
		}
		group.late++
		delete(core.late, volume)
		group.addSide(store.Side{Name: lastName(volume), Out: true})
	}
}

// loadLast takes over the last calls, of the volumes that the record has a row of.
func (core *Core) loadLast(sides map[string][]byte) {
	core.last, core.late = map[uint64]last{}, map[uint64]bool{}
	for name, value := range sides {
		digits := strings.TrimPrefix(name, lastKey)
		volume, err := strconv.ParseUint(digits, 16, 64)
		if err != nil || name != lastName(volume) {
			continue
		}
		if its, is := readLast(value); is && volume != records.HeadKey && core.parts[volume] != nil {
			core.last[volume] = its
		} else {
			core.late[volume] = true
		}
	}
}
