package records

import "tufayon/service/frames"

// A Staged is what a node's row says of a volume: nothing where there is no row.
type Staged struct {
	IsStaged   bool
	Capability frames.Capability // in which it is staged
	Targets    []string          // where it is published
	Readonly   []bool            // of each of these, whether it is published readonly
	Last       frames.Number     // of the volume's last call that passed
	kind       uint8             // of the reply to that
	status     uint8             // which it had
}

// ReadStaged reads the value of a node's row, as far as the status of its kept reply.
func ReadStaged(value []byte) (Staged, error) {
	if value == nil {
		return Staged{}, nil
	}
	from := &fields{rest: value}
	if from.byte() != version {
		return Staged{}, ErrValue
	}
	row := Staged{IsStaged: from.flag()}
	if row.IsStaged {
		row.Capability = from.capability()
	}
	for count := from.byte(); count > 0 && from.err == nil; count-- {
		row.Targets = append(row.Targets, from.text())
		row.Readonly = append(row.Readonly, from.flag())
	}
	row.Last = frames.Number{Session: from.number(), Call: from.number()}
	row.kind, row.status = from.byte(), from.byte()
	return row, from.err
}

// IsAt says whether the volume is published at a target.
func (row Staged) IsAt(target string) bool {
	for _, it := range row.Targets {
		if it == target {
			return true
		}
	}
	return false
}

// IsStaged says whether a node's row says that the volume is staged. What can't be read is taken for staged, so that nothing of it is forgotten.
func IsStaged(value []byte) bool {
	row, err := ReadStaged(value)
	return err != nil || row.IsStaged
}

// unstaged is the kind of the reply to a NodeUnstageVolume.
const unstaged = 128 + uint8(frames.NodeUnstageVolumeKind)

// UnstagedBy gives the number of a node's last call of a volume, where that was a NodeUnstageVolume that succeeded; the value is the volume's row.
func UnstagedBy(value []byte) (frames.Number, bool) {
	row, err := ReadStaged(value)
	if err != nil || row.IsStaged || row.kind != unstaged || row.status != 0 {
		return frames.Number{}, false
	}
	return row.Last, true
}
