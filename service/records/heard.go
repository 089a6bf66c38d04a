package records

import "tufayon/service/frames"

const node = 1 // the kind of a head

// NodeOf gives the id of the node whose record has this head, or nothing of a controller's.
func NodeOf(head []byte) (id string, isNode bool) {
	from := &fields{rest: head}
	if from.byte() != version || from.byte() != node {
		return "", false
	}
	return from.text(), true
}

// NodeIn gives the id of the node whose record has this head, in any version.
func NodeIn(head []byte) (id string, isNode bool) {
	from := &fields{rest: head}
	if its := from.byte(); its < 1 || its > version || from.byte() != node {
		return "", false
	}
	id = from.text()
	return id, from.err == nil
}

// Heard is the greatest number of a call of which a plugin's record has a row: that of none where there is no such row. By number 0 of a session nobody
// calls.
func Heard(parts map[uint64][]byte) (frames.Number, error) {
	_, isNode := NodeOf(parts[HeadKey])
	greatest := frames.Number{}
	for key, value := range parts {
		if key == HeadKey {
			continue
		}
		last, err := lastOf(isNode, value)
		if err != nil {
			return frames.Number{}, err
		}
		if last.Call > 0 && greatest.IsBefore(last) {
			greatest = last
		}
	}
	return greatest, nil
}

func lastOf(isNode bool, value []byte) (frames.Number, error) {
	if isNode {
		row, err := ReadStaged(value)
		return row.Last, err
	}
	row, err := ReadVolume(value)
	return row.Last, err
}
