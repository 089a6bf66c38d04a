package records

import (
	"errors"
	"reflect"
	"testing"

	"tufayon/service/frames"
)

// A node's rows, by the table of docs/RECORDS.md: staged or not, with targets or without, and the last call.
func TestStaged(t *testing.T) {
	mount := frames.Capability{Mount: true, FsType: "ext4", Mode: 5}
	const staged, unstagedRow = "03 01 01 0465787434 05 02 022f61 00 022f62 01 0000000000000002 0000000000000007 87 00 0000000000000000 00",
		"03 00 00 0000000000000002 0000000000000008 86 00 0000000000000000 00"
	row, err := ReadStaged(bytesOf(t, staged))
	if err != nil || !row.IsStaged || row.Capability != mount || !reflect.DeepEqual(row.Targets, []string{"/a", "/b"}) ||
		!reflect.DeepEqual(row.Readonly, []bool{false, true}) || row.Last != (frames.Number{Session: 2, Call: 7}) {
		t.Errorf("a staged one: %+v, %v", row, err)
	}
	if !row.IsAt("/b") || row.IsAt("/c") {
		t.Errorf("its targets: %v", row.Targets)
	}
	if _, is := UnstagedBy(bytesOf(t, staged)); is {
		t.Error("a staged one was unstaged")
	}
	if number, is := UnstagedBy(bytesOf(t, unstagedRow)); !is || number != (frames.Number{Session: 2, Call: 8}) {
		t.Errorf("an unstaged one: %+v, %v", number, is)
	}
	if row, err := ReadStaged(nil); err != nil || row.IsStaged || row.Last != (frames.Number{}) {
		t.Errorf("no row: %+v, %v", row, err)
	}
	for value, want := range map[string]bool{staged: true, unstagedRow: false, "02 00": true} {
		if IsStaged(bytesOf(t, value)) != want {
			t.Errorf("%s is staged: %v", value, !want)
		}
	}
	whole := bytesOf(t, staged)
	for cut := 1; cut < len(whole)-9; cut++ {
		if _, err := ReadStaged(whole[:cut]); !errors.Is(err, ErrValue) && !errors.Is(err, frames.ErrFrame) {
			t.Errorf("the first %d bytes: %v", cut, err)
		}
	}
}

// Where a controller's row says that a volume is attached.
func TestNodes(t *testing.T) {
	volume, err := ReadVolume(bytesOf(t, "03 01 0176 000000000000000a 01 00 05 02 026e31 00 05 00 026e32 00 05 01 0000000000000001 0000000000000004 83 00 0000000000000000 00"))
	if err != nil || !reflect.DeepEqual(volume.Nodes, []string{"n1", "n2"}) || !volume.IsAt("n2") || volume.IsAt("n3") {
		t.Errorf("%+v, %v", volume, err)
	}
}
