package records

import (
	"encoding/hex"
	"errors"
	"fmt"
	"reflect"
	"strings"
	"testing"

	"tufayon/service/frames"
)

func bytesOf(t *testing.T, text string) []byte {
	t.Helper()
	value, err := hex.DecodeString(strings.ReplaceAll(text, " ", ""))
	if err != nil {
		t.Fatal(err)
	}
	return value
}

var block = frames.Capability{Mode: 1}

// The values that docs/RECORDS.md, "Records", spells out, and rows of other goals, by its table.
func TestValues(t *testing.T) {
	session, err := Session(bytesOf(t, "03 00 0000000000000002 0000000000000001"))
	if session != 1 || err != nil {
		t.Errorf("a controller's head: %d, %v", session, err)
	}
	if next, err := Next(bytesOf(t, "03 00 0000000000000002 0000000000000001")); next != 2 || err != nil {
		t.Errorf("a controller's head: %d, %v", next, err)
	}
	volume, err := ReadVolume(bytesOf(t, "03 01 0176 000000000000000a 01 00 01 00 0000000000000001 0000000000000001 81 00 0000000000000001 00"))
	if err != nil || !reflect.DeepEqual(volume, Volume{"v", true, 10, []frames.Capability{block}, nil, frames.Number{Session: 1, Call: 1}}) {
		t.Errorf("a controller's row: %+v, %v", volume, err)
	}
	session, err = OrchestratorSession(bytesOf(t, "03 02 0000000000000003 02 026e31 026e32"))
	if session != 3 || err != nil {
		t.Errorf("an orchestrator's head: %d, %v", session, err)
	}
	nodes, err := OrchestratorNodes(bytesOf(t, "03 02 0000000000000003 02 026e31 026e32"))
	if err != nil || !reflect.DeepEqual(nodes, []string{"n1", "n2"}) {
		t.Errorf("its nodes: %v, %v", nodes, err)
	}
	made := Wanted{Name: "v", Required: 10, Capabilities: []frames.Capability{block}}
	use, stop, remove, create := made, made, made, made
	use.Goal, use.Node, use.Target, use.Capability, use.Readonly = ToUse, "n1", "/a", block, true
	stop.Goal, stop.Node, stop.Target = ToStop, "n1", "/a"
	remove.Goal, create.Goal = ToDelete, ToCreate
	create.Limit, create.Capabilities = 20, []frames.Capability{{Mount: true, FsType: "ext4", Mode: 7}, block}
	for value, want := range map[string]Wanted{
		"03 0176 000000000000000a 0000000000000000 01 00 01 01 0000000000000001 01 00 00 00":                        made,
		"03 0176 000000000000000a 0000000000000000 01 00 01 01 0000000000000001 01 02 026e31 022f61 00 01 01 01 00": use,
		"03 0176 000000000000000a 0000000000000000 01 00 01 01 0000000000000001 01 03 026e31 022f61 01 00":          stop,
		"03 0176 000000000000000a 0000000000000000 01 00 01 01 0000000000000001 02 04 01 00":                        remove,
		"03 0176 000000000000000a 0000000000000014 02 01 0465787434 07 00 01 00 02 01 01 00":                        create,
	} {
		if wanted, err := ReadWanted(bytesOf(t, value)); err != nil || !reflect.DeepEqual(wanted, want) {
			t.Errorf("%s: %+v, %v, not %+v", value, wanted, err, want)
		}
	}
}

// What is cut off, or of another version, is no value.
func TestNoValues(t *testing.T) {
	row := bytesOf(t, "03 0176 000000000000000a 0000000000000000 01 00 01 01 0000000000000001 01 02 026e31 022f61 00 01 01")
	for cut := range row {
		if _, err := ReadWanted(row[:cut]); err == nil {
			t.Errorf("the first %d bytes of %x", cut, row)
		}
	}
	if _, err := ReadWanted(append([]byte{2}, row[1:]...)); !errors.Is(err, ErrValue) {
		t.Errorf("a row of version 2: %v", err)
	}
	if _, err := OrchestratorSession(bytesOf(t, "03 00 0000000000000002 0000000000000001")); !errors.Is(err, ErrValue) {
		t.Errorf("a controller's head as an orchestrator's: %v", err)
	}
}

// The greatest number of a call, of a controller's rows and of a node's. A call 0 is none.
func TestHeard(t *testing.T) {
	const row = "03 01 0176 000000000000000a 01 00 01 00 %d00000000000000%d 000000000000000%d 81 00 0000000000000001 00"
	rows := map[uint64][]byte{HeadKey: bytesOf(t, "03 00 0000000000000002 0000000000000003")}
	for key, it := range map[uint64][2]int{1: {1, 9}, 2: {2, 4}, 3: {2, 3}, 4: {3, 0}} {
		rows[key] = bytesOf(t, fmt.Sprintf(row, 0, it[0], it[1]))
	}
	if heard, err := Heard(rows); err != nil || heard != (frames.Number{Session: 2, Call: 4}) {
		t.Errorf("a controller has heard %v, %v", heard, err)
	}
	of := map[uint64][]byte{
		HeadKey: bytesOf(t, "03 01 026e31 0000000000000002"),
		1:       bytesOf(t, "03 01 00 05 01 022f74 00 0000000000000002 0000000000000007 87 00 0000000000000000 00"),
	}
	if heard, err := Heard(of); err != nil || heard != (frames.Number{Session: 2, Call: 7}) {
		t.Errorf("a node has heard %v, %v", heard, err)
	}
	if id, isNode := NodeOf(of[HeadKey]); id != "n1" || !isNode {
		t.Errorf("it is node %q, %v", id, isNode)
	}
	if _, isNode := NodeOf(rows[HeadKey]); isNode {
		t.Error("a controller is a node")
	}
}

// A head before a session begins has the session before, and all else as it was; a later one stays.
func TestOrchestratorBefore(t *testing.T) {
	const head = "03 02 0000000000000003 02 026e31 026e32"
	for session, want := range map[uint64]string{0: head, 3: head, 4: head, 5: "03 02 0000000000000004 02 026e31 026e32", 1 << 32: "03 02 00000000ffffffff 02 026e31 026e32"} {
		before, err := OrchestratorBefore(bytesOf(t, head), session)
		if err != nil || !reflect.DeepEqual(before, bytesOf(t, want)) {
			t.Errorf("before %d: %x, %v", session, before, err)
		}
	}
	before, err := OrchestratorBefore(nil, 256)
	if err != nil || !reflect.DeepEqual(before, bytesOf(t, "03 02 00000000000000ff 00")) {
		t.Errorf("a new one's: %x, %v", before, err)
	}
	if _, err := OrchestratorBefore(bytesOf(t, "03 00 0000000000000002 0000000000000001"), 5); !errors.Is(err, ErrValue) {
		t.Errorf("a controller's: %v", err)
	}
}
