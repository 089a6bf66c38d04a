package records

import (
	"reflect"
	"testing"

	"tufayon/service/frames"
)

// The row that docs/RECORDS.md, "Records", spells out, and one at rest at two nodes, by its table.
func TestRows(t *testing.T) {
	made := Wanted{Name: "v", Required: 10, Capabilities: []frames.Capability{block}}
	use := made
	use.Goal, use.Node, use.Target, use.Capability = ToUse, "n1", "/a", block
	for value, want := range map[string]Row{
		"03 0176 000000000000000a 0000000000000000 01 00 01 01 0000000000000001 01 02 026e31 022f61 00 01 00 01 01 026e31 00 01 00 02 00 01 022f61 00": {
			Wanted: use, ID: 1, Exists: Yes, Tries: 1, At: []At{{Node: "n1", Capability: block, Attached: Maybe, Targets: []Target{{Path: "/a"}}}}},
		"03 0176 000000000000000a 0000000000000000 01 00 01 01 0000000000000001 01 00 00 02 026e31 00 01 01 01 01 01 022f61 01 026e32 00 01 00 02 00 00": {
			Wanted: made, ID: 1, Exists: Yes, At: []At{
				{Node: "n1", Capability: block, Readonly: true, Attached: Yes, Staged: Yes, Targets: []Target{{Path: "/a", Published: Yes}}},
				{Node: "n2", Capability: block, Attached: Maybe}}},
		"03 0176 000000000000000a 0000000000000000 01 00 01 00 02 01 01 00": {Wanted: withGoal(made, ToCreate), Exists: Maybe, Tries: 1},
	} {
		bytes := bytesOf(t, value)
		row, err := ReadRow(bytes)
		if err != nil || !reflect.DeepEqual(row, want) {
			t.Errorf("%s: %+v, %v, not %+v", value, row, err, want)
		}
		for cut := range bytes {
			if _, err := ReadRow(bytes[:cut]); err == nil {
				t.Errorf("the first %d bytes of %x", cut, bytes)
			}
		}
		if _, err := ReadRow(append(bytes, 0)); err == nil {
			t.Errorf("%s and a byte more", value)
		}
	}
}

func withGoal(wanted Wanted, goal Goal) Wanted {
	wanted.Goal = goal
	return wanted
}
