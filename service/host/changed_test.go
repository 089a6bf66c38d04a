package host_test

import (
	"fmt"
	"reflect"
	"sort"
	"testing"

	"tufayon/service/host"
	"tufayon/service/host/hosttest"
	"tufayon/service/records"
)

// What changed behind a count is each volume that did, as it is now, and each name that is free; nothing where nothing did.
func TestChanged(t *testing.T) {
	made := open(t, hosttest.NewStore(), &hosttest.Carrier{}, quick, "n1")
	var count uint64
	names := func(behind uint64) (names []string) {
		t.Helper()
		changes, isKnown := made.Changed(behind)
		if !isKnown || changes.Session != made.Session() {
			t.Errorf("behind %d: %+v, known %v", behind, changes, isKnown)
		}
		for _, it := range changes.Volumes {
			names = append(names, fmt.Sprint(it.Name, " ", it.Goal == records.None))
		}
		for _, it := range changes.Forgotten {
			names = append(names, it+" is free")
		}
		sort.Strings(names)
		count = changes.Count
		return names
	}
	wants := func(what string, behind uint64, want ...string) {
		t.Helper()
		if got := names(behind); !reflect.DeepEqual(got, want) {
			t.Errorf("%s: %q, not %q", what, got, want)
		}
	}
	wants("at first", 0)
	does(t, made, create("v"))
	does(t, made, create("w"))
	wants("created", 0, "v true", "w true")
	before := count
	wants("nothing", count)
	does(t, made, use("v", "n1", "/a"))
	wants("used", before, "v true")
	used := count
	does(t, made, host.Command{Kind: host.Delete, Name: "w", AtRest: true})
	if _, err := made.Begin(ctx, nil, "a test"); err != nil {
		t.Fatal(err)
	}
	wants("deleted, and free", used, "v true", "w is free")
	does(t, made, create("w"))
	wants("created again", used, "v true", "w true")
	wants("all", 0, "v true", "w true")
}
