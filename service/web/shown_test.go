package web

import (
	"encoding/json"
	"reflect"
	"testing"
	"time"

	"tufayon/service/frames"
	"tufayon/service/history"
)

// Entries are JSON, whatever stands in them.
func TestEntries(t *testing.T) {
	type told struct {
		Time, Session uint64
		What, Name    string
		Text          string
		Wrong         bool
	}
	call := &history.Call{Number: frames.Number{Session: 7, Call: 1}, Kind: "NodeStageVolume", Plugin: "node:n1"}
	all := entries{
		{Time: 5, Session: 7, What: "reply", Name: "v", Call: call},
		{Time: 6, Session: 7, What: "none", Name: "a\n\"\\<b>\u00e9\xff", Call: call, Detail: "no\treply"},
		{Time: 7, Session: 8, What: "session", Detail: "a caller asked for it"},
	}
	want := []told{
		{5, 7, "reply", "v", "NodeStageVolume 7.1 to node:n1: OK, at rest", false},
		{6, 7, "none", "a\n\"\\<b>\u00e9\ufffd", "NodeStageVolume 7.1 to node:n1: no\treply", true},
		{7, 8, "session", "", "session 8 begins: a caller asked for it", false},
	}
	bytes, err := json.Marshal(map[string]entries{"some": all, "none": nil})
	var got map[string][]told
	if err == nil {
		err = json.Unmarshal(bytes, &got)
	}
	if err != nil || !reflect.DeepEqual(got["some"], want) || got["none"] == nil || len(got["none"]) > 0 {
		t.Errorf("they are %s, %v", bytes, err)
	}
}

// A page that takes long to tell what changed waits longer until it tells more.
func TestRest(t *testing.T) {
	for took, want := range map[time.Duration]time.Duration{
		0: 200 * time.Millisecond, 4 * time.Millisecond: 200 * time.Millisecond, 10 * time.Millisecond: 500 * time.Millisecond, time.Second: 2 * time.Second,
	} {
		if long := rest(took); long != want {
			t.Errorf("behind %v it waits %v, not %v", took, long, want)
		}
	}
}
