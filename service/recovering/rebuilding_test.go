package recovering

import (
	"errors"
	"fmt"
	"os"
	"path/filepath"
	"reflect"
	"runtime"
	"testing"

	"tufayon/service/etcd"
	"tufayon/service/etcd/etcdtest"
	"tufayon/service/frames"
	"tufayon/service/plugin"
	"tufayon/service/records"
	"tufayon/service/store"
)

// rebuild has csi-replay make the store "rebuilt" of the orchestrator's, which is "new".
func (set *set) rebuild(next uint64, nodes ...string) (string, error) {
	set.t.Helper()
	program := os.Getenv("TUFAYON_TEST_PROGRAM")
	if program == "" {
		set.t.Skip("left out, since there is no csi-replay: TUFAYON_TEST_PROGRAM")
	}
	asked := Rebuilding{Program: program, Config: []byte(config), Next: next, New: set.open("rebuilt"), Orchestrator: set.open("new")}
	all := []store.Store{asked.New, asked.Orchestrator}
	for _, name := range nodes {
		asked.Nodes = append(asked.Nodes, set.open(name))
	}
	line, err := asked.Run(ctx)
	for _, it := range append(all, asked.Nodes...) {
		if closed := it.Close(); closed != nil {
			set.t.Error(closed)
		}
	}
	return string(line), err
}

// lost is a set that is used, of which the controller's store is lost, and the orchestrator's session.
func lost(t *testing.T, set *set) uint64 {
	t.Helper()
	if _, err := used(t, set).recover(0, config, "n1", "n2"); err != nil {
		t.Fatal(err)
	}
	return set.session("new")
}

func (set *set) wasRebuilt(line string, err error, session uint64) {
	set.t.Helper()
	want := fmt.Sprintf("{\"attached\":2,\"creating\":[],\"next\":5,\"session\":%d,\"volumes\":3}\n", session)
	if err != nil || line != want {
		set.t.Fatalf("it told %q, %v, not %q", line, err, want)
	}
	old, _ := set.has("controller")
	parts, sides := set.has("rebuilt")
	if len(parts) != 4 || len(sides) > 0 || set.session("rebuilt") != session {
		set.t.Errorf("it has %d parts, %v beside it, and session %d", len(parts), sides, set.session("rebuilt"))
	}
	for id := uint64(1); id <= 3; id++ {
		was, err := records.ReadVolume(old[id])
		if err != nil {
			set.t.Fatal(err)
		}
		is, err := records.ReadVolume(parts[id])
		was.Last, is.Last = frames.Number{}, frames.Number{}
		if err != nil || !reflect.DeepEqual(was, is) {
			set.t.Errorf("volume %d is %+v, %v, not %+v", id, is, err, was)
		}
	}
}

func TestRebuilt(t *testing.T) {
	set := newSet(t)
	session := lost(t, set)
	_, before := set.has("new")
	line, err := set.rebuild(5, "n1", "n2")
	set.wasRebuilt(line, err, session+1)
	_, after := set.has("new")
	if before["plugin/controller"] = heard(session + 1); !reflect.DeepEqual(before, after) {
		t.Errorf("beside the orchestrator's record stand %v, not %v", after, before)
	}
	if _, err := set.rebuild(5); !errors.Is(err, ErrNotNew) {
		t.Errorf("once more: %v", err)
	}
	// Each call of before is stale, and the next volume gets the next id.
	runtime.LockOSThread()
	defer runtime.UnlockOSThread()
	kept := set.open("rebuilt")
	defer kept.Close()
	parts, err := kept.Load(ctx)
	if err != nil {
		t.Fatal(err)
	}
	made, _, err := plugin.Maker{IsController: true, Name: []byte(config)}.Make(store.Record(parts))
	if err != nil {
		t.Fatal(err)
	}
	defer made.Free()
	create := frames.CreateVolume{Name: "x", Required: 10, Capabilities: []frames.Capability{block}}
	for _, it := range []struct {
		session, id uint64
		status      uint8
	}{{session, 0, 10}, {session + 1, 5, 0}} {
		frame, err := frames.Call{Number: frames.Number{Session: it.session, Call: 1 << 40}, Body: create}.Encode()
		if err != nil {
			t.Fatal(err)
		}
		answered, err := made.Answer(frame)
		if err != nil {
			t.Fatal(err)
		}
		if reply, err := frames.DecodeReply(answered); err != nil || reply.Status != it.status || reply.Volume != it.id {
			t.Errorf("of session %d: %+v, %v", it.session, reply, err)
		}
	}
}

// What is refused changes nothing; and where the new store fails it is done by another run.
func TestNotRebuilt(t *testing.T) {
	set := newSet(t)
	session := lost(t, set)
	set.play("other", 1, frames.NodeStageVolume{ID: 3, Capability: block})
	parts, sides := set.has("new")
	for _, it := range []struct {
		next  uint64
		nodes []string
		want  string
	}{
		{3, nil, "id taken"},
		{5, []string{"n1", "other"}, "stores disagree, store 3"},
		{5, []string{"n2", "controller"}, "record fault at 0, store 3"},
	} {
		if _, err := set.rebuild(it.next, it.nodes...); err != Refusal(it.want) {
			t.Errorf("%v, not %s", err, it.want)
		}
		if is, beside := set.has("new"); !reflect.DeepEqual(parts, is) || !reflect.DeepEqual(sides, beside) {
			t.Errorf("%s: the orchestrator's store was changed", it.want)
		}
	}
	left := 0
	asked := Rebuilding{Program: os.Getenv("TUFAYON_TEST_PROGRAM"), Config: []byte(config), Next: 5, New: failing{set.open("rebuilt"), &left}, Orchestrator: set.open("new")}
	if _, err := asked.Run(ctx); !errors.Is(err, store.ErrDevice) {
		t.Errorf("where a commit fails: %v", err)
	}
	asked.New.Close()
	asked.Orchestrator.Close()
	line, err := set.rebuild(5)
	set.wasRebuilt(line, err, session+1)
}

// A controller's is made where nothing is left beside it of a lost one: it couldn't be opened.
func TestRebuiltWhereNothingIsLeft(t *testing.T) {
	set := newSet(t)
	session := lost(t, set)
	set.leftOf("rebuilt")
	_, before := set.has("new")
	if _, err := set.rebuild(5, "n1"); !errors.Is(err, store.ErrBeside) {
		t.Errorf("over what is left: %v", err)
	}
	if _, after := set.has("new"); !reflect.DeepEqual(before, after) {
		t.Errorf("beside the orchestrator's record stand %v, not %v", after, before)
	}
	if err := os.Remove(set.path("rebuilt") + ".beside"); err != nil {
		t.Fatal(err)
	}
	line, err := set.rebuild(5, "n1")
	set.wasRebuilt(line, err, session+1)
}

// Why the program makes nothing is what it says, or, where it says nothing, how it ended.
func TestProgramFails(t *testing.T) {
	set := newSet(t)
	lost(t, set)
	for script, why := range map[string]string{"kill -9 $$": "signal: killed", "exit 1": "exit status 1", "echo 'csi-replay: device' >&2; exit 3": "device"} {
		program := filepath.Join(set.folder, "program")
		if err := os.WriteFile(program, []byte("#!/bin/sh\n"+script), 0o700); err != nil {
			t.Fatal(err)
		}
		asked := Rebuilding{Program: program, Config: []byte(config), Next: 5, New: set.open("rebuilt"), Orchestrator: set.open("new")}
		if _, err := asked.Run(ctx); err == nil || err.Error() != program+": "+why {
			t.Errorf("%s: %v, not %s", script, err, why)
		}
		asked.New.Close()
		asked.Orchestrator.Close()
	}
}

// Both in etcd.
func TestRebuiltInEtcd(t *testing.T) {
	set := newSet(t)
	set.etcd = etcd.Config{Endpoints: []string{etcdtest.Start(t)}, LeaseSeconds: 5}
	session := lost(t, set)
	line, err := set.rebuild(5, "n1")
	set.wasRebuilt(line, err, session+1)
	if _, sides := set.has("new"); sides["plugin/controller"] != heard(session+1) {
		t.Errorf("beside the orchestrator's record stand %v", sides)
	}
}
