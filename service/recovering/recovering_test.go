package recovering

import (
	"context"
	"errors"
	"fmt"
	"os"
	"path/filepath"
	"reflect"
	"runtime"
	"strings"
	"testing"
	"time"

	"tufayon/service/etcd"
	"tufayon/service/etcd/etcdtest"
	"tufayon/service/frames"
	"tufayon/service/numbers"
	"tufayon/service/plugin"
	"tufayon/service/records"
	"tufayon/service/store"
)

const (
	config = `{"greatest":1000,"nodes":[{"id":"n1","slots":9},{"id":"n2","slots":9}]}`
	above  = 1 << 20
)

var (
	ctx    = context.Background()
	block  = frames.Capability{Mode: 1}
	shared = frames.Capability{Mode: 5}
)

// A set has the stores of a shard's plugins in a folder, or a controller's in etcd.
type set struct {
	t      *testing.T
	folder string
	etcd   etcd.Config
}

func newSet(t *testing.T) *set { return &set{t: t, folder: t.TempDir()} }

func (set *set) path(name string) string { return filepath.Join(set.folder, name+".db") }

func (set *set) open(name string) store.Store {
	set.t.Helper()
	var kept store.Store
	var err error
	if config := set.etcd; len(config.Endpoints) > 0 && (name == "controller" || name == "new" || name == "rebuilt") {
		config.Prefix = "/t/" + name
		waiting, cancel := context.WithTimeout(ctx, 30*time.Second)
		defer cancel()
		for kept, err = config.Open(waiting); err != nil && waiting.Err() == nil; kept, err = config.Open(waiting) {
			time.Sleep(100 * time.Millisecond) // it starts still
		}
	} else {
		kept, err = store.OpenSQLite(ctx, set.path(name))
	}
	if err != nil {
		set.t.Fatal(err)
	}
	return kept
}

// play makes a plugin's store, or goes on over it, by calls of a session.
func (set *set) play(name string, session uint64, bodies ...frames.Body) {
	set.t.Helper()
	runtime.LockOSThread()
	defer runtime.UnlockOSThread()
	maker := plugin.Maker{IsController: name == "controller", Name: []byte(config)}
	if !maker.IsController {
		maker.Name = []byte(strings.TrimSuffix(name, " again"))
	}
	kept := set.open(name)
	defer kept.Close()
	parts, err := kept.Load(ctx)
	if err != nil {
		set.t.Fatal(err)
	}
	made, _, err := maker.Make(store.Record(parts))
	if err != nil {
		set.t.Fatal(err)
	}
	defer made.Free()
	commit := func() {
		changes, err := made.Changes()
		if err == nil {
			err = kept.Commit(ctx, false, changes)
		}
		if err != nil {
			set.t.Fatal(err)
		}
	}
	commit()
	for at, body := range bodies {
		call := frames.Call{Number: frames.Number{Session: session, Call: uint64(at + 1)}, Body: body}
		if !maker.IsController {
			call.Node = string(maker.Name)
		}
		frame, err := call.Encode()
		if err == nil {
			_, err = made.Answer(frame)
		}
		if err != nil {
			set.t.Fatal(err)
		}
		commit()
	}
}

// used is a set with a volume at n1, one that is cut short at n2, one at a node that is lost, and one that is gone.
func used(t *testing.T, set *set) *set {
	create := func(name string) frames.Body {
		return frames.CreateVolume{Name: name, Required: 10, Capabilities: []frames.Capability{block, shared}}
	}
	attach := func(id uint64, node string) frames.Body {
		return frames.ControllerPublishVolume{ID: id, Node: node, Capability: block}
	}
	set.play("controller", 1, create("v"), create("\"w\n"), create("left"), create("gone"), attach(1, "n1"), attach(2, "n2"), frames.DeleteVolume{ID: 4})
	set.play("controller", 2, attach(3, "n2"), frames.ControllerUnpublishVolume{ID: 3, Node: "n2"})
	set.play("n1", 1, frames.NodeStageVolume{ID: 1, Capability: block}, frames.NodePublishVolume{ID: 1, Target: "/a", Capability: block})
	set.play("n2", 2, frames.NodeStageVolume{ID: 2, Capability: block}, frames.NodeStageVolume{ID: 9, Capability: block}, frames.NodeUnstageVolume{ID: 9})
	return set
}

// recover recovers of these nodes' stores.
func (set *set) recover(known uint64, config string, nodes ...string) (Recovered, error) {
	set.t.Helper()
	asked := Recovery{Config: []byte(config), Known: known, New: set.open("new"), Controller: set.open("controller")}
	all := []store.Store{asked.New, asked.Controller}
	for _, name := range nodes {
		asked.Nodes = append(asked.Nodes, set.open(name))
	}
	told, err := asked.Run(ctx)
	for _, it := range append(all, asked.Nodes...) {
		if closed := it.Close(); closed != nil {
			set.t.Error(closed)
		}
	}
	return told, err
}

// has is what a store has.
func (set *set) has(name string) (map[uint64][]byte, map[string]string) {
	set.t.Helper()
	kept := set.open(name)
	defer kept.Close()
	parts, err := kept.Load(ctx)
	if err != nil {
		set.t.Fatal(err)
	}
	of := map[uint64][]byte{}
	for _, part := range parts {
		of[part.Key] = part.Value
	}
	sides, err := store.SidesOf(ctx, kept)
	if err != nil {
		set.t.Fatal(err)
	}
	texts := map[string]string{}
	for name, value := range sides {
		texts[name] = string(value)
	}
	return of, texts
}

func (set *set) session(name string) uint64 {
	set.t.Helper()
	parts, _ := set.has(name)
	read := records.Session
	if name == "new" {
		read = records.OrchestratorSession
	}
	session, err := read(parts[records.HeadKey])
	if err != nil {
		set.t.Fatal(err)
	}
	return session
}

// wasRecovered fails unless the set that is used was recovered in a session, with these nodes lost.
func (set *set) wasRecovered(told Recovered, err error, session uint64, lost []string, sides map[string]string) {
	set.t.Helper()
	want := Recovered{Lost: lost, Session: session, Volumes: 3, Wanted: []string{"\"w\n"}}
	if err != nil || !reflect.DeepEqual(told, want) {
		set.t.Fatalf("it told %+v, %v, not %+v", told, err, want)
	}
	parts, has := set.has("new")
	if len(parts) != 4 || set.session("new") != session+1 || set.session("controller") != session {
		set.t.Errorf("the sessions are %d and %d, with %d parts", set.session("new"), set.session("controller"), len(parts))
	}
	if !reflect.DeepEqual(has, sides) {
		set.t.Errorf("beside it stand %v, not %v", has, sides)
	}
	row, err := records.ReadRow(parts[2])
	if err != nil || row.Goal != records.ToStop || row.Node != "n2" || row.Target != "/" {
		set.t.Errorf("what is wanted is %+v, %v", row, err)
	}
	if rest, _ := set.has("controller"); rest[4] != nil {
		set.t.Error("a deleted volume is kept")
	}
}

func heard(session uint64) string { return fmt.Sprintf(`{"sent":"%d.0","heard":"%[1]d.0"}`, session) }

func TestRecovered(t *testing.T) {
	set := used(t, newSet(t))
	told, err := set.recover(0, config, "n1", "n2")
	session := uint64(2 + above)
	set.wasRecovered(told, err, session, nil, map[string]string{
		"list": fmt.Sprint(session), "plugin/controller": heard(session), "plugin/node:n1": heard(session), "plugin/node:n2": heard(session),
	})
	for _, name := range []string{"n1", "n2"} {
		if set.session(name) != session {
			t.Errorf("%s is in session %d", name, set.session(name))
		}
	}
	if parts, _ := set.has("n2"); parts[9] != nil || parts[2] == nil {
		t.Error("n2 has other rows")
	}
	if _, err := set.recover(0, config, "n1", "n2"); !errors.Is(err, ErrNotNew) || err.Error() != "store not new" {
		t.Errorf("once more: %v", err)
	}
	// The service's orchestrator goes on over it.
	parts, _ := set.has("new")
	list := []store.Part{{Key: 0, Value: parts[0]}, {Key: 1, Value: parts[1]}, {Key: 2, Value: parts[2]}, {Key: 3, Value: parts[3]}}
	runtime.LockOSThread()
	defer runtime.UnlockOSThread()
	made, err := plugin.MakeOrchestrator([]byte(config), store.Record(list), 0)
	if err != nil {
		t.Fatal(err)
	}
	defer made.Free()
	if outcome, err := made.Timeout("\"w\n"); err != nil || len(outcome.Frame) == 0 {
		t.Errorf("what is wanted: %+v, %v", outcome, err)
	}
	if outcome, err := made.Use("v", "n2", "/b", block, false); err != nil || outcome.Refusal == 0 {
		t.Errorf("a volume that is used elsewhere: %+v, %v", outcome, err)
	}
}

// A node whose store isn't given is lost.
func TestLost(t *testing.T) {
	set := used(t, newSet(t))
	told, err := set.recover(77, config, "n2")
	session := uint64(77 + above)
	set.wasRecovered(told, err, session, []string{"n1"}, map[string]string{
		"list": fmt.Sprint(session), "plugin/controller": heard(session), "plugin/node:n2": heard(session),
		"plugin/node:n1": fmt.Sprintf(`{"sent":"0.0","heard":"%d.0","new":true}`, session),
	})
	if set.session("n1") != 1 {
		t.Error("the lost node's store was changed")
	}
}

// What is refused changes nothing.
func TestRefused(t *testing.T) {
	set := used(t, newSet(t))
	set.play("n1 again", 1)
	set.play("other", 1, frames.NodeStageVolume{ID: 3, Capability: block})
	if err := os.WriteFile(set.path("empty"), nil, 0o600); err != nil {
		t.Fatal(err)
	}
	nameless := set.open("nameless") // a node's head with an id of no byte
	if err := nameless.Commit(ctx, false, []store.Change{{Key: records.HeadKey, Value: append([]byte{3, 1, 0}, make([]byte, 8)...)}}); err != nil {
		t.Fatal(err)
	}
	nameless.Close()
	before := map[string]any{}
	names := []string{"controller", "n1", "n2", "other", "nameless"}
	for _, name := range names {
		before[name], _ = set.has(name)
	}
	for _, it := range []struct {
		known  uint64
		config string
		nodes  []string
		want   string
		is     error
	}{
		{0, config, []string{"n1", "n2", "n1 again"}, "stores disagree, store 4", plugin.SameNode},
		{0, config, []string{"n1", "other", "n2"}, "stores disagree, store 3", plugin.Disagrees},
		{0, `{"greatest":1,"nodes":[{"id":"n1","slots":1}]}`, []string{"n1", "n2"}, "node in use", plugin.NodeInUse},
		{0, config, []string{"n1", "empty"}, "record fault, store 3", plugin.BadRecord},
		{0, config, []string{"n1", "n2", "nameless"}, "record fault, store 4", plugin.BadRecord},
		{1<<64 - 1, config, []string{"n1", "n2"}, "numbers spent", numbers.ErrSpent},
		{0, "{}", []string{"n1", "n2"}, "config refused", plugin.BadName},
	} {
		if _, err := set.recover(it.known, it.config, it.nodes...); !errors.Is(err, it.is) || err.Error() != it.want {
			t.Errorf("of %v: %v, not %s", it.nodes, err, it.want)
		}
		for _, name := range names {
			if parts, _ := set.has(name); !reflect.DeepEqual(before[name], any(parts)) {
				t.Errorf("of %v: the store %s was changed", it.nodes, name)
			}
		}
		if parts, _ := set.has("new"); len(parts) > 0 {
			t.Errorf("of %v: there is a new store", it.nodes)
		}
	}
}

// leftOf leaves beside a store that isn't there what stood beside a lost one.
func (set *set) leftOf(name string) {
	set.t.Helper()
	kept := set.open(name)
	for at := 0; at < 3; at++ {
		if err := store.CommitWith(ctx, kept, []store.Side{{Name: "list", Value: []byte{byte(at)}}}, nil); err != nil {
			set.t.Fatal(err)
		}
	}
	if err := kept.Close(); err != nil {
		set.t.Fatal(err)
	}
	if err := os.Remove(set.path(name)); err != nil {
		set.t.Fatal(err)
	}
}

// What is left beside the new store of a lost one is found before anything is changed: neither could be opened with the other.
func TestLeftBeside(t *testing.T) {
	set := used(t, newSet(t))
	set.leftOf("new")
	for at := 0; at < 2; at++ {
		if _, err := set.recover(0, config, "n1", "n2"); !errors.Is(err, store.ErrBeside) {
			t.Errorf("over what is left: %v", err)
		}
	}
	for _, name := range []string{"controller", "n1", "n2"} {
		if session := set.session(name); session > 2 {
			t.Errorf("%s is in session %d", name, session)
		}
	}
	if err := os.Remove(set.path("new") + ".beside"); err != nil {
		t.Fatal(err)
	}
	if told, err := set.recover(0, config, "n1", "n2"); err != nil || told.Session != 2+above {
		t.Errorf("once it is moved away: %+v, %v", told, err)
	}
}

// A failing store fails at its commits.
type failing struct {
	store.Store
	left *int // commits until one fails, of all stores
}

var errFailed = fmt.Errorf("%w: on purpose", store.ErrDevice)

func (it failing) Commit(ctx context.Context, anew bool, changes []store.Change) error {
	if *it.left--; *it.left < 0 {
		return errFailed
	}
	return it.Store.Commit(ctx, anew, changes)
}

// Cut short between any two commits, it is done by another run, in a later session.
func TestCutShort(t *testing.T) {
	for commits := 0; commits < 4; commits++ {
		set := used(t, newSet(t))
		left := commits
		asked := Recovery{Config: []byte(config), New: failing{set.open("new"), &left}, Controller: failing{set.open("controller"), &left}}
		for _, name := range []string{"n1", "n2"} {
			asked.Nodes = append(asked.Nodes, failing{set.open(name), &left})
		}
		_, err := asked.Run(ctx)
		if !errors.Is(err, store.ErrDevice) {
			t.Fatalf("after %d commits: %v", commits, err)
		}
		for _, it := range append(asked.Nodes, asked.New, asked.Controller) {
			it.Close()
		}
		told, err := set.recover(0, config, "n1", "n2")
		if want := uint64(2 + above); err != nil || commits > 0 && told.Session != want+above || commits == 0 && told.Session != want {
			t.Errorf("after %d commits: %+v, %v", commits, told, err)
		}
	}
}

// A controller's store in etcd, of which more is forgotten than one transaction has, and the new one there too.
func TestEtcd(t *testing.T) {
	set := newSet(t)
	set.etcd = etcd.Config{Endpoints: []string{etcdtest.Start(t)}, LeaseSeconds: 5}
	used(t, set)
	var bodies []frames.Body
	for at := uint64(0); at < 300; at++ {
		bodies = append(bodies, frames.CreateVolume{Name: fmt.Sprint("x", at), Required: 1, Capabilities: []frames.Capability{block}}, frames.DeleteVolume{ID: 5 + at})
	}
	set.play("controller", 3, bodies...)
	told, err := set.recover(0, config, "n1", "n2")
	session := uint64(3 + above)
	set.wasRecovered(told, err, session, nil, map[string]string{
		"list": fmt.Sprint(session), "plugin/controller": heard(session), "plugin/node:n1": heard(session), "plugin/node:n2": heard(session),
	})
	if parts, _ := set.has("controller"); len(parts) != 4 {
		t.Errorf("the controller has %d parts", len(parts))
	}
	if _, err := set.recover(0, config, "n1", "n2"); !errors.Is(err, ErrNotNew) {
		t.Errorf("once more: %v", err)
	}
}
