package main

import (
	"context"
	"database/sql"
	"errors"
	"fmt"
	"os"
	"path/filepath"
	"strings"
	"testing"
	"time"

	"tufayon/service/api/wire"
	"tufayon/service/program"
	"tufayon/service/records"
	"tufayon/service/secure"
	"tufayon/service/store"
)

// ours runs the plugins' own programs over files in the folder: each gives what ends it.
func (made *files) ours(role secure.Role, name string) func() {
	made.t.Helper()
	text := fmt.Sprintf(`{"set": "set.json", "store": %q}`, name+".db")
	if role == secure.Node {
		text = fmt.Sprintf(`{"set": "set.json", "store": %q, "node": %q, "hooks": "none"}`, name+".db", name)
	}
	made.write(name+".json", text)
	ctx, stop := context.WithCancel(context.Background())
	ended := make(chan error, 1)
	go func() {
		ended <- program.RunPlugin(ctx, "a plugin", role, []string{made.path(name + ".json")}, os.Stdout)
	}()
	end := func() {
		stop()
		if err := <-ended; err != nil {
			made.t.Error(err)
		}
		ended <- nil
	}
	made.t.Cleanup(end)
	return end
}

// copies are the files of a store, as they are now.
func (made *files) copies(name string) map[string][]byte {
	made.t.Helper()
	found, err := filepath.Glob(made.path(name + ".db*"))
	if err != nil {
		made.t.Fatal(err)
	}
	all := map[string][]byte{}
	for _, it := range found {
		if all[filepath.Base(it)], err = os.ReadFile(it); err != nil {
			made.t.Fatal(err)
		}
	}
	return all
}

// putBack puts files back, in place of what has such names.
func (made *files) putBack(name string, copies map[string][]byte, only ...string) {
	for it, content := range copies {
		if len(only) == 0 || it == only[0] {
			made.write(it, string(content))
		}
	}
}

// Copies of stores that are put back, with real processes over files: the orchestrator's is found before anything is sent, one of its two files alone at
// its start, and a node's isn't used.
func TestStoresPutBack(t *testing.T) {
	ctx, cancel := context.WithTimeout(context.Background(), 6*within)
	defer cancel()
	folder := t.TempDir()
	made := &files{t: t, folder: folder, address: "unix://" + filepath.Join(folder, "o.sock"), process: "process.json"}
	made.write(made.process, fmt.Sprintf(`{"set": "set.json", "store": "o.db", "listen": %q}`, made.address))
	made.list("n1", "n2")
	made.ours(secure.Controller, "controller")
	endN1 := made.ours(secure.Node, "n1")
	made.ours(secure.Node, "n2")
	client, stop := made.start(true)
	use := func(name, node string) {
		t.Helper()
		request := &wire.UseRequest{Name: name, Node: node, Target: "/a", Capability: block, Wait: wire.Wait_AT_REST}
		if volume, err := client.Use(ctx, request); err != nil || !volume.Reached {
			t.Fatalf("%s at %s: %v, %v", name, node, volume, err)
		}
	}
	for _, name := range []string{"v", "w"} {
		request := &wire.CreateRequest{Name: name, Required: 10, Capabilities: []*wire.Capability{block}, Wait: wire.Wait_AT_REST}
		if volume, err := client.Create(ctx, request); err != nil || !volume.Reached {
			t.Fatalf("%v, %v", volume, err)
		}
	}
	if status := stop(); status != 0 {
		t.Fatalf("it ended with %d", status)
	}
	older := made.copies("o")
	client, stop = made.start(true)
	use("v", "n1")
	stop()
	present := made.copies("o")
	ends := func(what string, want error) {
		t.Helper()
		limited, cancel := context.WithTimeout(ctx, within)
		defer cancel()
		err := run(limited, []string{made.path(made.process)}, os.Stdout)
		if !errors.Is(err, want) || program.StatusOf(err) != 1 {
			t.Errorf("%s: %v", what, err)
		}
	}
	made.putBack("o", older)
	ends("both files", store.ErrOlder)
	made.putBack("o", present)
	made.putBack("o", older, "o.db")
	ends("the record", store.ErrBeside)
	made.putBack("o", present)
	made.putBack("o", older, "o.db.beside")
	ends("what stands beside it", store.ErrBeside)
	made.putBack("o", present)
	endN1()
	n1 := made.copies("n1")
	endN1 = made.ours(secure.Node, "n1")
	client, stop = made.start(true)
	if _, err := client.Stop(ctx, &wire.StopRequest{Name: "v", Node: "n1", Target: "/a", Wait: wire.Wait_AT_REST}); err != nil {
		t.Fatal(err)
	}
	stop()
	endN1()
	made.putBack("n1", n1)
	made.ours(secure.Node, "n1")
	client, stop = made.start(true)
	for trouble := ""; !strings.Contains(trouble, "its store is an older copy"); time.Sleep(10 * time.Millisecond) {
		nodes, err := client.Nodes(ctx, &wire.NodesRequest{})
		if err != nil {
			t.Fatalf("%s: %v", trouble, err)
		}
		trouble = nodes.Nodes[1].Trouble
	}
	use("w", "n2")
	stop()
}

// Two services over copies of one store begin sessions of one number: one goes on, and the other one, whose opening isn't that which began it, ends before
// it sends anything.
func TestSessionBegunTwice(t *testing.T) {
	ctx, cancel := context.WithTimeout(context.Background(), 6*within)
	defer cancel()
	folder := t.TempDir()
	made := &shard{files: &files{t: t, folder: folder, address: "unix://" + filepath.Join(folder, "o.sock"), process: "process.json"}}
	made.write(made.process, fmt.Sprintf(`{"set": "set.json", "store": "o.db", "listen": %q}`, made.address))
	made.list("n1", "n2")
	made.start()
	defer made.stop()
	request := &wire.CreateRequest{Name: "v", Required: 10, Capabilities: []*wire.Capability{block}, Wait: wire.Wait_AT_REST}
	if volume, err := made.client.Create(ctx, request); err != nil || !volume.Reached {
		t.Fatalf("%v, %v", volume, err)
	}
	session := func() uint64 {
		t.Helper()
		nodes, err := made.client.Nodes(ctx, &wire.NodesRequest{})
		if err != nil {
			t.Fatal(err)
		}
		return nodes.Session
	}
	for ahead := uint64(time.Now().Add(time.Minute).Unix()); session() < ahead; { // of the clock, by which the two would differ
		if _, err := made.client.Restart(ctx, &wire.RestartRequest{}); err != nil {
			t.Fatal(err)
		}
	}
	last := session()
	made.ends[len(made.ends)-1]()
	second := &files{t: t, folder: folder, process: "second.json"}
	for name, content := range made.copies("o") {
		made.write("second"+strings.TrimPrefix(name, "o"), string(content))
	}
	made.write(second.process, fmt.Sprintf(`{"set": "set.json", "store": "second.db", "listen": "unix://%s"}`, made.path("second.sock")))
	client, stop := made.files.start(true)
	made.client, made.ends[len(made.ends)-1] = client, func() {
		if status := stop(); status != 0 {
			t.Errorf("it ended with %d", status)
		}
	}
	if now := session(); now != last+1 {
		t.Errorf("session %d follows %d", now, last)
	}
	use := func(node string) {
		t.Helper()
		volume, err := client.Use(ctx, &wire.UseRequest{Name: "v", Node: node, Target: "/a", Capability: block, Wait: wire.Wait_AT_REST})
		made.wants(volume, err, node)
	}
	use("n1") // so that each of them has begun it
	if _, err := client.Stop(ctx, &wire.StopRequest{Name: "v", Node: "n1", Target: "/a", Wait: wire.Wait_AT_REST}); err != nil {
		t.Fatal(err)
	}
	limited, cancel := context.WithTimeout(ctx, within)
	defer cancel()
	if err := run(limited, []string{made.path(second.process)}, os.Stdout); !errors.Is(err, store.ErrOlder) || program.StatusOf(err) != 1 {
		t.Errorf("the second one: %v", err)
	}
	use("n2")
}

// of reads a store's parts, which nobody else has open.
func (made *files) of(name string) (store.Store, []store.Part) {
	made.t.Helper()
	kept, err := store.OpenSQLite(context.Background(), made.path(name+".db"))
	if err != nil {
		made.t.Fatal(err)
	}
	made.t.Cleanup(func() { kept.Close() })
	parts, err := kept.Load(context.Background())
	if err != nil || len(parts) == 0 {
		made.t.Fatalf("%s: %d parts, %v", name, len(parts), err)
	}
	return kept, parts
}

// asBefore has a store as programs of before left it: of a version of records, without a session in its head before version 3, and with nothing beside it.
func (made *files) asBefore(name string, version byte) {
	made.t.Helper()
	kept, parts := made.of(name)
	var changes []store.Change
	for _, part := range parts {
		value := append([]byte{version}, part.Value[1:]...)
		if part.Key == records.HeadKey && version < 3 {
			value = value[:len(value)-8]
		}
		changes = append(changes, store.Change{Key: part.Key, Value: value})
	}
	if err := kept.Commit(context.Background(), true, changes); err != nil {
		made.t.Fatal(err)
	}
	kept.Close()
	db, err := sql.Open("sqlite3", made.path(name+".db"))
	if err == nil {
		_, err = db.Exec("PRAGMA user_version = 0")
	}
	if err != nil {
		made.t.Fatal(err)
	}
	db.Close()
	beside, err := filepath.Glob(made.path(name + ".db.beside*"))
	if err != nil {
		made.t.Fatal(err)
	}
	for _, it := range beside {
		if err := os.Remove(it); err != nil {
			made.t.Fatal(err)
		}
	}
}

// A shard is a controller, two nodes and the service, each of them its own program.
type shard struct {
	*files
	client wire.OrchestratorClient
	ends   []func()
}

var shardPlugins = map[string]secure.Role{"controller": secure.Controller, "n1": secure.Node, "n2": secure.Node}

func (made *shard) start() {
	for name, role := range shardPlugins {
		made.ends = append(made.ends, made.ours(role, name))
	}
	client, stop := made.files.start(true)
	made.client = client
	made.ends = append(made.ends, func() {
		if status := stop(); status != 0 {
			made.t.Errorf("it ended with %d", status)
		}
	})
}

// stop ends all of it, the service first.
func (made *shard) stop() {
	for at := len(made.ends) - 1; at >= 0; at-- {
		made.ends[at]()
	}
	made.ends = nil
}

// wants wants that a volume is used at this node alone, or nowhere.
func (made *shard) wants(volume *wire.Volume, err error, node string) {
	made.t.Helper()
	var used []string
	for _, at := range volume.GetAt() {
		for _, target := range at.Targets {
			used = append(used, fmt.Sprint(at.Node, target.Path, " ", target.Published))
		}
	}
	want := ""
	if node != "" {
		want = node + "/a YES"
	}
	if said := strings.Join(used, ", "); err != nil || said != want {
		made.t.Fatalf("it is used at %q, not %q: %v", said, want, err)
	}
}

// Stores of each version of records, as programs of before left them while a volume was in use: the shard goes on over them, with what was so, and they
// are of the present version then. An orchestrator's are of version 3 only.
func TestStoresOfBefore(t *testing.T) {
	for version := byte(1); version <= 3; version++ {
		t.Run(fmt.Sprint("version ", version), func(t *testing.T) { goesOnOver(t, version) })
	}
}

func goesOnOver(t *testing.T, version byte) {
	ctx, cancel := context.WithTimeout(context.Background(), 3*within)
	defer cancel()
	folder := t.TempDir()
	made := &shard{files: &files{t: t, folder: folder, address: "unix://" + filepath.Join(folder, "o.sock"), process: "process.json"}}
	made.write(made.process, fmt.Sprintf(`{"set": "set.json", "store": "o.db", "listen": %q}`, made.address))
	made.list("n1", "n2")
	made.start()
	use := func(node string) {
		t.Helper()
		volume, err := made.client.Use(ctx, &wire.UseRequest{Name: "v", Node: node, Target: "/a", Capability: block, Wait: wire.Wait_AT_REST})
		made.wants(volume, err, node)
	}
	for _, name := range []string{"gone", "v"} {
		request := &wire.CreateRequest{Name: name, Required: 10, Capabilities: []*wire.Capability{block}, Wait: wire.Wait_AT_REST}
		if volume, err := made.client.Create(ctx, request); err != nil || !volume.Reached {
			t.Fatalf("%v, %v", volume, err)
		}
	}
	if _, err := made.client.Delete(ctx, &wire.DeleteRequest{Name: "gone", Wait: wire.Wait_AT_REST}); err != nil {
		t.Fatal(err)
	}
	use("n1")
	made.stop()
	made.asBefore("o", 3)
	for name := range shardPlugins {
		made.asBefore(name, version)
	}

	made.start()
	volume, err := made.client.Get(ctx, &wire.GetRequest{Name: "v"})
	made.wants(volume, err, "n1")
	volume, err = made.client.Stop(ctx, &wire.StopRequest{Name: "v", Node: "n1", Target: "/a", Wait: wire.Wait_AT_REST})
	made.wants(volume, err, "")
	use("n2")
	made.stop()
	for name := range shardPlugins {
		if _, parts := made.of(name); parts[0].Value[0] != 3 {
			t.Errorf("%s: its head is of version %d", name, parts[0].Value[0])
		}
	}
}
