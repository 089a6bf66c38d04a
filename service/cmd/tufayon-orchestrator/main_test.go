package main

import (
	"bytes"
	"context"
	"fmt"
	"os"
	"path/filepath"
	"strings"
	"syscall"
	"testing"
	"time"

	"go.uber.org/zap"
	"google.golang.org/grpc"

	"tufayon/service/api"
	"tufayon/service/api/wire"
	"tufayon/service/carrying/carryingtest"
	"tufayon/service/host"
	"tufayon/service/host/hosttest"
	"tufayon/service/program"
	"tufayon/service/secure"
	"tufayon/service/settings"
)

const within = 10 * time.Second // what should come soon

// files are the two files of a set of these nodes, whose plugins serve at Unix sockets, and the service's address.
type files struct {
	t               *testing.T
	folder, address string
	process         string // the file
	plugins         map[string]*carryingtest.Plugin
}

func newFiles(t *testing.T) *files {
	folder := t.TempDir()
	made := &files{t: t, folder: folder, address: "unix://" + filepath.Join(folder, "o.sock"), process: "process.json", plugins: map[string]*carryingtest.Plugin{}}
	made.serve("controller")
	made.write(made.process, fmt.Sprintf(`{"set": "set.json", "store": "o.db", "listen": %q}`, made.address))
	return made
}

func (made *files) path(name string) string { return filepath.Join(made.folder, name) }

func (made *files) serve(name string) {
	made.plugins[name] = (&carryingtest.Plugin{Node: name}).Serve(made.t, "unix://"+made.path(name+".sock"), nil)
}

func (made *files) write(name, text string) {
	made.t.Helper()
	if err := os.WriteFile(made.path(name), []byte(text), 0o600); err != nil {
		made.t.Fatal(err)
	}
}

// list writes the set's file.
func (made *files) list(ids ...string) {
	var nodes []string
	for _, id := range ids {
		nodes = append(nodes, fmt.Sprintf(`{"id": %q, "slots": 8, "address": "unix://%s"}`, id, made.path(id+".sock")))
	}
	made.write("set.json", fmt.Sprintf(`{"set": "s1", "greatest": 1000, "staging": "/staging", "controller": "unix://%s", "nodes": [%s],
		"times": {"answer": 5, "patience": 20, "retry": 0.05, "most_retry": 1}}`, made.path("controller.sock"), strings.Join(nodes, ",")))
}

// start starts the service, waits until it leads where it will, and gives a client and what ends it, which gives its exit status.
func (made *files) start(leads bool) (wire.OrchestratorClient, func() int) {
	made.t.Helper()
	ctx, stop := context.WithCancel(context.Background())
	ended := make(chan int, 1)
	go func() { ended <- program.StatusOf(run(ctx, []string{made.path(made.process)}, os.Stdout)) }()
	for end := time.Now().Add(within); time.Now().Before(end); time.Sleep(5 * time.Millisecond) {
		if _, err := os.Stat(strings.TrimPrefix(made.address, "unix://")); err == nil {
			break
		}
	}
	connection, err := grpc.Dial(made.address, grpc.WithTransportCredentials(secure.Local{May: program.IsOwn}))
	if err != nil {
		made.t.Fatal(err)
	}
	made.t.Cleanup(func() { stop(); connection.Close() })
	client := wire.NewOrchestratorClient(connection)
	for end := time.Now().Add(within); leads && time.Now().Before(end); time.Sleep(5 * time.Millisecond) {
		if _, err := client.Nodes(ctx, &wire.NodesRequest{}); err == nil {
			break // it leads
		}
	}
	return client, func() int { stop(); return <-ended }
}

var block = &wire.Capability{Mode: 1}

// A set on one machine, over Unix sockets: a volume's life; another node, by SIGHUP; a node that stays where it is in use; a restart of the process.
func TestService(t *testing.T) {
	ctx, cancel := context.WithTimeout(context.Background(), 3*within)
	defer cancel()
	made := newFiles(t)
	made.list("n1")
	made.serve("n1")
	made.serve("n2")
	client, stop := made.start(true)
	volume, err := client.Create(ctx, &wire.CreateRequest{Name: "v", Capabilities: []*wire.Capability{block}, Wait: wire.Wait_AT_REST})
	if err != nil || !volume.Reached {
		t.Fatalf("created: %v, %v", volume, err)
	}
	use := func(node string) *wire.UseRequest {
		return &wire.UseRequest{Name: "v", Node: node, Target: "/a", Capability: block, Wait: wire.Wait_AT_REST}
	}
	if volume, err = client.Use(ctx, use("n1")); err != nil || !volume.Reached {
		t.Fatalf("used: %v, %v", volume, err)
	}
	anew := func(ids ...string) {
		t.Helper()
		before, err := client.Nodes(ctx, &wire.NodesRequest{})
		if err != nil || before.Session < 1_600_000_000 { // it is by the clock
			t.Fatalf("%v, %v", before, err)
		}
		made.list(ids...)
		if err := syscall.Kill(os.Getpid(), syscall.SIGHUP); err != nil {
			t.Fatal(err)
		}
		for end := time.Now().Add(within); ; time.Sleep(5 * time.Millisecond) {
			nodes, err := client.Nodes(ctx, &wire.NodesRequest{})
			if err == nil && nodes.Session > before.Session {
				return
			}
			if time.Now().After(end) {
				t.Fatalf("no session after %d: %v, %v", before.Session, nodes, err)
			}
		}
	}
	anew("n1", "n2")
	made.list("n2") // n1 is in use, so all stays as it is
	syscall.Kill(os.Getpid(), syscall.SIGHUP)
	time.Sleep(100 * time.Millisecond)
	if volume, err = client.Stop(ctx, &wire.StopRequest{Name: "v", Node: "n1", Target: "/a", Wait: wire.Wait_AT_REST}); err != nil || !volume.Reached {
		t.Fatalf("stopped: %v, %v", volume, err)
	}
	anew("n2")
	if volume, err = client.Use(ctx, use("n2")); err != nil || !volume.Reached {
		t.Fatalf("used at n2: %v, %v", volume, err)
	}
	if status := stop(); status != 0 {
		t.Errorf("it ended with %d", status)
	}
	if calls := strings.Join(made.plugins["n1"].Calls(), " "); calls != "NodeStageVolume NodePublishVolume NodeUnpublishVolume NodeUnstageVolume" {
		t.Errorf("n1 got %s", calls)
	}
	client, stop = made.start(true)
	volume, err = client.Get(ctx, &wire.GetRequest{Name: "v"})
	if err != nil || len(volume.At) != 1 || volume.At[0].Node != "n2" {
		t.Errorf("after a restart: %v, %v", volume, err)
	}
	stop()
}

// A process that is told to end while it begins to lead ends with 0, and leaves its store as good as before.
func TestEndedBeforeItLeads(t *testing.T) {
	made := newFiles(t)
	made.list("n1")
	read, err := settings.Read(made.path(made.process))
	if err != nil {
		t.Fatal(err)
	}
	running := &service{settings: read, log: zap.NewNop(), roles: &api.Roles{}}
	running.clients = &clients{roles: running.roles, of: map[string]time.Time{}}
	if err := running.connect(); err != nil {
		t.Fatal(err)
	}
	defer running.carrier.Close()
	if running.watching, err = running.watch(); err != nil {
		t.Fatal(err)
	}
	defer running.watching.close()
	kept, err := program.OpenStore(context.Background(), &read.Process.Place, read.Process.Address)
	if err != nil {
		t.Fatal(err)
	}
	ctx, stop := context.WithCancel(context.Background())
	stop()
	if err := running.lead(ctx, kept, nil); program.StatusOf(err) != 0 {
		t.Errorf("it ended with %d: %v", program.StatusOf(err), err)
	}
	if err := kept.Close(); err != nil {
		t.Error(err)
	}
}

// Another list of nodes is taken also while as many commands wait as may, once there are fewer.
func TestListedWhileBusy(t *testing.T) {
	ctx, cancel := context.WithTimeout(context.Background(), within)
	defer cancel()
	made, kept := newFiles(t), hosttest.NewStore()
	made.list("n1")
	read, err := settings.Read(made.path(made.process))
	if err != nil {
		t.Fatal(err)
	}
	running := &service{settings: read, log: zap.NewNop()}
	if err := running.connect(); err != nil {
		t.Fatal(err)
	}
	defer running.carrier.Close()
	running.host, err = host.Open(ctx, host.Options{Store: kept, Nodes: read.Set.IDs(), Carrier: &hosttest.Carrier{}, Log: zap.NewNop()})
	if err != nil {
		t.Fatal(err)
	}
	defer running.host.Close()
	made.list("n1", "n2")
	if read, err = settings.Read(made.path(made.process)); err != nil {
		t.Fatal(err)
	}
	letGo := kept.Hold()
	for at := 0; at < 1200; at++ { // a thousand may wait
		go running.host.Do(ctx, host.Command{Kind: host.Delete, Name: "v"})
		go running.host.Do(ctx, host.Command{Kind: host.Create, Name: "v"})
	}
	for running.host.Counts().Waiting < 1000 && ctx.Err() == nil {
		time.Sleep(time.Millisecond)
	}
	time.AfterFunc(100*time.Millisecond, letGo)
	if err := running.follow(ctx, read); err != nil || len(running.host.Nodes()) != 2 {
		t.Errorf("it lists %v, %v", running.host.Nodes(), err)
	}
}

func TestWords(t *testing.T) {
	made := newFiles(t)
	made.list("n1", "n2")
	for _, it := range []struct {
		words  []string
		status int
		says   string
	}{
		{nil, 2, "usage"}, {[]string{"--check", "--config", "f"}, 2, "usage"}, {[]string{"--other", "f"}, 2, "usage"}, {[]string{"missing"}, 1, "no such file"},
		{[]string{"--check", made.path("process.json")}, 0, "nothing is wrong with"},
		{[]string{"--config", made.path("process.json")}, 0, `{"greatest":1000,"nodes":[{"id":"n1","slots":8},{"id":"n2","slots":8}]}`},
	} {
		var output bytes.Buffer
		err := run(context.Background(), it.words, &output)
		if status := program.StatusOf(err); status != it.status || !strings.Contains(output.String()+fmt.Sprint(err), it.says) {
			t.Errorf("%v: %d, %v, %s", it.words, status, err, output.String())
		}
	}
	made.write("o.db", "this is no database of SQLite, and long enough to be read as one")
	if err := run(context.Background(), []string{made.path("process.json")}, os.Stdout); program.StatusOf(err) != 3 {
		t.Errorf("another file as store: %v", err)
	}
}
