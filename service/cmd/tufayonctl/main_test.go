package main

import (
	"bytes"
	"context"
	"errors"
	"os"
	"path/filepath"
	"reflect"
	"sort"
	"strings"
	"sync"
	"sync/atomic"
	"syscall"
	"testing"
	"time"

	"go.uber.org/zap"
	"google.golang.org/grpc"

	"tufayon/service/api"
	"tufayon/service/api/terms"
	"tufayon/service/api/wire"
	"tufayon/service/carrying"
	"tufayon/service/frames"
	"tufayon/service/history"
	"tufayon/service/host"
	"tufayon/service/host/hosttest"
	"tufayon/service/secure"
)

type plugins map[string]carrying.State

func (it plugins) States() map[string]carrying.State { return it }

// Unmounted says of a node that says anything of itself that no volume is mounted there.
func (it plugins) Unmounted(node string, _ uint64) string { return it[carrying.NodeName(node)].Amiss }

// serve serves a new orchestrator of a node, of which a carrier answers the calls, and gives its address. It may be told how it stands with the node.
func serve(t *testing.T, carrier host.Carrier, more ...carrying.State) string {
	t.Helper()
	kept, err := history.Open("", history.Usual, zap.NewNop())
	if err != nil {
		t.Fatal(err)
	}
	kept.Configure([]byte(`{"greatest":1099511627776,"nodes":[{"id":"n1","slots":8}]}`))
	made, err := host.Open(context.Background(), host.Options{
		Store: hosttest.NewStore(), Nodes: []string{"n1"}, Carrier: carrier, Log: zap.NewNop(), Observers: []host.Observer{kept},
		Times: host.Times{Patience: 20 * time.Millisecond, Retry: time.Millisecond, MostRetry: time.Millisecond},
	})
	if err != nil {
		t.Fatal(err)
	}
	listener, err := secure.Listen(filepath.Join(t.TempDir(), "socket"))
	if err != nil {
		t.Fatal(err)
	}
	roles := &api.Roles{}
	roles.Set(nil, map[uint32]api.Role{uint32(os.Geteuid()): api.Loses})
	states := plugins{carrying.Controller: {Address: "unix:///c", Connection: "READY"}, "node:n1": {Address: "unix:///n1", Connection: "CONNECTING"}}
	for _, it := range more {
		states["node:n1"] = it
	}
	leading, server := api.New(states, nil, roles, secure.Local{May: roles.MayConnect}, zap.NewNop())
	leading.Lead(made)
	leading.Keep(kept)
	go server.Serve(listener)
	t.Cleanup(func() { server.Stop(); made.Close(); kept.Close() })
	return "unix://" + listener.Addr().String()
}

// says runs the program, and wants its exit status, and that what it prints has these words.
func says(t *testing.T, address, line string, code int, words ...string) {
	t.Helper()
	var output, errors bytes.Buffer
	got := run(context.Background(), append([]string{"--address", address}, strings.Split(line, "|")...), &output, &errors)
	all := output.String() + errors.String()
	if got != code {
		t.Errorf("%s: %d, not %d: %s", line, got, code, all)
	}
	for _, it := range words {
		if !strings.Contains(all, it) {
			t.Errorf("%s: it doesn't say %q: %s", line, it, all)
		}
	}
}

func TestWords(t *testing.T) {
	var refusing int32
	carrier := &hosttest.Carrier{Answer: func(_ context.Context, call frames.Call, _ time.Time) (frames.Reply, error, bool) {
		if call.Kind() != frames.NodeStageVolumeKind || atomic.LoadInt32(&refusing) == 0 {
			return frames.Reply{}, nil, false
		}
		return frames.Reply{}, errors.New("nobody is there"), true
	}}
	address := serve(t, carrier)
	says(t, address, "create|v|--size|2K|--limit|1M|--block|--mode|SINGLE_NODE_WRITER|--wait", 0, "NAME", "v ", "yes")
	says(t, address, "create|v|--block", 1, "AlreadyExists: NameUsed")
	says(t, address, "use|v|n1|/a|--block|--wait", 0, "n1:/a")
	says(t, address, "publish|v|n1|/a|--block|--wait|--json", 0, `"met":true`, `"reached":true`, `"path":"/a"`, `"required":"2048"`)
	says(t, address, "list", 0, "WANTED", "n1:/a")
	says(t, address, "list|--node|n9|--json", 0, `{"volumes":[],"next":""}`)
	says(t, address, "nodes", 0, "PLUGIN", "controller", "node:n1", "CONNECTING")
	says(t, address, "get|v", 0, "n1:/a")
	says(t, address, "get|w", 1, "NotFound: NoSuchVolume")
	says(t, address, "unpublish|v|n1|/a|--wait", 0, "yes")
	atomic.StoreInt32(&refusing, 1)
	says(t, address, "use|v|n1|/a|--block|--wait", 1, "it was given up: node:n1: nobody is there", "v: use n1 /a")
	atomic.StoreInt32(&refusing, 0)
	says(t, address, "__complete|get|", 0, "v\n")
	says(t, address, "__complete|use|v|", 0, "n1\n")
	says(t, address, "completion|bash", 0, "tufayonctl")
	says(t, address, "delete|v|--wait", 0, "no")
	says(t, address, "restart", 0, "session 2")
	says(t, address, "lose|n1", 2, `--promise "off for good, and its store never comes back"`)
	says(t, address, "lose|n1|--promise|"+terms.Promise, 0, "n1 is lost", "session 3")
	says(t, address, "watch|--current|--timeout|50ms", 3, "DeadlineExceeded")
}

// serveAt serves an orchestrator over a store at a path, until what it gives is called.
func serveAt(t *testing.T, path string, kept *hosttest.Store) (made *host.Host, end func()) {
	t.Helper()
	made, err := host.Open(context.Background(), host.Options{Store: kept, Carrier: &hosttest.Carrier{}, Log: zap.NewNop()})
	if err != nil {
		t.Fatal(err)
	}
	listener, err := secure.Listen(path)
	if err != nil {
		t.Fatal(err)
	}
	roles := &api.Roles{}
	roles.Set(nil, map[uint32]api.Role{uint32(os.Geteuid()): api.Loses})
	leading, server := api.New(plugins{}, nil, roles, secure.Local{May: roles.MayConnect}, zap.NewNop())
	leading.Lead(made)
	go server.Serve(listener)
	return made, func() { made.Close(); server.Stop() }
}

// said is what was printed until now.
type said struct {
	mutex sync.Mutex
	text  bytes.Buffer
}

func (it *said) Write(text []byte) (int, error) {
	it.mutex.Lock()
	defer it.mutex.Unlock()
	return it.text.Write(text)
}

// soon wants that a text is printed so many times.
func (it *said) soon(t *testing.T, text string, count int) {
	t.Helper()
	for end := time.Now().Add(10 * time.Second); ; time.Sleep(5 * time.Millisecond) {
		it.mutex.Lock()
		all := it.text.String()
		it.mutex.Unlock()
		if strings.Count(all, text) >= count {
			return
		}
		if time.Now().After(end) {
			t.Fatalf("it doesn't say %q %d times: %s", text, count, all)
		}
	}
}

// Who watches sees what happens until it is interrupted, whatever becomes of the service meanwhile.
func TestWatchGoesOn(t *testing.T) {
	path, kept := filepath.Join(t.TempDir(), "socket"), hosttest.NewStore()
	ctx, interrupt := context.WithCancel(context.Background())
	defer interrupt()
	made, end := serveAt(t, path, kept)
	says(t, "unix://"+path, "create|v|--block|--wait", 0, "yes")
	watchers := func(want int) {
		for until := time.Now().Add(10 * time.Second); made.Counts().Watchers != want && time.Now().Before(until); {
			time.Sleep(time.Millisecond)
		}
	}
	watchers(0) // who waited for the create watched
	output, code := &said{}, make(chan int, 1)
	go func() { code <- run(ctx, []string{"--address", "unix://" + path, "watch"}, output, output) }()
	watchers(1)
	says(t, "unix://"+path, "create|u|--block|--wait", 0, "yes")
	output.soon(t, "u: at rest, exists yes", 1)
	end()
	output.soon(t, "it begins again", 1)
	_, end = serveAt(t, path, kept)
	defer func() { end() }()
	output.soon(t, "v: at rest, exists yes", 1)
	says(t, "unix://"+path, "create|w|--block|--wait", 0, "yes")
	output.soon(t, "w: at rest, exists yes", 1)
	interrupt()
	if got := <-code; got != 0 {
		t.Errorf("it ended with %d", got)
	}
}

// pages is a service that lists a volume on each page.
type pages struct {
	wire.OrchestratorClient
	names []string
}

func (it pages) List(_ context.Context, request *wire.ListRequest, _ ...grpc.CallOption) (*wire.ListResponse, error) {
	at := sort.SearchStrings(it.names, request.After+"\x00")
	response := &wire.ListResponse{Volumes: []*wire.Volume{{Name: it.names[at]}}}
	if at+1 < len(it.names) {
		response.Next = it.names[at]
	}
	return response, nil
}

// A shell is told the names of all volumes, on however many pages they are.
func TestNames(t *testing.T) {
	want := []string{"a", "b", "c"}
	if names := namesOf(context.Background(), pages{names: want}); !reflect.DeepEqual(names, want) {
		t.Errorf("it is told %v", names)
	}
}

// A use of what is so already, at a node that hasn't mounted it, says so, and ends otherwise; what else is asked goes on.
func TestUnmounted(t *testing.T) {
	address := serve(t, &hosttest.Carrier{}, carrying.State{Address: "unix:///n1", Connection: "READY", Amiss: "there is no device"})
	says(t, address, "create|v|--block|--wait", 0, "yes")
	says(t, address, "use|v|n1|/a|--block|--wait", 4, "n1:/a (not mounted)", "tufayonctl: v: it isn't mounted at n1: there is no device")
	says(t, address, "use|v|n1|/a|--block", 4, "n1:/a (not mounted)", "there is no device")
	says(t, address, "use|v|n1|/a|--block|--json", 4, `"met":true`, `"reached":false`, `"unmounted":"there is no device"`)
	says(t, address, "get|v", 0, "n1:/a (not mounted)")
	says(t, address, "stop|v|n1|/a|--wait", 0, "yes")
	says(t, address, "delete|v|--wait", 0, "no")
}

// What a driver says in several lines, or to a terminal, stands in the one line of its volume or event.
func TestLines(t *testing.T) {
	carrier := &hosttest.Carrier{Answer: func(_ context.Context, call frames.Call, _ time.Time) (frames.Reply, error, bool) {
		return frames.Reply{}, errors.New("mount failed:\nOutput:\tno device\x1b[2J"), call.Kind() == frames.NodeStageVolumeKind
	}}
	address := serve(t, carrier)
	says(t, address, "create|v|--block|--wait", 0, "yes")
	says(t, address, "use|v|n1|/a|--block|--wait", 1, "it was given up: node:n1: mount failed: Output: no device [2J\n")
	says(t, address, "create|w\n|--block|--wait", 0, `"w\n" `)
	time.Sleep(200 * time.Millisecond) // the history comes behind the answers
	for line, wants := range map[string]int{"list": 3, "get|v": 2, "history|v|--most|3": 4} {
		var output bytes.Buffer
		run(context.Background(), append([]string{"--address", address}, strings.Split(line, "|")...), &output, &output)
		text := output.String()
		if strings.Count(text, "\n") != wants || strings.ContainsAny(text, "\t\x1b") {
			t.Errorf("%s: %q", line, text)
		}
	}
}

// full is standard output where nothing can be written.
type full struct{}

func (full) Write([]byte) (int, error) { return 0, syscall.ENOSPC }

// An answer that can't be printed isn't done, in whatever form, and what was asked for may be.
func TestUnprinted(t *testing.T) {
	address := serve(t, &hosttest.Carrier{})
	says(t, address, "create|v|--block|--wait", 0, "yes")
	for _, line := range []string{"list", "list|--json", "get|v", "nodes", "history", "history|v|--schedule", "watch|--current|--timeout|5s", "create|w|--block|--json"} {
		var errors bytes.Buffer
		code := run(context.Background(), append([]string{"--address", address}, strings.Split(line, "|")...), full{}, &errors)
		if code != 3 || !strings.Contains(errors.String(), "the answer can't be printed: no space left on device") {
			t.Errorf("%s: %d: %s", line, code, errors.String())
		}
	}
	says(t, address, "get|w", 0, "w ")
}

// What happened, as lines and as a schedule; and a picture of it, where csi-replay is there.
func TestHistory(t *testing.T) {
	address := serve(t, &hosttest.Carrier{})
	says(t, address, "create|v\nw|--block|--wait", 0, "yes")
	says(t, address, "use|v\nw|n1|/a|--block|--wait", 0, "n1:/a")
	says(t, address, "create|x|--block|--wait", 0, "yes")
	time.Sleep(200 * time.Millisecond) // the history comes behind the answers
	says(t, address, "history|v\nw", 0, `"v\nw"`, "NodePublishVolume 1.4 to node:n1: OK, at rest", "session 1 begins")
	says(t, address, "history|--most|1", 0, "x ", "CreateVolume 1.5 to controller: OK, at rest")
	says(t, address, "history|x|--schedule", 0, `{"config":{"greatest":1099511627776,"nodes":[]}`, `{"deliver":2}`)
	says(t, address, "history|--json", 0, `"what":"create"`)
	says(t, address, "draw|nobody", 1, "nobody: nothing is known of it")
	says(t, address, "draw|x|--program|/nowhere", 2, "/nowhere")
	program := os.Getenv("TUFAYON_TEST_PROGRAM")
	if program == "" {
		t.Skip("left out, since there is no csi-replay: TUFAYON_TEST_PROGRAM")
	}
	says(t, address, "draw|v\nw|--program|"+program, 0, "<svg", "NodePublishVolume", "Audit: nothing wrong")
}

// Of several services it asks the one that leads, and of one that doesn't lead that which it says, once it says it.
func TestLeading(t *testing.T) {
	listener, err := secure.Listen(filepath.Join(t.TempDir(), "socket"))
	if err != nil {
		t.Fatal(err)
	}
	roles := &api.Roles{}
	roles.Set(nil, map[uint32]api.Role{uint32(os.Geteuid()): api.Loses})
	var where atomic.Value
	where.Store("")
	_, server := api.New(plugins{}, func(context.Context) string { return where.Load().(string) }, roles, secure.Local{May: roles.MayConnect}, zap.NewNop())
	go server.Serve(listener)
	defer server.Stop()
	waiting, leads, nobody := "unix://"+listener.Addr().String(), serve(t, &hosttest.Carrier{}), "unix://"+filepath.Join(t.TempDir(), "nobody")
	says(t, waiting, "list|--timeout|300ms", 3, "this service doesn't lead\n")
	says(t, strings.Join([]string{nobody, waiting, leads}, ","), "create|v|--block|--wait|--timeout|10s", 0, "yes")
	says(t, waiting+","+nobody, "list|--timeout|50ms", 3, "DeadlineExceeded")
	says(t, waiting+",127.0.0.1:1", "list", 2, "all of Unix sockets, or none")
	time.AfterFunc(500*time.Millisecond, func() { where.Store(leads) })
	says(t, waiting, "create|w|--block|--wait|--timeout|10s", 0, "w ", "yes")
	says(t, waiting, "watch|w|--current|--timeout|300ms", 3, "w: at rest, exists yes", "DeadlineExceeded")
	where.Store("")
	time.AfterFunc(300*time.Millisecond, func() { where.Store(leads) })
	says(t, waiting, "watch|w|--current|--timeout|1s", 3, "w: at rest, exists yes", "DeadlineExceeded")
	where.Store(nobody) // who led, and has just died
	time.AfterFunc(500*time.Millisecond, func() { where.Store(leads) })
	says(t, waiting, "get|w|--timeout|10s", 0, "w ", "yes")
	where.Store(nobody)
	time.AfterFunc(500*time.Millisecond, func() { where.Store(leads) })
	says(t, waiting, "watch|w|--current|--timeout|1s", 3, "w: at rest, exists yes", "DeadlineExceeded")
	where.Store("127.0.0.1:1")
	says(t, waiting, "list|--timeout|10s", 3, "this service doesn't lead: 127.0.0.1:1 does")
}

// Where nobody leads it is looked for who does for a while, by calls and by streams, and then that is told.
func TestNobodyLeads(t *testing.T) {
	defer func(before time.Duration) { patience = before }(patience)
	patience = 300 * time.Millisecond
	listener, err := secure.Listen(filepath.Join(t.TempDir(), "socket"))
	if err != nil {
		t.Fatal(err)
	}
	roles := &api.Roles{}
	roles.Set(nil, map[uint32]api.Role{uint32(os.Geteuid()): api.Loses})
	_, server := api.New(plugins{}, nil, roles, secure.Local{May: roles.MayConnect}, zap.NewNop())
	go server.Serve(listener)
	defer server.Stop()
	waiting, nobody := "unix://"+listener.Addr().String(), "unix://"+filepath.Join(t.TempDir(), "nobody")
	for _, line := range []string{"list", "watch"} {
		says(t, waiting, line+"|--timeout|2s", 3, "this service doesn't lead\n")
		says(t, waiting+","+nobody, line+"|--timeout|2s", 3, "Unavailable: none of "+waiting+","+nobody+" leads\n")
	}
}

// Where none of several services leads, a command that tells what is going on waits no longer than another one.
func TestNobodyLeadsMeanwhile(t *testing.T) {
	defer func(before time.Duration) { patience = before }(patience)
	patience = time.Second
	nobody := "unix://" + filepath.Join(t.TempDir(), "nobody")
	began := time.Now()
	says(t, nobody+","+nobody, "delete|v|--wait", 3, "Unavailable: none of "+nobody+","+nobody+" leads\n")
	if took := time.Since(began); took >= 2*patience {
		t.Errorf("it took %v", took)
	}
}

// A shell that completes words waits a moment alone where none of several services leads: not as long as a command.
func TestNobodyCompletes(t *testing.T) {
	defer func(before time.Duration) { completing = before }(completing)
	completing = 100 * time.Millisecond
	nobody := "unix://" + filepath.Join(t.TempDir(), "nobody")
	began := time.Now()
	says(t, nobody+","+nobody, "__complete|get|", 0, "")
	if took := time.Since(began); took > patience/2 {
		t.Errorf("it took %v", took)
	}
}

func TestUsage(t *testing.T) {
	nobody := "unix://" + filepath.Join(t.TempDir(), "nobody")
	says(t, nobody, "list", 3, "Unavailable")
	says(t, nobody, "create", 2, "accepts 1 arg(s)")
	says(t, nobody, "create|v|--mode|9", 2, "--mode")
	says(t, nobody, "create|v|--block|--fs|ext4", 2, "--block or --fs")
	says(t, nobody, "create|v|--size|10X", 2, "--size")
	says(t, nobody, "create|v|--size|99999999999T", 2, "--size")
	says(t, nobody, "king", 2, "unknown command")
	says(t, "127.0.0.1:1", "list", 2, "--certificate")
	for text, want := range map[string]uint64{"0": 0, "10": 10, "3K": 3072, "1M": 1 << 20, "2G": 2 << 30, "1T": 1 << 40} {
		if got, err := bytesOf("size", text); err != nil || got != want {
			t.Errorf("%s: %d, %v", text, got, err)
		}
	}
}
