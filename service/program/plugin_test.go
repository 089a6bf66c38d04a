package program

import (
	"bytes"
	"context"
	"errors"
	"fmt"
	"io"
	"net"
	"net/http"
	"os"
	"path/filepath"
	"regexp"
	"strings"
	"syscall"
	"testing"
	"time"

	"google.golang.org/grpc"
	"google.golang.org/grpc/codes"
	"google.golang.org/grpc/health/grpc_health_v1"
	"google.golang.org/grpc/metadata"
	"google.golang.org/grpc/status"

	told "tufayon/service/api/wire"
	"tufayon/service/carrying"
	"tufayon/service/frames"
	"tufayon/service/numbers"
	"tufayon/service/secure"
	"tufayon/service/secure/securetest"
	"tufayon/service/upstream/upstreamtest"
	"tufayon/service/wire"
)

const within = 10 * time.Second // what should come soon

// set is a folder with a set's file, and an authority.
type set struct {
	*testing.T
	folder      string
	authority   *securetest.Authority
	controller  string
	nodes       []string // "ID ADDRESS"
	certificate map[string]secure.Files
}

func newSet(t *testing.T) *set {
	return &set{T: t, folder: t.TempDir(), authority: securetest.NewAuthority(t), controller: port(t), certificate: map[string]secure.Files{}}
}

// port is an address on loopback at which nobody serves.
func port(t *testing.T) string {
	listener, err := net.Listen("tcp", "127.0.0.1:0")
	if err != nil {
		t.Fatal(err)
	}
	defer listener.Close()
	return listener.Addr().String()
}

func (set *set) path(name string) string { return filepath.Join(set.folder, name) }

func (set *set) write(name, text string) string {
	set.Helper()
	if err := os.WriteFile(set.path(name), []byte(text), 0o600); err != nil {
		set.Fatal(err)
	}
	return set.path(name)
}

// list writes the set's file.
func (set *set) list() {
	var nodes []string
	for _, it := range set.nodes {
		id, address, _ := strings.Cut(it, " ")
		nodes = append(nodes, fmt.Sprintf(`{"id": %q, "slots": 8, "address": %q}`, id, address))
	}
	set.write("set.json", fmt.Sprintf(`{"set": "s1", "greatest": 1000, "staging": "/staging", "controller": %q, "nodes": [%s]}`,
		set.controller, strings.Join(nodes, ",")))
}

// files are those of a peer of this name.
func (set *set) files(uri string) secure.Files {
	set.Helper()
	if _, isThere := set.certificate[uri]; !isThere {
		set.certificate[uri] = set.authority.Issue(set, set.TempDir(), time.Now().Add(time.Hour), uri)
	}
	return set.certificate[uri]
}

// process writes the file of a process with this certificate.
func (set *set) process(name, uri, more string) string {
	files := set.files(uri)
	return set.write(name, fmt.Sprintf(`{"set": "set.json", "certificate": %q, "key": %q, "authorities": %q, %s}`,
		files.Certificate, files.Key, files.Authorities, more))
}

// start runs a plugin's program until the test ends, or what it gives is called, which gives what it ended by.
func (set *set) start(role secure.Role, file string) func() error {
	ctx, stop := context.WithCancel(context.Background())
	ended := make(chan error, 1)
	go func() { ended <- RunPlugin(ctx, "tufayon-"+string(role), role, []string{file}, os.Stdout) }()
	once := func() error {
		stop()
		err := <-ended
		ended <- err
		return err
	}
	set.Cleanup(func() { once() })
	return once
}

// peers are those whom a peer of this name knows.
func (set *set) peers(uri string) carrying.Peers {
	set.Helper()
	peers := carrying.Peers{Set: "s1", May: IsOwn, Refused: func(string) secure.Refused { return nil }}
	if uri != "" {
		files := set.files(uri)
		peers.Files = &files
	}
	return peers
}

// dial connects to a plugin's address as a peer of this name.
func (set *set) dial(uri, address, plugin string) *grpc.ClientConn {
	set.Helper()
	connection, err := set.peers(uri).Dial(plugin, address, func() uint64 { return 1 })
	if err != nil {
		set.Fatal(err)
	}
	set.Cleanup(func() { connection.Close() })
	return connection
}

func numbered(ctx context.Context, number string) context.Context {
	return metadata.AppendToOutgoingContext(ctx, numbers.Key, number)
}

var how = &wire.VolumeCapability{
	AccessType: &wire.VolumeCapability_Block{Block: &wire.VolumeCapability_BlockVolume{}},
	AccessMode: &wire.VolumeCapability_AccessMode{Mode: wire.VolumeCapability_AccessMode_SINGLE_NODE_WRITER},
}

const orchestrator = "tufayon://s1/orchestrator"

// A node over TCP: the set's orchestrator calls it, and nobody else does; its replies are marked; its own socket tells of health and Identity alone.
func TestNode(t *testing.T) {
	ctx, cancel := context.WithTimeout(context.Background(), within)
	defer cancel()
	set := newSet(t)
	address := port(t)
	set.nodes = []string{"n1 " + address}
	set.list()
	local := "unix://" + set.path("local.sock")
	set.start(secure.Node, set.process("n1.json", "tufayon://s1/node/n1",
		fmt.Sprintf(`"node": "n1", "store": "n1.db", "hooks": "none", "local": %q`, local)))
	carrier := carrying.New(carrying.Limits{AtController: 1, AtNode: 1, Answer: within, Reach: within}, "/staging", set.peers(orchestrator).Dial)
	defer carrier.Close()
	if err := carrier.Set(map[string]string{carrying.NodeName("n1"): address}); err != nil {
		t.Fatal(err)
	}
	call := frames.Call{Number: frames.Number{Session: 1, Call: 1}, Node: "n1", Body: frames.NodeStageVolume{ID: 1, Capability: frames.Capability{Mode: 1}}}
	if _, err := carrier.Carry(ctx, call, time.Time{}); !errors.Is(err, carrying.ErrRefused) || !strings.Contains(err.Error(), "session not begun") {
		t.Errorf("staged before the session has begun: %v", err)
	}
	if err := carrier.Begin(ctx, carrying.NodeName("n1"), numbers.Opening{Session: 1}); err != nil {
		t.Fatal(err)
	}
	if reply, err := carrier.Carry(ctx, call, time.Time{}); err != nil || reply.Status != 0 {
		t.Fatalf("staged: %+v, %v", reply, err)
	}
	for _, uri := range []string{"tufayon://s2/orchestrator", "tufayon://s1/controller", "tufayon://s1/node/n1", "tufayon://s1/client/ann"} {
		soon, cancel := context.WithTimeout(ctx, 300*time.Millisecond)
		_, err := wire.NewNodeClient(set.dial(uri, address, carrying.NodeName("n1"))).NodeGetInfo(soon, &wire.NodeGetInfoRequest{}, grpc.WaitForReady(true))
		cancel()
		if err == nil {
			t.Errorf("%s is answered", uri)
		}
	}
	at := set.dial("", local, carrying.NodeName("n1"))
	probed, err := wire.NewIdentityClient(at).Probe(ctx, &wire.ProbeRequest{}, grpc.WaitForReady(true))
	if err != nil || !probed.GetReady().GetValue() {
		t.Errorf("at its own socket, Probe: %v, %v", probed, err)
	}
	if told, err := grpc_health_v1.NewHealthClient(at).Check(ctx, &grpc_health_v1.HealthCheckRequest{}); err != nil || told.Status != 1 {
		t.Errorf("at its own socket, health: %v, %v", told, err)
	}
	_, err = wire.NewNodeClient(at).NodeUnstageVolume(numbered(ctx, "1.2"), &wire.NodeUnstageVolumeRequest{VolumeId: "1", StagingTargetPath: "/staging/1"})
	if status.Code(err) != codes.Unimplemented {
		t.Errorf("at its own socket, a numbered call: %v", err)
	}
}

// A controller over TCP, whose list of nodes changes by SIGHUP, while its store and its port stay.
func TestController(t *testing.T) {
	ctx, cancel := context.WithTimeout(context.Background(), 2*within)
	defer cancel()
	set := newSet(t)
	set.nodes = []string{"n1 127.0.0.1:1"}
	set.list()
	said := set.hears()
	end := set.start(secure.Controller, set.process("c.json", "tufayon://s1/controller", `"store": "c.db", "name": "storage.example"`))
	at := set.dial(orchestrator, set.controller, carrying.Controller)
	if _, err := told.NewPluginClient(at).Begin(ctx, &told.BeginRequest{Session: 1}, grpc.WaitForReady(true)); err != nil {
		t.Fatal(err)
	}
	client := wire.NewControllerClient(at)
	var trailer metadata.MD
	made, err := client.CreateVolume(numbered(ctx, "1.1"), &wire.CreateVolumeRequest{Name: "v", VolumeCapabilities: []*wire.VolumeCapability{how},
		CapacityRange: &wire.CapacityRange{RequiredBytes: 10}}, grpc.WaitForReady(true), grpc.Trailer(&trailer))
	if err != nil || made.GetVolume().GetVolumeId() != "1" || fmt.Sprint(trailer.Get(numbers.ReplyKey)) != "[1.1]" {
		t.Fatalf("created: %v, %v, %v", made, err, trailer)
	}
	attach := func(number string) error {
		request := &wire.ControllerPublishVolumeRequest{VolumeId: "1", NodeId: "n2", VolumeCapability: how}
		_, err := client.ControllerPublishVolume(numbered(ctx, number), request, grpc.WaitForReady(true))
		return err
	}
	if err := attach("1.2"); status.Code(err) != codes.NotFound {
		t.Errorf("a node that isn't listed: %v", err)
	}
	set.nodes = append(set.nodes, "n2 127.0.0.1:2")
	set.list()
	for count := 3; ; count++ {
		syscall.Kill(os.Getpid(), syscall.SIGHUP)
		if err = attach(fmt.Sprintf("1.%d", count)); err == nil || ctx.Err() != nil {
			break
		}
		time.Sleep(10 * time.Millisecond)
	}
	if err != nil {
		t.Errorf("a node that is listed now: %v", err)
	}
	// A list that leaves out a node where a volume is attached is refused, and the one of before counts.
	set.nodes = set.nodes[:1]
	set.list()
	syscall.Kill(os.Getpid(), syscall.SIGHUP)
	for !strings.Contains(said(), `set.json: nodes: node in use: n2`) && ctx.Err() == nil {
		time.Sleep(10 * time.Millisecond)
	}
	detach := func(number string) {
		t.Helper()
		if _, err := client.ControllerUnpublishVolume(numbered(ctx, number), &wire.ControllerUnpublishVolumeRequest{VolumeId: "1", NodeId: "n2"}); err != nil {
			t.Error(err)
		}
	}
	detach("1.100000")
	if err := attach("1.100001"); err != nil {
		t.Errorf("a node that is in use, and left out: %v: %s", err, said())
	}
	detach("1.100002")
	for count := 3; status.Code(err) != codes.NotFound && ctx.Err() == nil; count++ {
		syscall.Kill(os.Getpid(), syscall.SIGHUP)
		time.Sleep(10 * time.Millisecond)
		if err = attach(fmt.Sprintf("1.%d", 100000+2*count)); err == nil {
			detach(fmt.Sprintf("1.%d", 100001+2*count))
		}
	}
	if status.Code(err) != codes.NotFound {
		t.Errorf("a node that isn't in use, and left out: %v: %s", err, said())
	}
	if err := end(); err != nil {
		t.Errorf("it ended by %v", err)
	}
}

// hears has what is logged from now on go to a file, until the test ends, and gives what gives that.
func (set *set) hears() func() string {
	set.Helper()
	file, before := set.write("log", ""), os.Stderr
	log, err := os.OpenFile(file, os.O_WRONLY|os.O_APPEND, 0)
	if err != nil {
		set.Fatal(err)
	}
	os.Stderr = log
	set.Cleanup(func() { os.Stderr = before; log.Close() })
	return func() string {
		text, err := os.ReadFile(file)
		if err != nil {
			set.Fatal(err)
		}
		return string(text)
	}
}

// A controller and a node before another driver, as their files say.
func TestUpstream(t *testing.T) {
	ctx, cancel := context.WithTimeout(context.Background(), 2*within)
	defer cancel()
	set := newSet(t)
	said := set.hears()
	set.nodes = []string{"n1 127.0.0.1:1"}
	set.list()
	upstreamtest.Start(t, set.path("u.sock")).Has("old", "old")
	behind := fmt.Sprintf(`"upstream": "unix://%s", "numbers": "arrival"`, set.path("u.sock"))
	set.start(secure.Controller, set.process("c.json", "tufayon://s1/controller",
		fmt.Sprintf(`"store": "c.db", "listen": "unix://%s", "adopt": true, "watch": "unix://%s", %s`, set.path("c.sock"), set.path("w.sock"), behind)))
	set.start(secure.Node, set.process("n1.json", "tufayon://s1/node/n1",
		fmt.Sprintf(`"store": "n1.db", "node": "n1", "listen": "unix://%s", %s`, set.path("n1.sock"), behind)))
	controller, node := upstreamtest.Dial(t, set.path("c.sock")), upstreamtest.Dial(t, set.path("n1.sock"))
	attach := &wire.ControllerPublishVolumeRequest{VolumeId: "old", NodeId: "a node of the platform's", VolumeCapability: how}
	if _, _, err := upstreamtest.Call(ctx, controller, "/csi.v1.Controller/ControllerPublishVolume", attach, "1", grpc.WaitForReady(true)); err != nil {
		t.Errorf("attached: %v", err)
	}
	attach.NodeId = "n2"
	_, _, err := upstreamtest.Call(ctx, controller, "/csi.v1.Controller/ControllerPublishVolume", attach, "2")
	if told := status.Convert(err); told.Code() != codes.FailedPrecondition || told.Message() != "a node of the platform's" {
		t.Errorf("attached twice: %v", err)
	}
	watched := set.scraped("w.sock") // n2 is named, and nothing is attached there
	for _, it := range []string{
		`tufayon_driver_nodes{plugin="controller"} 2`, `tufayon_driver_nodes_limit{plugin="controller"} 64`, `tufayon_driver_rows{plugin="controller"} 1`,
		`tufayon_driver_calls_total{kind="ControllerPublishVolume",plugin="controller",status="FailedPrecondition"} 1`,
		`tufayon_driver_deeds_total{kind="ControllerPublishVolume",outcome="done",plugin="controller"} 1`,
	} {
		if !strings.Contains(watched, it) {
			t.Errorf("who watches isn't told %s: %s", it, watched)
		}
	}
	stage := &wire.NodeStageVolumeRequest{VolumeId: "old", StagingTargetPath: "/s", VolumeCapability: how}
	if _, _, err := upstreamtest.Call(ctx, node, "/csi.v1.Node/NodeStageVolume", stage, "3", grpc.WaitForReady(true)); err != nil {
		t.Errorf("staged: %v", err)
	}
	detach := &wire.ControllerUnpublishVolumeRequest{VolumeId: "old", NodeId: "a node of the platform's"}
	if _, _, err := upstreamtest.Call(ctx, controller, "/csi.v1.Controller/ControllerUnpublishVolume", detach, "4"); err != nil {
		t.Errorf("detached: %v", err)
	}
	if watched := set.scraped("w.sock"); !strings.Contains(watched, `tufayon_driver_nodes{plugin="controller"} 1`) {
		t.Errorf("who watches isn't told that nothing is attached: %s", watched)
	}
	logged := regexp.MustCompile(`"plugin":"controller","kind":"ControllerPublishVolume","volume":"old","number":"\d+\.\d+","status":"FailedPrecondition","detail":"a node of the platform's","took":`)
	for !logged.MatchString(said()) && ctx.Err() == nil { // lines wait for a moment
		time.Sleep(10 * time.Millisecond)
	}
	if !logged.MatchString(said()) {
		t.Errorf("the log has no %v: %s", logged, said())
	}
}

// scraped is what is told at a Unix socket to who watches.
func (set *set) scraped(name string) string {
	set.Helper()
	client := &http.Client{Transport: &http.Transport{DisableKeepAlives: true, DialContext: func(ctx context.Context, _, _ string) (net.Conn, error) {
		return (&net.Dialer{}).DialContext(ctx, "unix", set.path(name))
	}}}
	answer, err := client.Get("http://localhost/metrics")
	if err != nil {
		set.Fatal(err)
	}
	defer answer.Body.Close()
	text, err := io.ReadAll(answer.Body)
	if err != nil {
		set.Fatal(err)
	}
	return string(text)
}

// What its words and files say, and the statuses by which it ends.
func TestWords(t *testing.T) {
	set := newSet(t)
	set.nodes = []string{"n1 " + port(t), "n2 " + port(t)}
	set.list()
	n1 := set.process("n1.json", "tufayon://s1/node/n1", `"node": "n1", "store": "n1.db"`)
	unknown := set.process("n4.json", "tufayon://s1/node/n1", `"node": "n1", "store": "n4.db", "hooks": "none", "listen": "m..4:7003"`)
	for _, it := range []struct {
		words  []string
		status int
		says   string
	}{
		{nil, 2, "usage: tufayon-node [--check] FILE"}, {[]string{"--config", n1}, 2, "usage"}, {[]string{n1, n1}, 2, "usage"},
		{[]string{"--check", n1}, 0, "the certificate of tufayon://s1/node/n1 is valid until"},
		{[]string{set.path("missing")}, 1, "no such file"},
		{[]string{set.process("other.json", "tufayon://s1/node/n2", `"node": "n1", "store": "n1.db"`)}, 1,
			"other.json: certificate: " + set.files("tufayon://s1/node/n2").Certificate + ": the peer is somebody else: tufayon://s1/node/n2, not tufayon://s1/node/n1"},
		{[]string{set.process("n3.json", "tufayon://s1/node/n1", `"node": "n3", "store": "n1.db"`)}, 1, `n3.json: node: "n3" isn't listed in`},
		{[]string{"--check", unknown}, 1, unknown + ": listen: "},
		{[]string{unknown}, 3, "listen tcp: "}, // which passes, as systemd's unit has it
	} {
		var output bytes.Buffer
		err := RunPlugin(context.Background(), "tufayon-node", secure.Node, it.words, &output)
		if got := StatusOf(err); got != it.status || !strings.Contains(output.String()+fmt.Sprint(err), it.says) {
			t.Errorf("%v: %d, %v, %s", it.words, got, err, output.String())
		}
	}
	set.write("n1.db", "this is no database of SQLite, and long enough to be read as one")
	if err := RunPlugin(context.Background(), "tufayon-node", secure.Node, []string{n1}, os.Stdout); StatusOf(err) != 3 {
		t.Errorf("another file as store: %v", err)
	}
}
