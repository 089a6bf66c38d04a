package history

import (
	"context"
	"errors"
	"os"
	"path/filepath"
	"strings"
	"testing"
	"time"

	"go.uber.org/zap"

	"tufayon/service/frames"
	"tufayon/service/host"
	"tufayon/service/host/hosttest"
	"tufayon/service/replaying"
)

var (
	ctx      = context.Background()
	block    = frames.Capability{Mode: 1}
	anywhere = frames.Capability{Mode: 5, Mount: true, FsType: "ext4"}
	errGone  = errors.New("nobody is there")
)

const within = 10 * time.Second

// config is a CONFIG of these nodes.
func configText(nodes ...string) []byte {
	it := config{Greatest: 1 << 40}
	for _, node := range nodes {
		it.Nodes = append(it.Nodes, slot{node, 64})
	}
	return encode(it)
}

// A run is a service with a history, whose plugins answer in the same process, or don't.
type run struct {
	*testing.T
	kept    *hosttest.Store
	carrier *hosttest.Carrier
	history *History
	host    *host.Host
	file    string
	most    int
}

func newRun(t *testing.T, most int, nodes ...string) *run {
	made := &run{T: t, kept: hosttest.NewStore(), carrier: &hosttest.Carrier{}, file: filepath.Join(t.TempDir(), "history"), most: most}
	made.start(nodes...)
	t.Cleanup(func() { made.stop() })
	return made
}

func (made *run) start(nodes ...string) {
	made.Helper()
	var err error
	if made.history, err = Open(made.file, made.most, zap.NewNop()); err != nil {
		made.Fatal(err)
	}
	made.history.Configure(configText(nodes...))
	made.host, err = host.Open(ctx, host.Options{
		Store: made.kept, Nodes: nodes, Carrier: made.carrier, Log: zap.NewNop(), Observers: []host.Observer{made.history},
		Times: host.Times{Patience: 30 * time.Millisecond, Retry: time.Millisecond, MostRetry: 4 * time.Millisecond},
	})
	if err != nil {
		made.Fatal(err)
	}
}

// stop ends the service. Only then the history has all.
func (made *run) stop() {
	if made.host == nil {
		return
	}
	made.host.Close()
	made.history.Close()
	made.host = nil
}

func (made *run) does(command host.Command) error {
	command.AtRest = true
	limited, cancel := context.WithTimeout(ctx, within)
	defer cancel()
	_, err := made.host.Do(limited, command)
	return err
}

func (made *run) must(command host.Command) {
	made.Helper()
	if err := made.does(command); err != nil {
		made.Fatalf("%+v: %v", command, err)
	}
}

func create(name string) host.Command {
	return host.Command{Kind: host.Create, Name: name, Required: 10, Capabilities: []frames.Capability{block, anywhere}}
}

func use(name, node, target string) host.Command {
	return host.Command{Kind: host.Use, Name: name, Node: node, Target: target, Capability: block}
}

func stop(name, node, target string) host.Command {
	return host.Command{Kind: host.Stop, Name: name, Node: node, Target: target}
}

// program is csi-replay.
func program(t *testing.T) string {
	t.Helper()
	path := os.Getenv("TUFAYON_TEST_PROGRAM")
	if path == "" {
		t.Skip("left out, since there is no csi-replay: TUFAYON_TEST_PROGRAM")
	}
	return path
}

// replays wants that a run of a schedule comes to what happened.
func (made *run) replays(schedule *replaying.Schedule, program, what string) {
	made.Helper()
	at, why, err := schedule.Check(ctx, program)
	if err != nil || at > 0 {
		made.Errorf("%s: event %d: %s, %v\n%s", what, at, why, err, schedule.JSON())
	}
}

// A volume's life as a schedule, by hand: numbers of frames are in the order of their sending, and each call is delivered before its reply.
func TestLife(t *testing.T) {
	made := newRun(t, Usual, "n1", "n2")
	made.must(create("v"))
	made.must(use("v", "n1", "/a"))
	if err := made.does(use("v", "n2", "/a")); err != error(host.Refusal(7)) {
		t.Errorf("a second use: %v", err)
	}
	made.must(stop("v", "n1", "/a"))
	made.stop()
	schedule := made.history.Schedule("v", 0)
	const want = `{"config":{"greatest":1099511627776,"nodes":[{"id":"n1","slots":64},{"id":"n2","slots":64}]},
 "events":[
  {"create":{"capabilities":[{"access":"block","mode":1},{"access":"mount","fs":"ext4","mode":5}],"limit":0,"name":"v","required":10}},
  {"deliver":1},
  {"deliver":2},
  {"use":{"capability":{"access":"block","mode":1},"name":"v","node":"n1","readonly":false,"target":"/a"}},
  {"deliver":3},
  {"deliver":4},
  {"deliver":5},
  {"deliver":6},
  {"deliver":7},
  {"deliver":8},
  {"use":{"capability":{"access":"block","mode":1},"name":"v","node":"n2","readonly":false,"target":"/a"}},
  {"stop":{"name":"v","node":"n1","target":"/a"}},
  {"deliver":9},
  {"deliver":10},
  {"deliver":11},
  {"deliver":12},
  {"deliver":13},
  {"deliver":14}
]}
`
	if text := string(schedule.JSON()); text != want {
		t.Errorf("it is %s", text)
	}
	outcomes := strings.Join(schedule.Outcomes, "; ")
	if outcomes != "sent 1; answered 2; taken; sent 3; answered 4; taken, sent 5; answered 6; taken, sent 7; answered 8; taken; refused 7 HeldElsewhere; "+
		"sent 9; answered 10; taken, sent 11; answered 12; taken, sent 13; answered 14; taken" {
		t.Errorf("it came to %s", outcomes)
	}
	last, count, _ := made.history.Last("v", 2, 0)
	if len(last) != 2 || count != 12 || last[1].Text() != "ControllerUnpublishVolume 1.7 to controller: OK, at rest" {
		t.Errorf("the last ones: %d, %v", count, last)
	}
	made.replays(schedule, program(t), "v")
}

// What was before the first event that is kept is brought about first; a restart goes on with the file; and what is missing is found.
func TestCut(t *testing.T) {
	path := program(t)
	made := newRun(t, 12, "n1", "n2")
	for _, name := range []string{"v", "w", "x"} {
		made.must(create(name))
		made.must(use(name, "n1", "/"+name))
	}
	made.must(stop("w", "n1", "/w"))
	made.must(host.Command{Kind: host.Delete, Name: "w"})
	more := use("x", "n2", "/b")
	more.Capability = anywhere
	made.must(stop("x", "n1", "/x"))
	made.must(more)
	more.Target = "/c"
	made.must(more)
	made.stop()
	if kept, _ := made.history.Count(); kept != 12 {
		t.Errorf("%d events are kept", kept)
	}
	for _, name := range []string{"", "v", "w", "x"} {
		made.replays(made.history.Schedule(name, 0), path, "before: "+name)
	}
	made.start("n1", "n2", "n3")
	more.Target = "/d"
	made.must(more)
	made.must(create("w"))
	made.must(use("w", "n3", "/w"))
	made.stop()
	for _, name := range []string{"", "v", "w", "x"} {
		made.replays(made.history.Schedule(name, 0), path, "after a restart: "+name)
	}
	made.saysAll("after a restart", true)
	other := &run{T: t, kept: made.kept, carrier: made.carrier, file: filepath.Join(t.TempDir(), "other"), most: 100}
	other.start("n1", "n2", "n3") // a leader with another file
	other.must(stop("x", "n2", "/c"))
	other.stop()
	other.replays(other.history.Schedule("", 0), path, "a history that begins late")
	other.saysAll("a history that begins late", false)
	made.start("n1", "n2", "n3")
	made.must(stop("x", "n2", "/b"))
	made.stop()
	made.saysAll("what is missing", false)
	for _, name := range []string{"", "v", "w", "x"} {
		made.replays(made.history.Schedule(name, 0), path, "what is missing: "+name)
	}
	cut := 0
	last, _, _ := made.history.Last("x", 100, 0)
	for _, entry := range last {
		cut += countIf(entry.IsCut)
	}
	if cut == 0 || last[len(last)-1].IsCut {
		t.Errorf("%d of %d are left out", cut, len(last))
	}
}

// saysAll wants that the last session that began says that all before is there, or that it isn't.
func (made *run) saysAll(what string, isAll bool) {
	made.Helper()
	said := ""
	last, _, _ := made.history.Last("", Usual, 0)
	for _, entry := range last {
		if entry.What == session {
			said = entry.Text()
		}
	}
	if said == "" || strings.Contains(said, "isn't all here") == isAll {
		made.Errorf("%s: %q", what, said)
	}
}

// Slots that other volumes take are told by the controller's configuration.
func TestSlots(t *testing.T) {
	made := newRun(t, Usual, "n1")
	isFull := true
	made.carrier.Answer = func(_ context.Context, call frames.Call, _ time.Time) (frames.Reply, error, bool) {
		if call.Kind() == frames.ControllerPublishVolumeKind && isFull {
			isFull = false
			return hosttest.Refused(call, 8, "slots"), nil, true
		}
		return frames.Reply{}, nil, false
	}
	made.must(create("v"))
	made.does(use("v", "n1", "/a"))
	made.must(use("v", "n1", "/a"))
	made.stop()
	made.replays(made.history.Schedule("v", 0), program(t), "v")
}

// A file of something else is refused and stays; a line that wasn't finished is left out; and a name with a newline is one line.
func TestFile(t *testing.T) {
	path := filepath.Join(t.TempDir(), "other")
	os.WriteFile(path, []byte("{\"x\":1}\n"), 0o600)
	if _, err := Open(path, 10, zap.NewNop()); !errors.Is(err, errOther) {
		t.Errorf("another file: %v", err)
	}
	if content, _ := os.ReadFile(path); string(content) != "{\"x\":1}\n" {
		t.Errorf("it is %s now", content)
	}
	made := newRun(t, 10, "n1")
	made.must(create("a\nb"))
	made.stop()
	content, _ := os.ReadFile(made.file)
	if lines := strings.Split(string(content), "\n"); len(lines) != 5 { // the head, a session, a command, a reply, and the end
		t.Errorf("it is %s", content)
	}
	os.WriteFile(made.file, append(content, `{"time":1,"what":"rep`...), 0o600)
	again, err := Open(made.file, 10, zap.NewNop())
	if err != nil {
		t.Fatal(err)
	}
	if kept, _ := again.Count(); kept != 3 {
		t.Errorf("%d events are kept", kept)
	}
	again.Close()
	os.WriteFile(made.file, content[:20], 0o600) // as a machine that died left it
	if again, err = Open(made.file, 10, zap.NewNop()); err != nil {
		t.Fatal(err)
	}
	if kept, _ := again.Count(); kept != 0 {
		t.Errorf("%d events are kept of an unfinished line", kept)
	}
	again.Close()
}

// Another process that opens the file, and ends without an event, leaves it to the one that writes it.
func TestOpenedTwice(t *testing.T) {
	made := newRun(t, 10, "n1")
	made.must(create("v"))
	for turn := 0; turn < 2; turn++ {
		other, err := Open(made.file, 10, zap.NewNop())
		if err != nil {
			t.Fatal(err)
		}
		if err := other.Close(); err != nil {
			t.Error(err)
		}
	}
	made.must(create("w"))
	made.stop()
	again, err := Open(made.file, 10, zap.NewNop())
	if err != nil {
		t.Fatal(err)
	}
	defer again.Close()
	if kept, _ := again.Count(); kept != 5 { // a session, two commands and two replies
		t.Errorf("%d events are kept", kept)
	}
}

// Where the disk gets full the history goes on in memory, and once that has room the file has all again.
func TestFullDisk(t *testing.T) {
	path := filepath.Join(t.TempDir(), "history")
	made, err := Open(path, Usual, zap.NewNop())
	if err != nil {
		t.Fatal(err)
	}
	happens := func(name string) {
		made.keep([][]host.Happening{{{What: host.Commanded, Name: name, Command: host.Command{Kind: host.Delete, Name: name}, Refusal: 2}}})
	}
	happens("a")
	made.file.to.Close()
	if made.file.to, err = os.OpenFile("/dev/full", os.O_WRONLY, 0); err != nil {
		t.Fatal(err)
	}
	happens("b")
	happens("c")
	made.file.failed = time.Time{} // long ago
	happens("d")
	happens("e")
	if err := made.Close(); err != nil {
		t.Error(err)
	}
	read, err := Open(path, Usual, zap.NewNop())
	if err != nil {
		t.Fatal(err)
	}
	defer read.Close()
	var names string
	last, _, _ := read.Last("", Usual, 0)
	for _, entry := range last {
		names += entry.Name
	}
	if names != "abcde" {
		t.Errorf("the file has %s", names)
	}
}
