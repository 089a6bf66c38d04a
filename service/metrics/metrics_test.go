package metrics

import (
	"context"
	"errors"
	"io"
	"net/http"
	"net/http/httptest"
	"os/exec"
	"strings"
	"testing"
	"time"

	"go.uber.org/zap"
	"google.golang.org/grpc"
	"google.golang.org/grpc/codes"
	"google.golang.org/grpc/status"

	"tufayon/service/carrying"
	"tufayon/service/frames"
	"tufayon/service/host"
	"tufayon/service/host/hosttest"
	"tufayon/service/serving"
)

var (
	ctx   = context.Background()
	block = frames.Capability{Mode: 1}
)

// scraped is what a scrape gets.
func scraped(t *testing.T, handler http.Handler) string {
	t.Helper()
	to := httptest.NewRecorder()
	handler.ServeHTTP(to, httptest.NewRequest(http.MethodGet, "/metrics", nil))
	text, err := io.ReadAll(to.Result().Body)
	if err != nil || to.Code != http.StatusOK {
		t.Fatalf("%d, %v", to.Code, err)
	}
	return string(text)
}

// wants wants these lines in a scrape, and that Prometheus's own tool finds nothing in it.
func wants(t *testing.T, text string, lines ...string) {
	t.Helper()
	for _, line := range lines {
		if !strings.Contains("\n"+text, "\n"+line+"\n") {
			t.Errorf("it has no %s", line)
		}
	}
	if t.Failed() {
		t.Log(text)
	}
	program, err := exec.LookPath("promtool")
	if err != nil {
		t.Skip("left out, since there is no promtool: prometheus")
	}
	command := exec.Command(program, "check", "metrics")
	command.Stdin = strings.NewReader(text)
	if said, err := command.CombinedOutput(); err != nil || len(said) > 0 {
		t.Errorf("promtool check metrics: %v\n%s", err, said)
	}
}

// What is counted of a service at work.
func TestOrchestrator(t *testing.T) {
	made := NewOrchestrator()
	answers := make(chan frames.Reply, 1)
	carrier := &hosttest.Carrier{Answer: func(_ context.Context, call frames.Call, _ time.Time) (frames.Reply, error, bool) {
		if call.Kind() != frames.NodeStageVolumeKind {
			return frames.Reply{}, nil, false
		}
		select {
		case reply := <-answers:
			reply.Number, reply.Node, reply.Kind = call.Number, call.Node, call.Kind()
			return reply, nil, true
		default:
			return frames.Reply{}, errors.New("nobody is there"), true
		}
	}}
	leads, err := host.Open(ctx, host.Options{
		Store: hosttest.NewStore(), Nodes: []string{"n1", "n2"}, Carrier: carrier, Log: zap.NewNop(), Observers: []host.Observer{made},
		Times: host.Times{Patience: 20 * time.Millisecond, Retry: time.Millisecond, MostRetry: time.Millisecond},
	})
	if err != nil {
		t.Fatal(err)
	}
	defer leads.Close()
	made.Watch(Source{
		Set: "s1", Host: func() *host.Host { return leads }, Lease: 5 * time.Second, Streams: func() int { return 2 }, History: func() (int, uint64) { return 7, 0 },
		Plugins: func() map[string]carrying.State {
			return map[string]carrying.State{"controller": {Connection: "READY", UnderWay: 3}, "node:n1": {Connection: "TRANSIENT_FAILURE", Queued: 4}}
		},
		Slots:   func() map[string]uint64 { return map[string]uint64{"n1": 8} },
		Ends:    func() map[string]time.Time { return map[string]time.Time{"c.pem": time.Unix(1000, 0)} },
		Servers: func() map[string]time.Time { return map[string]time.Time{"192.0.2.1:2379": time.Unix(2000, 0)} },
		Clients: func() map[string]time.Time { return map[string]time.Time{"admin": time.Unix(3000, 0)} },
	})
	does := func(command host.Command, want error) {
		t.Helper()
		command.AtRest = true
		if _, err := leads.Do(ctx, command); err != want {
			t.Errorf("%+v: %v, not %v", command, err, want)
		}
	}
	does(host.Command{Kind: host.Create, Name: "v", Capabilities: []frames.Capability{block}}, nil)
	does(host.Command{Kind: host.Create, Name: "v", Capabilities: []frames.Capability{block}}, host.Refusal(1))
	answers <- frames.Reply{Status: uint8(codes.FailedPrecondition), Detail: "held otherwise"}
	use := host.Command{Kind: host.Use, Name: "v", Node: "n1", Target: "/a", Capability: block}
	does(use, nil) // refused, and undone
	does(use, nil) // without a reply three times, and undone
	does(host.Command{Kind: host.Delete, Name: "v"}, nil)
	if _, err := leads.Begin(ctx, nil, "a test"); err != nil {
		t.Fatal(err)
	}
	does(host.Command{Kind: host.Create, Name: "w", Capabilities: []frames.Capability{block}}, nil)
	made.Called(frames.Call{Node: "n2", Body: frames.NodeUnstageVolume{}}, frames.Reply{Status: uint8(codes.Aborted), Detail: "stale"}, nil, time.Second)
	for end := time.Now().Add(10 * time.Second); time.Now().Before(end) && !strings.Contains(scraped(t, made.Handler()), `kind="create",outcome="sent"} 2`); {
		time.Sleep(time.Millisecond) // it is told once callers are answered
	}
	wants(t, scraped(t, made.Handler()),
		`tufayon_build_info{program="tufayon-orchestrator",version="1.0.0"} 1`,
		`tufayon_leader{set="s1"} 1`, `tufayon_session 2`, `tufayon_lease_seconds 5`,
		`tufayon_commands_total{kind="create",outcome="sent"} 2`, `tufayon_commands_total{kind="create",outcome="NameUsed"} 1`,
		`tufayon_calls_total{kind="CreateVolume",plugin="controller",status="OK"} 2`,
		`tufayon_calls_total{kind="NodeStageVolume",plugin="node:n1",status="FailedPrecondition"} 1`,
		`tufayon_calls_total{kind="NodeStageVolume",plugin="node:n1",status="none"} 3`,
		`tufayon_call_seconds_count{kind="NodeStageVolume",plugin="node:n1"} 4`,
		`tufayon_unanswered_calls_total{kind="NodeStageVolume",plugin="node:n1"} 3`, `tufayon_retried_calls_total{kind="NodeStageVolume"} 2`,
		`tufayon_stale_replies_total 1`, `tufayon_freed_names_total 1`, `tufayon_sessions_total{why="a test"} 1`, `tufayon_sessions_since_name_freed 0`,
		`tufayon_volumes{state="existing"} 1`, `tufayon_names 1`, `tufayon_names_limit 4096`, `tufayon_wanted_volumes{goal="use"} 0`,
		`tufayon_wanted_oldest_seconds 0`, `tufayon_plugin_connected{plugin="controller"} 1`, `tufayon_plugin_connected{plugin="node:n1"} 0`,
		`tufayon_plugin_calls_under_way{plugin="controller"} 3`, `tufayon_plugin_calls_queued{plugin="node:n1"} 4`,
		`tufayon_node_slots{node="n1"} 8`, `tufayon_node_slots_used{node="n1"} 0`, `tufayon_streams_open{of="page"} 2`, `tufayon_streams_open{of="api"} 0`,
		`tufayon_certificate_expiry_timestamp_seconds{file="c.pem"} 1000`, `tufayon_etcd_certificate_expiry_timestamp_seconds{server="192.0.2.1:2379"} 2000`,
		`tufayon_client_certificate_expiry_timestamp_seconds{client="admin"} 3000`, `tufayon_history_events 7`, `tufayon_commit_failures_total 0`,
	)
}

// What is there while nobody leads.
func TestWaits(t *testing.T) {
	made := NewOrchestrator()
	made.Watch(Source{
		Set: "s1", Host: func() *host.Host { return nil }, Streams: func() int { return 0 }, History: func() (int, uint64) { return 0, 0 },
		Plugins: func() map[string]carrying.State { return nil }, Slots: func() map[string]uint64 { return nil }, Ends: func() map[string]time.Time { return nil },
	})
	text := scraped(t, made.Handler())
	if strings.Contains(text, "tufayon_session ") {
		t.Error("it tells a session")
	}
	wants(t, text, `tufayon_leader{set="s1"} 0`)
}

// What is counted of a driver.
func TestDriver(t *testing.T) {
	made := NewDriver("csi-driver", "node:n1")
	call := func(kind string, err error) {
		made.Intercept(ctx, nil, &grpc.UnaryServerInfo{FullMethod: "/csi.v1.Node/" + kind}, func(context.Context, any) (any, error) { return nil, err })
	}
	call("NodeStageVolume", nil)
	call("NodeStageVolume", status.Error(codes.Aborted, "stale"))
	call("NodeUnstageVolume", status.Error(codes.FailedPrecondition, "number"))
	call("Begin", serving.ErrLater)
	call("Begin", status.Error(codes.Unavailable, "not ready"))
	made.Acted(frames.NodeStageVolumeKind, time.Second, nil)
	made.Acted(frames.NodeStageVolumeKind, time.Second, errors.New("it fails"))
	made.Repeated(frames.NodeStageVolumeKind)
	made.Committed(time.Millisecond, nil)
	made.Committed(time.Millisecond, errors.New("it fails"))
	wants(t, scraped(t, made.Handler()),
		`tufayon_build_info{program="csi-driver",version="1.0.0"} 1`, `tufayon_driver_ready{plugin="node:n1"} 0`,
		`tufayon_driver_calls_total{kind="NodeStageVolume",plugin="node:n1",status="OK"} 1`,
		`tufayon_driver_calls_total{kind="NodeStageVolume",plugin="node:n1",status="Aborted"} 1`,
		`tufayon_driver_stale_calls_total{kind="NodeStageVolume",plugin="node:n1"} 1`,
		`tufayon_driver_refused_sessions_total{heard="later",plugin="node:n1"} 1`, `tufayon_driver_refused_sessions_total{heard="earlier",plugin="node:n1"} 0`,
		`tufayon_driver_repeated_calls_total{kind="NodeStageVolume",plugin="node:n1"} 1`,
		`tufayon_driver_deeds_total{kind="NodeStageVolume",outcome="failed",plugin="node:n1"} 1`,
		`tufayon_driver_deed_seconds_count{kind="NodeStageVolume",plugin="node:n1"} 2`,
		`tufayon_driver_commit_seconds_count{plugin="node:n1"} 1`, `tufayon_driver_commit_failures_total{plugin="node:n1"} 1`,
	)
	made.Serves(&serving.Core{})
	for _, isAmiss := range []bool{false, true, false} {
		if made.Amiss(isAmiss); made.Ready() == isAmiss {
			t.Errorf("something isn't mounted, %v, and it is ready", isAmiss)
		}
	}
}

// A node's id that isn't UTF-8, which is refused later, and such a path of a certificate end nothing.
func TestLabels(t *testing.T) {
	made := NewDriver("csi-driver", "node:\xff")
	made.Ends = func() map[string]time.Time { return map[string]time.Time{"/\xfe/c.pem": time.Unix(1000, 0)} }
	wants(t, scraped(t, made.Handler()), "tufayon_driver_ready{plugin=\"node:\ufffd\"} 0",
		"tufayon_driver_certificate_expiry_timestamp_seconds{file=\"/\ufffd/c.pem\",plugin=\"node:\ufffd\"} 1000")
}
