package main

import (
	"context"
	"encoding/json"
	"fmt"
	"io"
	"net"
	"net/http"
	"os"
	"strings"
	"syscall"
	"testing"
	"time"

	"google.golang.org/grpc/metadata"

	"tufayon/service/api/wire"
	"tufayon/service/carrying/carryingtest"
	"tufayon/service/tracing"
)

// got is what a page of the service says.
func got(t *testing.T, address, path string) (status int, text string) {
	t.Helper()
	answer, err := http.Get("http://" + address + path)
	if err != nil {
		t.Fatal(err)
	}
	defer answer.Body.Close()
	bytes, err := io.ReadAll(answer.Body)
	if err != nil {
		t.Fatal(err)
	}
	return answer.StatusCode, string(bytes)
}

// A service that is watched: its metrics, its page, and its history, which a restart goes on with; and a trace that goes through to the plugins.
func TestWatched(t *testing.T) {
	ctx, cancel := context.WithTimeout(context.Background(), 3*within)
	defer cancel()
	made := newFiles(t)
	traces := make(chan []string, 100)
	made.plugins["n1"] = (&carryingtest.Plugin{Node: "n1", Judge: func(ctx context.Context, _ string) (error, bool) {
		headers, _ := metadata.FromIncomingContext(ctx)
		traces <- headers.Get(tracing.Key)
		return nil, true
	}}).Serve(t, "unix://"+made.path("n1.sock"), nil)
	made.list("n1")
	listener, err := net.Listen("tcp", "127.0.0.1:0")
	if err != nil {
		t.Fatal(err)
	}
	address := listener.Addr().String()
	listener.Close()
	made.write(made.process, fmt.Sprintf(`{"set": "set.json", "store": "o.db", "listen": %q, "watch": %q, "log": "warn", "draws": %q}`,
		made.address, address, os.Getenv("TUFAYON_TEST_PROGRAM")))
	client, stop := made.start(true)
	const trace = "00-4bf92f3577b34da6a3ce929d0e0e4736-00f067aa0ba902b7-01"
	if _, err := client.Create(ctx, &wire.CreateRequest{Name: "v", Required: 10, Capabilities: []*wire.Capability{block}, Wait: wire.Wait_AT_REST}); err != nil {
		t.Fatal(err)
	}
	traced := metadata.AppendToOutgoingContext(ctx, tracing.Key, trace)
	use := &wire.UseRequest{Name: "v", Node: "n1", Target: "/a", Capability: block, Wait: wire.Wait_AT_REST}
	if volume, err := client.Use(traced, use); err != nil || !volume.Reached {
		t.Fatalf("used: %v, %v", volume, err)
	}
	for at := 0; at < 2; at++ {
		if its := <-traces; len(its) != 1 || its[0] != trace {
			t.Errorf("a call carries %v", its)
		}
	}
	time.Sleep(200 * time.Millisecond) // what is told comes behind the answers
	status, text := got(t, address, "/metrics")
	for _, it := range []string{`tufayon_leader{set="s1"} 1`, `tufayon_calls_total{kind="NodePublishVolume",plugin="node:n1",status="OK"} 1`, `tufayon_node_slots_used{node="n1"} 1`} {
		if status != 200 || !strings.Contains(text, it) {
			t.Errorf("metrics: %d, it has no %s: %s", status, it, text)
		}
	}
	made.list("n2") // n1 is in use, so all stays as it is, and is told so
	if err := syscall.Kill(os.Getpid(), syscall.SIGHUP); err != nil {
		t.Fatal(err)
	}
	time.Sleep(200 * time.Millisecond) // until the files were read
	if _, text := got(t, address, "/metrics"); !strings.Contains(text, `tufayon_node_slots{node="n1"} 8`) {
		t.Errorf("behind a list that was refused: %s", text)
	}
	made.list("n1")
	if status, text := got(t, address, "/"); status != 200 || !strings.Contains(text, "<title>Tufayon</title>") {
		t.Errorf("the page: %d %s", status, text)
	}
	if status, text := got(t, address, "/volume?name=v"); status != 200 || !strings.Contains(text, ".4 to node:n1: OK, at rest") {
		t.Errorf("the volume: %d %s", status, text)
	}
	if status, _ := got(t, address, "/readyz"); status != 200 {
		t.Errorf("ready: %d", status)
	}
	stop()
	client, stop = made.start(true)
	defer stop()
	answer, err := client.History(ctx, &wire.HistoryRequest{Name: "v", Schedule: true})
	if err != nil || len(answer.Events) != 8 || !strings.HasPrefix(answer.Events[1].Text, "create, sends CreateVolume ") || answer.Events[7].What != "session" {
		t.Errorf("the history: %v, %v", answer, err)
	}
	var schedule struct{ Events []map[string]any }
	if err := json.Unmarshal([]byte(answer.GetSchedule()), &schedule); err != nil || len(schedule.Events) != len(answer.Outcomes) || len(schedule.Events) != 10 {
		t.Errorf("the schedule: %s, %v", answer.GetSchedule(), err)
	}
	if os.Getenv("TUFAYON_TEST_PROGRAM") == "" {
		t.Skip("left out, since there is no csi-replay: TUFAYON_TEST_PROGRAM")
	}
	if status, text := got(t, address, "/picture?name=v"); status != 200 || !strings.HasPrefix(text, "<svg") || !strings.Contains(text, "NodePublishVolume") {
		t.Errorf("the picture: %d %.300s", status, text)
	}
	if status, _ := got(t, address, "/picture?name=w"); status != 404 {
		t.Errorf("a picture of nothing: %d", status)
	}
}
