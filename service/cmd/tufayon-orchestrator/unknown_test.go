package main

import (
	"bytes"
	"context"
	"fmt"
	"os"
	"strings"
	"syscall"
	"testing"
	"time"

	"go.uber.org/zap"
	"go.uber.org/zap/zapcore"
	"go.uber.org/zap/zaptest/observer"

	"tufayon/service/api/wire"
	"tufayon/service/program"
	"tufayon/service/secure/securetest"
	"tufayon/service/settings"
)

// A node's address that nobody knows ends nothing: it is told with its place, and all other volumes and nodes go on. It is a fault of --check, and where files
// are read anew all stays as it was.
func TestUnknownAddress(t *testing.T) {
	ctx, cancel := context.WithTimeout(context.Background(), 3*within)
	defer cancel()
	made := newFiles(t)
	files := securetest.NewAuthority(t).Issue(t, t.TempDir(), time.Now().Add(time.Hour), "tufayon://s1/orchestrator")
	made.write(made.process, fmt.Sprintf(`{"set": "set.json", "store": "o.db", "listen": %q, "certificate": %q, "key": %q, "authorities": %q}`,
		made.address, files.Certificate, files.Key, files.Authorities))
	made.serve("n1")
	list := func(others ...string) {
		made.list("n1")
		text, err := os.ReadFile(made.path("set.json"))
		if err != nil {
			t.Fatal(err)
		}
		made.write("set.json", strings.Replace(string(text), `"nodes": [`, `"nodes": [`+strings.Join(others, ""), 1))
	}
	list(`{"id": "n2", "slots": 8, "address": "m..2:7002"}, `)
	place := made.path("set.json") + ": nodes[0].address: "
	var output bytes.Buffer
	if err := run(ctx, []string{"--check", made.path(made.process)}, &output); program.StatusOf(err) != 1 || !strings.HasPrefix(fmt.Sprint(err), place) {
		t.Errorf("--check: %v, %s", err, output.String())
	}
	read, err := settings.Read(made.path(made.process))
	if err != nil {
		t.Fatal(err)
	}
	seen, told := observer.New(zapcore.WarnLevel)
	if tellUnknown(ctx, read, zap.New(seen)); told.Len() != 1 || !strings.HasPrefix(fmt.Sprint(told.All()[0].ContextMap()["fault"]), place) {
		t.Errorf("it is told %v", told.All())
	}
	client, stop := made.start(true)
	for _, name := range []string{"v", "w"} {
		request := &wire.CreateRequest{Name: name, Capabilities: []*wire.Capability{block}, Wait: wire.Wait_AT_REST}
		if volume, err := client.Create(ctx, request); err != nil || !volume.Reached {
			t.Fatalf("%v, %v", volume, err)
		}
	}
	if _, err := client.Use(ctx, &wire.UseRequest{Name: "w", Node: "n2", Target: "/a", Capability: block}); err != nil {
		t.Error(err)
	}
	list(`{"id": "n2", "slots": 8, "address": "m..2:7002"}, `, `{"id": "n3", "slots": 8, "address": "m..3:7002"}, `)
	if err := syscall.Kill(os.Getpid(), syscall.SIGHUP); err != nil {
		t.Fatal(err)
	}
	volume, err := client.Use(ctx, &wire.UseRequest{Name: "v", Node: "n1", Target: "/a", Capability: block, Wait: wire.Wait_AT_REST})
	if err != nil || !volume.Reached {
		t.Errorf("at the other node: %v, %v", volume, err)
	}
	time.Sleep(100 * time.Millisecond) // until the files were read
	nodes, err := client.Nodes(ctx, &wire.NodesRequest{})
	if err != nil || len(nodes.Nodes) != 3 || nodes.Nodes[1].Id != "n2" || nodes.Nodes[1].Connection == "READY" {
		t.Errorf("%v, %v", nodes, err)
	}
	if status := stop(); status != 0 {
		t.Errorf("it ended with %d", status)
	}
}
