package main

import (
	"context"
	"fmt"
	"os"
	"syscall"
	"testing"
	"time"

	"google.golang.org/grpc"
	"google.golang.org/grpc/codes"
	"google.golang.org/grpc/status"

	"tufayon/service/api/wire"
	"tufayon/service/etcd/etcdtest"
)

// Over etcd one service leads and another waits: when the first ends, the second goes on with what is wanted, and with the nodes that came meanwhile.
func TestTakeover(t *testing.T) {
	ctx, cancel := context.WithTimeout(context.Background(), 6*within)
	defer cancel()
	endpoint, made := etcdtest.Start(t), newFiles(t)
	made.list("n1") // which isn't there yet
	second := &files{t: t, folder: made.folder, address: "unix://" + made.path("second.sock"), process: "second.json", plugins: made.plugins}
	made.process = "first.json"
	for _, it := range []*files{made, second} {
		made.write(it.process, fmt.Sprintf(`{"set": "set.json", "listen": %q, "etcd": {"endpoints": [%q], "prefix": "/tufayon/s1/orchestrator", "lease": 2}}`,
			it.address, endpoint))
	}
	client, stop := made.start(true)
	if _, err := client.Create(ctx, &wire.CreateRequest{Name: "v", Capabilities: []*wire.Capability{block}, Wait: wire.Wait_AT_REST}); err != nil {
		t.Fatal(err)
	}
	if _, err := client.Use(ctx, &wire.UseRequest{Name: "v", Node: "n1", Target: "/a", Capability: block}); err != nil {
		t.Fatal(err)
	}
	waiting, _ := second.start(false)
	_, err := waiting.Get(ctx, &wire.GetRequest{Name: "v"}, grpc.WaitForReady(true)) // its socket's file is there before anybody may connect
	if its := status.Convert(err); its.Code() != codes.Unavailable || its.Message() != "this service doesn't lead: "+made.address+" does" {
		t.Errorf("the second: %v", err)
	}
	before, err := client.Nodes(ctx, &wire.NodesRequest{})
	if err != nil {
		t.Fatal(err)
	}
	made.serve("n2")
	made.list("n1", "n2")
	syscall.Kill(os.Getpid(), syscall.SIGHUP) // both hear it
	for nodes := before; ctx.Err() == nil && nodes.GetSession() <= before.Session; time.Sleep(10 * time.Millisecond) {
		nodes, _ = client.Nodes(ctx, &wire.NodesRequest{})
	}
	if _, err := client.Create(ctx, &wire.CreateRequest{Name: "w", Capabilities: []*wire.Capability{block}, Wait: wire.Wait_AT_REST}); err != nil {
		t.Fatal(err)
	}
	used, err := client.Use(ctx, &wire.UseRequest{Name: "w", Node: "n2", Target: "/a", Capability: block, Wait: wire.Wait_AT_REST})
	if err != nil || !used.Reached {
		t.Fatalf("used at the other node: %v, %v", used, err)
	}
	if status := stop(); status != 0 {
		t.Errorf("the first ended with %d", status)
	}
	made.serve("n1")
	for err = error(nil); ctx.Err() == nil; time.Sleep(10 * time.Millisecond) {
		var volume *wire.Volume
		if volume, err = waiting.Get(ctx, &wire.GetRequest{Name: "v", Wait: wire.Wait_AT_REST}); err == nil {
			if len(volume.At) != 1 || volume.At[0].Targets[0].Published != wire.Known_YES {
				t.Errorf("what was wanted: %v", volume)
			}
			return
		}
	}
	t.Errorf("the second doesn't lead: %v", err)
}
