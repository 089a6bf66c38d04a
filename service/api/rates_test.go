package api_test

import (
	"net"
	"sync"
	"testing"
	"time"

	"go.uber.org/zap"
	"google.golang.org/grpc/codes"
	"google.golang.org/grpc/status"

	"tufayon/service/api"
	"tufayon/service/api/wire"
	"tufayon/service/secure"
	"tufayon/service/secure/securetest"
)

// A caller that calls too often is refused, over whatever connections, and another one isn't; after a while it is served again.
func TestRate(t *testing.T) {
	authority, end := securetest.NewAuthority(t), time.Now().Add(time.Hour)
	listener, err := net.Listen("tcp", "127.0.0.1:0")
	if err != nil {
		t.Fatal(err)
	}
	files := authority.Issue(t, t.TempDir(), end, "tufayon://s1/orchestrator")
	roles := &api.Roles{}
	roles.Set(map[string]api.Role{"ann": api.Operates, "bob": api.Operates}, nil)
	_, server := api.New(plugins{}, nil, roles, files.Server(secure.Those("s1", secure.Client), nil), zap.NewNop(), api.Rate(20)...)
	go server.Serve(listener)
	defer server.Stop()
	connect := func(name string) wire.OrchestratorClient {
		its := authority.Issue(t, t.TempDir(), end, "tufayon://s1/client/"+name)
		return wire.NewOrchestratorClient(dial(t, listener.Addr().String(), its.Client(secure.Name{Set: "s1", Role: secure.Orchestrator}, nil)))
	}
	call := func(client wire.OrchestratorClient) codes.Code {
		_, err := client.Nodes(ctx, &wire.NodesRequest{})
		return status.Code(err)
	}
	var group sync.WaitGroup
	var mutex sync.Mutex
	came := map[codes.Code]int{}
	ann := connect("ann")
	for _, client := range []wire.OrchestratorClient{ann, connect("ann")} {
		group.Add(1)
		go func(client wire.OrchestratorClient) {
			defer group.Done()
			for at := 0; at < 40; at++ {
				code := call(client)
				mutex.Lock()
				came[code]++
				mutex.Unlock()
			}
		}(client)
	}
	group.Wait()
	if came[codes.ResourceExhausted] == 0 || came[codes.Unavailable] < 20 || came[codes.ResourceExhausted]+came[codes.Unavailable] != 80 {
		t.Errorf("there came %v", came)
	}
	if code := call(connect("bob")); code != codes.Unavailable {
		t.Errorf("another caller: %v", code)
	}
	for until := time.Now().Add(10 * time.Second); call(ann) != codes.Unavailable; time.Sleep(10 * time.Millisecond) {
		if time.Now().After(until) {
			t.Fatal("it isn't served again")
		}
	}
}
