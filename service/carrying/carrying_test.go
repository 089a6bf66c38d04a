package carrying_test

import (
	"context"
	"errors"
	"fmt"
	"net"
	"os"
	"path/filepath"
	"sync"
	"sync/atomic"
	"testing"
	"time"

	"google.golang.org/grpc/codes"
	"google.golang.org/grpc/health/grpc_health_v1"
	"google.golang.org/grpc/status"

	"tufayon/service/carrying"
	"tufayon/service/carrying/carryingtest"
	"tufayon/service/frames"
	"tufayon/service/secure"
	"tufayon/service/secure/securetest"
)

var ctx = context.Background()

const within = 10 * time.Second // what should come soon

func own(uid uint32) bool { return int(uid) == os.Geteuid() }

// carry makes a carrier of plugins at their sockets.
func carry(t *testing.T, peers carrying.Peers, limits carrying.Limits, plugins map[string]string) *carrying.Carrier {
	t.Helper()
	if peers.May == nil {
		peers.May = own
	}
	if peers.Refused == nil {
		peers.Refused = func(string) secure.Refused { return nil }
	}
	if limits.Answer == 0 {
		limits.Answer = within
	}
	if limits.AtNode == 0 {
		limits.AtController, limits.AtNode = 8, 8
	}
	limits.Reach = within
	carrier := carrying.New(limits, "/staging/", peers.Dial)
	t.Cleanup(carrier.Close)
	if err := carrier.Set(plugins); err != nil {
		t.Fatal(err)
	}
	return carrier
}

// socket is an address that nobody serves yet.
func socket(t *testing.T, name string) string {
	return "unix://" + filepath.Join(t.TempDir(), name)
}

var calls uint64

func stage(node string) frames.Call {
	number := frames.Number{Session: 3, Call: atomic.AddUint64(&calls, 1)}
	return frames.Call{Number: number, Node: node, Body: frames.NodeStageVolume{ID: 7, Capability: frames.Capability{Mode: 1}}}
}

// What a plugin answers is its reply where it says so, and whatever gRPC makes by itself is none.
func TestReplies(t *testing.T) {
	plugin := &carryingtest.Plugin{Node: "n1"}
	carrier := carry(t, carrying.Peers{}, carrying.Limits{}, map[string]string{"node:n1": socket(t, "n1"), carrying.Controller: socket(t, "c")})
	for name, state := range carrier.States() {
		(&carryingtest.Plugin{Node: "n1"}).Serve(t, state.Address, nil)
		if name != carrying.Controller {
			continue
		}
		reply, err := carrier.Carry(ctx, frames.Call{Number: frames.Number{Session: 1, Call: 9}, Body: frames.CreateVolume{Name: "v"}}, time.Time{})
		if err != nil || reply.Volume != 1 || reply.Number.Call != 9 {
			t.Errorf("created: %+v, %v", reply, err)
		}
	}
	plugin.Serve(t, socket(t, "n2"), nil)
	if err := carrier.Set(map[string]string{"node:n1": plugin.Address}); err != nil {
		t.Fatal(err)
	}
	for code := codes.Code(0); code <= 16; code++ {
		for _, isReply := range []bool{true, false} {
			plugin.Judge = func(context.Context, string) (error, bool) { return status.Error(code, "why"), isReply }
			call := stage("n1")
			reply, err := carrier.Carry(ctx, call, time.Time{})
			switch {
			case code == codes.OK:
				if err != nil || reply.Status != 0 {
					t.Errorf("%v, its own %v: %+v, %v", code, isReply, reply, err)
				}
			case !isReply && (code == 3 || code == 5 || code == 6 || code >= 9 && code <= 11):
				if !errors.Is(err, carrying.ErrRefused) {
					t.Errorf("%v, its driver's: %+v, %v", code, reply, err)
				}
			case !isReply, code == codes.Canceled, code == codes.Unknown, code == codes.DeadlineExceeded, code == codes.Unavailable:
				if !errors.Is(err, carrying.ErrNoReply) {
					t.Errorf("%v, its own %v: %+v, %v", code, isReply, reply, err)
				}
			case err != nil || reply.Status != uint8(code) || reply.Detail != "why" || reply.Number != call.Number || reply.Node != "n1":
				t.Errorf("%v: %+v, %v", code, reply, err)
			}
		}
	}
	if _, err := carrier.Carry(ctx, stage("n9"), time.Time{}); !errors.Is(err, carrying.ErrNoAddress) {
		t.Errorf("a node without an address: %v", err)
	}
}

// A node that is slow has only so many calls under way, and holds up no other one; a call that waits for its place loses no time.
func TestLimits(t *testing.T) {
	var now, most int64
	slow := &carryingtest.Plugin{Node: "n1", Judge: func(context.Context, string) (error, bool) {
		if count := atomic.AddInt64(&now, 1); count > atomic.LoadInt64(&most) {
			atomic.StoreInt64(&most, count)
		}
		time.Sleep(150 * time.Millisecond)
		atomic.AddInt64(&now, -1)
		return nil, true
	}}
	slow.Serve(t, socket(t, "n1"), nil)
	quick := (&carryingtest.Plugin{Node: "n2"}).Serve(t, socket(t, "n2"), nil)
	limits := carrying.Limits{AtController: 1, AtNode: 2, Answer: 2 * time.Second}
	carrier := carry(t, carrying.Peers{}, limits, map[string]string{"node:n1": slow.Address, "node:n2": quick.Address})
	var group sync.WaitGroup
	for at := 0; at < 8; at++ {
		group.Add(1)
		go func() {
			defer group.Done()
			if _, err := carrier.Carry(ctx, stage("n1"), time.Time{}); err != nil {
				t.Error(err)
			}
		}()
	}
	for end := time.Now().Add(within); carrier.States()["node:n1"].UnderWay < 2 && time.Now().Before(end); {
		time.Sleep(time.Millisecond)
	}
	if _, err := carrier.Carry(ctx, stage("n2"), time.Time{}); err != nil || carrier.States()["node:n1"].Queued == 0 {
		t.Errorf("the quick one: %v, %+v", err, carrier.States())
	}
	group.Wait()
	if most != 2 {
		t.Errorf("%d calls at once", most)
	}
	answers := make(chan struct{})
	defer close(answers)
	late := &carryingtest.Plugin{Node: "n3", Judge: func(context.Context, string) (error, bool) { <-answers; return nil, true }}
	late.Serve(t, socket(t, "n3"), nil)
	if err := carrier.Set(map[string]string{"node:n3": late.Address}); err != nil {
		t.Fatal(err)
	}
	if _, err := carrier.Carry(ctx, stage("n3"), time.Time{}); !errors.Is(err, carrying.ErrNoReply) {
		t.Errorf("one that answers late: %v", err)
	}
}

// A call waits until its plugin is there and serves, for ever or until a time, and isn't sent before.
func TestReached(t *testing.T) {
	address := socket(t, "n1")
	carrier := carry(t, carrying.Peers{}, carrying.Limits{}, map[string]string{"node:n1": address})
	if _, err := carrier.Carry(ctx, stage("n1"), time.Now().Add(20*time.Millisecond)); !errors.Is(err, carrying.ErrNotReached) {
		t.Errorf("nobody is there: %v", err)
	}
	if state := carrier.States()["node:n1"]; state.Trouble == "" || state.Queued != 0 {
		t.Errorf("%+v", state)
	}
	waits := make(chan error, 1)
	go func() {
		_, err := carrier.Carry(ctx, stage("n1"), time.Time{})
		waits <- err
	}()
	plugin := &carryingtest.Plugin{Node: "n1"}
	plugin.Serve(t, address, nil)
	if err := <-waits; err != nil {
		t.Errorf("it came: %v", err)
	}
	plugin.Health.SetServingStatus("", grpc_health_v1.HealthCheckResponse_NOT_SERVING)
	for end := time.Now().Add(within); carrier.States()["node:n1"].Connection == "READY" && time.Now().Before(end); {
		time.Sleep(time.Millisecond)
	}
	if _, err := carrier.Carry(ctx, stage("n1"), time.Now().Add(20*time.Millisecond)); !errors.Is(err, carrying.ErrNotReached) {
		t.Errorf("it doesn't serve: %v", err)
	}
	if count := len(plugin.Calls()); count != 1 {
		t.Errorf("%d calls", count)
	}
	go func() {
		_, err := carrier.Carry(ctx, stage("n1"), time.Time{})
		waits <- err
	}()
	for end := time.Now().Add(within); carrier.States()["node:n1"].Queued == 0 && time.Now().Before(end); {
		time.Sleep(time.Millisecond)
	}
	if err := carrier.Set(map[string]string{"node:n1": socket(t, "n1")}); err != nil {
		t.Fatal(err)
	}
	if err := <-waits; !errors.Is(err, carrying.ErrMoved) {
		t.Errorf("it moved: %v", err)
	}
	limited, cancel := context.WithCancel(ctx)
	cancel()
	if _, err := carrier.Carry(limited, stage("n1"), time.Time{}); !errors.Is(err, context.Canceled) {
		t.Errorf("given up: %v", err)
	}
}

// A plugin at a Unix socket is reached without the proxy that the environment has, and so is one of several.
func TestProxy(t *testing.T) {
	if !carryingtest.HasProxy(t) {
		return
	}
	node := (&carryingtest.Plugin{Node: "n1"}).Serve(t, socket(t, "n1"), nil)
	controller := (&carryingtest.Plugin{}).Serve(t, socket(t, "c"), nil)
	carrier := carry(t, carrying.Peers{}, carrying.Limits{}, map[string]string{
		"node:n1": node.Address, carrying.Controller: socket(t, "d") + "," + controller.Address,
	})
	if _, err := carrier.Carry(ctx, stage("n1"), time.Now().Add(within)); err != nil {
		t.Errorf("a node: %v", err)
	}
	remove := frames.Call{Number: frames.Number{Session: 1, Call: 1}, Body: frames.DeleteVolume{ID: 1}}
	if _, err := carrier.Carry(ctx, remove, time.Now().Add(within)); err != nil {
		t.Errorf("a controller: %v", err)
	}
}

// A plugin at a Unix socket is reached whatever stands in the socket's path, also where that is a part of a URL by itself.
func TestPaths(t *testing.T) {
	for _, name := range []string{"100%", "a%20b", "a?b", "a#b", "a b", "a:b", "\u00e4"} {
		plugin := (&carryingtest.Plugin{Node: "n1"}).Serve(t, socket(t, name), nil)
		for plugin, address := range map[string]string{"node:n1": plugin.Address, carrying.Controller: socket(t, "c") + "," + plugin.Address} {
			carrier, call := carry(t, carrying.Peers{}, carrying.Limits{}, map[string]string{plugin: address}), stage("n1")
			if plugin == carrying.Controller {
				call = frames.Call{Number: frames.Number{Session: 1, Call: 1}, Body: frames.DeleteVolume{ID: 1}}
			}
			if _, err := carrier.Carry(ctx, call, time.Now().Add(within)); err != nil {
				t.Errorf("%s at %q: %v", plugin, name, err)
			}
		}
	}
}

// otherIsThere makes calls at a node until it is found that another one is there: until a connection is there, they fail otherwise. Each has to fail.
func otherIsThere(t *testing.T, carrier *carrying.Carrier, node string) {
	t.Helper()
	for end := time.Now().Add(within); ; {
		_, err := carrier.Carry(ctx, stage(node), time.Now().Add(50*time.Millisecond))
		if errors.Is(err, carrying.ErrOther) {
			return
		}
		if err == nil || time.Now().After(end) {
			t.Fatalf("another node is there: %v", err)
		}
	}
}

// With two nodes' addresses exchanged, or another user's socket, nothing is sent to the wrong one.
func TestExchanged(t *testing.T) {
	other := (&carryingtest.Plugin{Node: "n2"}).Serve(t, socket(t, "n1"), nil)
	carrier := carry(t, carrying.Peers{}, carrying.Limits{}, map[string]string{"node:n1": other.Address})
	otherIsThere(t, carrier, "n1")
	if state := carrier.States()["node:n1"]; state.Trouble != `another plugin is there: "n2"` {
		t.Errorf("%+v", state)
	}
	nobody := carrying.Peers{May: func(uint32) bool { return false }}
	carrier = carry(t, nobody, carrying.Limits{}, map[string]string{"node:n2": other.Address})
	if _, err := carrier.Carry(ctx, stage("n2"), time.Now().Add(50*time.Millisecond)); !errors.Is(err, carrying.ErrNotReached) {
		t.Errorf("another user's socket: %v", err)
	}
	if count := len(other.Calls()); count != 0 {
		t.Errorf("%d calls", count)
	}
	right := (&carryingtest.Plugin{Node: "n3"}).Serve(t, socket(t, "n3"), nil)
	carrier = carry(t, carrying.Peers{}, carrying.Limits{}, map[string]string{"node:n3": right.Address})
	if _, err := carrier.Carry(ctx, stage("n3"), time.Time{}); err != nil {
		t.Error(err)
	}
	right.Stop()
	later := (&carryingtest.Plugin{Node: "n4"}).Serve(t, right.Address, nil)
	otherIsThere(t, carrier, "n3") // the first calls may still find the connection that ends
	if count := len(later.Calls()); count != 0 {
		t.Errorf("another node came to the address, and got %d calls", count)
	}
}

// Over TCP a plugin is who its certificate names.
func TestTLS(t *testing.T) {
	authority := securetest.NewAuthority(t)
	end := time.Now().Add(time.Hour)
	files := authority.Issue(t, t.TempDir(), end, "tufayon://s1/orchestrator")
	serve := func(node, name string) *carryingtest.Plugin {
		its := authority.Issue(t, t.TempDir(), end, name)
		known := its.Server(secure.Those("s1", secure.Orchestrator), nil)
		return (&carryingtest.Plugin{Node: node}).Serve(t, "127.0.0.1:0", known)
	}
	n1, n2 := serve("n1", "tufayon://s1/node/n1"), serve("n2", "tufayon://s1/node/n2")
	var mutex sync.Mutex
	told := map[string]error{}
	peers := carrying.Peers{Set: "s1", Files: &files, Refused: func(plugin string) secure.Refused {
		return func(_ net.Addr, why error) {
			mutex.Lock()
			defer mutex.Unlock()
			told[plugin] = why
		}
	}}
	carrier := carry(t, peers, carrying.Limits{}, map[string]string{"node:n1": n1.Address, "node:n2": n2.Address})
	for _, node := range []string{"n1", "n2"} {
		if _, err := carrier.Carry(ctx, stage(node), time.Time{}); err != nil {
			t.Errorf("%s: %v", node, err)
		}
	}
	exchanged := carry(t, peers, carrying.Limits{}, map[string]string{"node:n1": n2.Address})
	isTold := func() bool {
		mutex.Lock()
		defer mutex.Unlock()
		return told["node:n1"] != nil
	}
	for end := time.Now().Add(within); !isTold() && time.Now().Before(end); {
		if _, err := exchanged.Carry(ctx, stage("n1"), time.Now().Add(100*time.Millisecond)); !errors.Is(err, carrying.ErrNotReached) {
			t.Errorf("another's address: %v", err)
		}
	}
	mutex.Lock()
	defer mutex.Unlock()
	if why := fmt.Sprint(told["node:n1"]); why != "the peer is somebody else: tufayon://s1/node/n2, not tufayon://s1/node/n1" {
		t.Errorf("it was told %s", why)
	}
	if count := len(n2.Calls()); count != 1 {
		t.Errorf("%d calls", count)
	}
	if err := carry(t, carrying.Peers{Set: "s1"}, carrying.Limits{}, nil).Set(map[string]string{"node:n1": n1.Address}); !errors.Is(err, secure.ErrNone) {
		t.Errorf("TCP without certificates: %v", err)
	}
}

// Of several controllers calls go to the one that serves, also after another took over.
func TestSeveral(t *testing.T) {
	first := (&carryingtest.Plugin{}).Serve(t, socket(t, "c1"), nil)
	second := (&carryingtest.Plugin{}).Serve(t, socket(t, "c2"), nil)
	tell := func(leads, waits *carryingtest.Plugin) {
		waits.Health.SetServingStatus("", grpc_health_v1.HealthCheckResponse_NOT_SERVING)
		leads.Health.SetServingStatus("", grpc_health_v1.HealthCheckResponse_SERVING)
	}
	tell(second, first)
	carrier := carry(t, carrying.Peers{}, carrying.Limits{}, map[string]string{carrying.Controller: first.Address + "," + second.Address})
	call := func(leads *carryingtest.Plugin) {
		t.Helper()
		for end, before := time.Now().Add(within), len(leads.Calls()); len(leads.Calls()) == before; {
			number := frames.Number{Session: 3, Call: atomic.AddUint64(&calls, 1)}
			if _, err := carrier.Carry(ctx, frames.Call{Number: number, Body: frames.DeleteVolume{ID: 1}}, end); err != nil || time.Now().After(end) {
				t.Fatal(err)
			}
		}
	}
	call(second)
	if count := len(first.Calls()); count != 0 {
		t.Errorf("one that waits got %d calls", count)
	}
	tell(first, second)
	call(first)
}

// What a node says that isn't as its record has it is told as long as it is reached, and calls are made at it.
func TestTroubles(t *testing.T) {
	node := &carryingtest.Plugin{Node: "n1", Troubles: make(chan string, 1)}
	node.Serve(t, socket(t, "n1"), nil)
	carrier := carry(t, carrying.Peers{}, carrying.Limits{}, map[string]string{"node:n1": node.Address})
	wants := func(want string) {
		t.Helper()
		for end := time.Now().Add(within); ; time.Sleep(5 * time.Millisecond) {
			state := carrier.States()["node:n1"]
			if state.Amiss == want && (want == "" || state.IsReached()) {
				break
			}
			if time.Now().After(end) {
				t.Fatalf("it is %+v, and not %q", state, want)
			}
		}
		for volume := uint64(1); volume < 4; volume++ {
			why := ""
			if want == fmt.Sprintf("volume %d isn't mounted", volume) {
				why = "its machine was started again: there is no device"
			}
			if said := carrier.Unmounted("n1", volume) + carrier.Unmounted("n2", volume); said != why {
				t.Errorf("volume %d: %q, and not %q", volume, said, why)
			}
		}
	}
	for _, text := range []string{"volume 1 isn't mounted", "volume 2 isn't mounted", "", "volume 3 isn't mounted"} {
		node.Troubles <- text
		wants(text)
		if _, err := carrier.Carry(ctx, stage("n1"), time.Time{}); err != nil {
			t.Errorf("a call: %v", err)
		}
	}
	node.Stop()
	wants("")
	again := &carryingtest.Plugin{Node: "n1", Troubles: node.Troubles}
	again.Serve(t, node.Address, nil)
	again.Troubles <- "volume 4 isn't mounted"
	wants("volume 4 isn't mounted")
}

// A node that asks for it is told which call it acknowledged last, once that is known here, until it takes that.
func TestConfirms(t *testing.T) {
	told := make(chan frames.Number, 9)
	refuses := int32(1)
	node := &carryingtest.Plugin{Node: "n1", Troubles: make(chan string, 1), Confirms: func(heard frames.Number) error {
		told <- heard
		if atomic.AddInt32(&refuses, -1) == 0 {
			return status.Error(codes.FailedPrecondition, "earlier")
		}
		return nil
	}}
	node.Serve(t, socket(t, "n1"), nil)
	carrier := carry(t, carrying.Peers{}, carrying.Limits{}, map[string]string{"node:n1": node.Address})
	node.Troubles <- "volumes aren't mounted"
	select {
	case heard := <-told:
		t.Errorf("it is told %v", heard)
	case <-time.After(100 * time.Millisecond):
	}
	want := frames.Number{Session: 4, Call: 7}
	carrier.Leads(func(plugin string) (frames.Number, bool) { return want, plugin == "node:n1" })
	for count := 0; count < 2; count++ {
		select {
		case heard := <-told:
			if heard != want {
				t.Errorf("it is told %v", heard)
			}
		case <-time.After(within):
			t.Fatal("it is told nothing")
		}
	}
}

// Another node at a node's address isn't listened to, and isn't told which call that one acknowledged last: it would take that for its own.
func TestAnotherIsToldNothing(t *testing.T) {
	told := make(chan frames.Number, 9)
	other := &carryingtest.Plugin{Node: "n2", Troubles: make(chan string, 1), Confirms: func(heard frames.Number) error {
		told <- heard
		return nil
	}}
	other.Troubles <- "volume 1 isn't mounted"
	other.Serve(t, socket(t, "n2"), nil)
	carrier := carry(t, carrying.Peers{}, carrying.Limits{}, map[string]string{"node:n1": other.Address})
	carrier.Leads(func(string) (frames.Number, bool) { return frames.Number{Session: 4, Call: 7}, true })
	for end := time.Now().Add(within); carrier.States()["node:n1"].Connection != "READY" && time.Now().Before(end); {
		time.Sleep(time.Millisecond)
	}
	select {
	case heard := <-told:
		t.Errorf("it is told %v", heard)
	case <-time.After(300 * time.Millisecond):
	}
	if state := carrier.States()["node:n1"]; state.Amiss != "" || carrier.Unmounted("n1", 1) != "" || state.Trouble != `another plugin is there: "n2"` {
		t.Errorf("it is %+v", state)
	}
}
