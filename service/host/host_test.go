package host_test

import (
	"context"
	"errors"
	"fmt"
	"sync"
	"sync/atomic"
	"testing"
	"time"

	"go.uber.org/zap"

	"tufayon/service/frames"
	"tufayon/service/host"
	"tufayon/service/host/hosttest"
	"tufayon/service/records"
	"tufayon/service/store"
)

var (
	block = frames.Capability{Mode: 1}
	quick = host.Times{Patience: time.Minute, Retry: time.Millisecond, MostRetry: 10 * time.Millisecond}
	ctx   = context.Background()
)

const within = 10 * time.Second // what should come soon

func open(t *testing.T, kept store.Store, carrier host.Carrier, times host.Times, nodes ...string) *host.Host {
	t.Helper()
	made, err := host.Open(ctx, host.Options{Store: kept, Nodes: nodes, Carrier: carrier, Times: times, Log: zap.NewNop()})
	if err != nil {
		t.Fatal(err)
	}
	t.Cleanup(made.Close)
	return made
}

func create(name string) host.Command {
	return host.Command{Kind: host.Create, Name: name, Required: 10, Capabilities: []frames.Capability{block}, AtRest: true}
}

func use(name, node, target string) host.Command {
	return host.Command{Kind: host.Use, Name: name, Node: node, Target: target, Capability: block, AtRest: true}
}

func stop(name, node, target string) host.Command {
	return host.Command{Kind: host.Stop, Name: name, Node: node, Target: target, AtRest: true}
}

func remove(name string) host.Command {
	return host.Command{Kind: host.Delete, Name: name, AtRest: true}
}

// does has a command carried out, and wants that it is reached.
func does(t *testing.T, made *host.Host, command host.Command) host.Volume {
	t.Helper()
	limited, cancel := context.WithTimeout(ctx, within)
	defer cancel()
	answer, err := made.Do(limited, command)
	if err != nil || !answer.Reached && command.AtRest {
		t.Fatalf("%+v: %+v, %v", command, answer, err)
	}
	return answer.Volume
}

// soon wants that something comes to be.
func soon(t *testing.T, what string, is func() bool) {
	t.Helper()
	for end := time.Now().Add(within); !is(); time.Sleep(time.Millisecond) {
		if time.Now().After(end) {
			t.Fatalf("not within %v: %s", within, what)
		}
	}
}

// A volume's life, and what callers see of it.
func TestLife(t *testing.T) {
	carrier := &hosttest.Carrier{}
	made := open(t, hosttest.NewStore(), carrier, quick, "n1")
	if volume := does(t, made, create("v")); volume.ID != 1 || volume.Exists != records.Yes || volume.Goal != records.None {
		t.Errorf("created: %+v", volume)
	}
	volume := does(t, made, use("v", "n1", "/a"))
	if at, isThere := volume.Where("n1"); !isThere || at.Attached != records.Yes || at.Staged != records.Yes || at.Targets[0].Published != records.Yes {
		t.Errorf("used: %+v", volume.Row)
	}
	if answer, err := made.Do(ctx, use("v", "n1", "/a")); err != nil || !answer.Met || !answer.Reached {
		t.Errorf("used again: %+v, %v", answer, err)
	}
	for command, want := range map[*host.Command]host.Refusal{
		{Kind: host.Create, Name: "v"}: 1, {Kind: host.Delete, Name: "w"}: 2, {Kind: host.Use, Name: "v", Node: "n9", Target: "/a", Capability: block}: 5,
		{Kind: host.Stop, Name: "v", Node: "n1", Target: "/b"}: 11, {Kind: host.Delete, Name: "v"}: 12,
	} {
		if _, err := made.Do(ctx, *command); err != error(want) {
			t.Errorf("%+v: %v, not %v", command, err, want)
		}
	}
	if _, err := made.Do(ctx, host.Command{Kind: host.Create}); !errors.Is(err, host.ErrInvalid) {
		t.Errorf("no name: %v", err)
	}
	does(t, made, stop("v", "n1", "/a"))
	does(t, made, remove("v"))
	if volume, isThere := made.Get("v"); !isThere || volume.Exists != records.No {
		t.Errorf("deleted: %+v", volume)
	}
	if _, err := made.AtRest(ctx, "w"); err != error(host.Refusal(2)) {
		t.Errorf("another one at rest: %v", err)
	}
	if volumes, more := made.List("", 10, func(host.Volume) bool { return true }); len(volumes) != 1 || more {
		t.Errorf("there are %d volumes, more %v", len(volumes), more)
	}
	if count := len(carrier.Calls()); count != 8 {
		t.Errorf("%d calls", count)
	}
}

// Many callers at once get each its own answer, and share commits; calls of different volumes are made side by side.
func TestSideBySide(t *testing.T) {
	const callers, each = 32, 5
	var now, most int64
	carrier := &hosttest.Carrier{Answer: func(context.Context, frames.Call, time.Time) (frames.Reply, error, bool) {
		if count := atomic.AddInt64(&now, 1); count > atomic.LoadInt64(&most) {
			atomic.StoreInt64(&most, count)
		}
		time.Sleep(2 * time.Millisecond)
		atomic.AddInt64(&now, -1)
		return frames.Reply{}, nil, false
	}}
	kept := hosttest.NewStore()
	kept.Pause = 3 * time.Millisecond // what comes meanwhile waits
	made := open(t, kept, carrier, quick, "n1", "n2")
	var group sync.WaitGroup
	for caller := 0; caller < callers; caller++ {
		group.Add(1)
		go func(caller int) {
			defer group.Done()
			for at := 0; at < each; at++ {
				name := fmt.Sprint("v", caller, "-", at)
				for _, command := range []host.Command{create(name), use(name, fmt.Sprint("n", 1+caller%2), "/"+name)} {
					if answer, err := made.Do(ctx, command); err != nil || !answer.Reached || answer.Volume.Name != name {
						t.Errorf("%+v: %+v, %v", command, answer, err)
					}
				}
			}
		}(caller)
	}
	group.Wait()
	events := callers * each * 6 // two commands and four replies of a volume
	if commits := kept.Commits(); commits > events/2 {
		t.Errorf("%d commits of %d events", commits, events)
	}
	if most < 4 {
		t.Errorf("at most %d calls at once", most)
	}
}

// A node that doesn't answer holds up nobody but who uses it, and who gives up waiting takes nothing back.
func TestSlowNode(t *testing.T) {
	goOn := make(chan struct{})
	carrier := &hosttest.Carrier{Answer: func(ctx context.Context, call frames.Call, _ time.Time) (frames.Reply, error, bool) {
		if call.Node == "n1" {
			select {
			case <-goOn:
			case <-ctx.Done():
			}
		}
		return frames.Reply{}, nil, false
	}}
	made := open(t, hosttest.NewStore(), carrier, quick, "n1", "n2")
	does(t, made, create("v"))
	limited, cancel := context.WithTimeout(ctx, 30*time.Millisecond)
	defer cancel()
	if _, err := made.Do(limited, use("v", "n1", "/a")); !errors.Is(err, context.DeadlineExceeded) {
		t.Errorf("who gives up waiting: %v", err)
	}
	does(t, made, create("w"))
	does(t, made, use("w", "n2", "/a"))
	if volume, _ := made.Get("v"); volume.HeldUpBy != "node:n1" || volume.Goal != records.ToUse || volume.Since.IsZero() {
		t.Errorf("the slow one: %+v", volume)
	}
	if _, err := made.Do(ctx, use("v", "n1", "/b")); err != error(host.Refusal(4)) {
		t.Errorf("another use meanwhile: %v", err)
	}
	close(goOn)
	answer, err := made.AtRest(ctx, "v")
	if err != nil || answer.Volume.PublishedAt("n1", "/a") != records.Yes {
		t.Errorf("what was given up: %+v, %v", answer.Volume.Row, err)
	}
}

// A watcher sees what is committed, in order; one that is too slow is told so.
func TestWatch(t *testing.T) {
	made := open(t, hosttest.NewStore(), &hosttest.Carrier{}, quick, "n1")
	does(t, made, create("v"))
	watching := made.Watch(true, "v")
	if len(watching.Current) != 1 || watching.Current[0].Volume.ID != 1 {
		t.Errorf("as it is: %+v", watching.Current)
	}
	does(t, made, create("w"))
	does(t, made, use("v", "n1", "/a"))
	var last uint64
	var goals []records.Goal
	for len(goals) == 0 || goals[len(goals)-1] != records.None {
		events, err := watching.Next(ctx)
		if err != nil {
			t.Fatal(err)
		}
		for _, event := range events {
			if event.Volume.Name != "v" || event.Count <= last {
				t.Fatalf("%+v", event)
			}
			last = event.Count
			goals = append(goals, event.Volume.Goal)
		}
	}
	if goals[0] != records.ToUse {
		t.Errorf("the goals are %v", goals)
	}
	watching.End()
	slow := made.Watch(false, "")
	for at := 0; at < 20; at++ {
		does(t, made, create(fmt.Sprint("x", at)))
	}
	for at := 0; at < 60; at++ { // each session tells all volumes
		if _, err := made.Begin(ctx, nil, "a test"); err != nil {
			t.Fatal(err)
		}
	}
	var err error
	for err == nil {
		_, err = slow.Next(ctx)
	}
	if !errors.Is(err, host.ErrSlow) {
		t.Errorf("it ended by %v", err)
	}
	ended := made.Watch(false, "")
	made.Close()
	if _, err := ended.Next(ctx); !errors.Is(err, host.ErrEnded) {
		t.Errorf("it ended by %v", err)
	}
}

// A session tells a watcher of each volume, however many there are: by that alone it isn't too slow.
func TestWatchMany(t *testing.T) {
	const count = 1100
	made := open(t, hosttest.NewStore(), &hosttest.Carrier{}, quick, "n1")
	for at := 0; at < count; at++ {
		does(t, made, create(fmt.Sprint("v", at)))
	}
	watching := made.Watch(false, "")
	defer watching.End()
	if _, err := made.Begin(ctx, nil, "a test"); err != nil {
		t.Fatal(err)
	}
	for seen := 0; seen < count; {
		events, err := watching.Next(ctx)
		if err != nil {
			t.Fatalf("behind %d events: %v", seen, err)
		}
		seen += len(events)
	}
}

// A caller that has gone before its command was asked changes nothing.
func TestGone(t *testing.T) {
	made := open(t, hosttest.NewStore(), &hosttest.Carrier{}, quick)
	gone, cancel := context.WithCancel(ctx)
	cancel()
	if _, err := made.Do(gone, create("v")); !errors.Is(err, context.Canceled) {
		t.Error(err)
	}
	does(t, made, create("w"))
	if _, isThere := made.Get("v"); isThere {
		t.Error("it is there")
	}
}
