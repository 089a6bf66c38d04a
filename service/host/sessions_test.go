package host_test

import (
	"context"
	"errors"
	"fmt"
	"sync"
	"sync/atomic"
	"testing"
	"time"

	"go.uber.org/zap"

	"tufayon/service/frames"
	"tufayon/service/host"
	"tufayon/service/host/hosttest"
	"tufayon/service/plugin"
)

// A node is declared lost while its call is under way: the call is given up, the volume is detached by a stop, and used elsewhere.
func TestLose(t *testing.T) {
	givenUp := make(chan struct{})
	carrier := &hosttest.Carrier{Answer: func(ctx context.Context, call frames.Call, _ time.Time) (frames.Reply, error, bool) {
		if call.Node == "n1" {
			<-ctx.Done()
			close(givenUp)
			return frames.Reply{}, ctx.Err(), true
		}
		return frames.Reply{}, nil, false
	}}
	made := open(t, hosttest.NewStore(), carrier, quick, "n1", "n2")
	does(t, made, create("v"))
	undone := make(chan host.Answer, 1)
	go func() {
		answer, _ := made.Do(ctx, use("v", "n1", "/a"))
		undone <- answer
	}()
	soon(t, "n1 is called", func() bool { volume, _ := made.Get("v"); return volume.HeldUpBy == "node:n1" })
	if session, err := made.Lose(ctx, "n1"); err != nil || session != 2 || made.Session() != 2 {
		t.Errorf("the session is %d, %v", session, err)
	}
	select {
	case <-givenUp:
	case <-time.After(within):
		t.Error("the call is still under way")
	}
	if nodes := made.Nodes(); len(nodes) != 1 || nodes[0] != "n2" {
		t.Errorf("the nodes are %v", nodes)
	}
	if answer := <-undone; answer.Reached || answer.Volume.Trouble != "node:n1 is lost" {
		t.Errorf("the use: %+v", answer)
	}
	does(t, made, use("v", "n2", "/a"))
	if _, err := made.Lose(ctx, ""); !errors.Is(err, host.ErrInvalid) {
		t.Errorf("no node is lost: %v", err)
	}
}

// A list that leaves out nodes in use is refused, at a start too, by their names, and by what is to be done. One that was lost, or isn't in use, isn't told.
func TestNodesLeftOut(t *testing.T) {
	kept, carrier := hosttest.NewStore(), &hosttest.Carrier{}
	made := open(t, kept, carrier, quick, "n1", "n2", "n3", "n4", "n5")
	for at, node := range []string{"n1", "n2", "n3", "n5"} {
		does(t, made, create(fmt.Sprint("v", at)))
		does(t, made, use(fmt.Sprint("v", at), node, "/a"))
	}
	if _, err := made.Lose(ctx, "n3"); err != nil {
		t.Fatal(err)
	}
	const want = "a session of 1 nodes: node in use: n1, n2: list it again, or first stop all volumes there, or declare it lost"
	if _, err := made.Begin(ctx, []string{"n5"}, "a test"); !errors.Is(err, plugin.NodeInUse) || err.Error() != want {
		t.Errorf("two in use are left out: %v", err)
	}
	made.Close()
	if _, err := host.Open(ctx, host.Options{Store: kept, Nodes: []string{"n5"}, Carrier: carrier, Times: quick, Log: zap.NewNop()}); fmt.Sprint(err) != want {
		t.Errorf("at a start: %v", err)
	}
}

// Another list of nodes is a session. One that leaves out a node in use is refused, and all stays as it was.
func TestNodes(t *testing.T) {
	made := open(t, hosttest.NewStore(), &hosttest.Carrier{}, quick, "n1")
	does(t, made, create("v"))
	does(t, made, use("v", "n1", "/a"))
	if _, err := made.Begin(ctx, []string{"n2"}, "a test"); !errors.Is(err, plugin.NodeInUse) || made.Session() != 1 {
		t.Errorf("a node in use is left out: %v, session %d", err, made.Session())
	}
	if session, err := made.Begin(ctx, []string{"n1", "n2"}, "a test"); err != nil || session != 2 {
		t.Errorf("a node more: session %d, %v", session, err)
	}
	does(t, made, stop("v", "n1", "/a"))
	does(t, made, use("v", "n2", "/a"))
	does(t, made, stop("v", "n2", "/a"))
	does(t, made, remove("v"))
	if _, err := made.Do(ctx, create("v")); err != error(host.Refusal(1)) {
		t.Errorf("the name of a deleted volume: %v", err)
	}
	if _, err := made.Begin(ctx, nil, "a test"); err != nil {
		t.Error(err)
	}
	does(t, made, create("v"))
}

// Where names of deleted volumes take all room, a session begins by itself.
func TestFull(t *testing.T) {
	const rows = 4096
	made := open(t, hosttest.NewStore(), &hosttest.Carrier{}, quick)
	var group sync.WaitGroup
	for worker := 0; worker < 64; worker++ {
		group.Add(1)
		go func(worker int) {
			defer group.Done()
			for at := worker; at < rows; at += 64 {
				if answer, err := made.Do(ctx, create(fmt.Sprint("v", at))); err != nil || !answer.Reached {
					t.Errorf("v%d: %+v, %v", at, answer, err)
				}
			}
		}(worker)
	}
	group.Wait()
	if _, err := made.Do(ctx, create("w")); err != error(host.Refusal(15)) || made.Session() != 1 {
		t.Errorf("more than there is room for: %v, session %d", err, made.Session())
	}
	does(t, made, remove("v7"))
	does(t, made, create("w"))
	if made.Session() != 2 {
		t.Errorf("session %d", made.Session())
	}
	if _, isThere := made.Get("v7"); isThere {
		t.Error("the name is still taken")
	}
}

// In a quiet moment a session begins by itself, once many names of deleted volumes are there.
func TestForgets(t *testing.T) {
	made := open(t, hosttest.NewStore(), &hosttest.Carrier{}, quick)
	var group sync.WaitGroup
	for worker := 0; worker < 32; worker++ {
		group.Add(1)
		go func(worker int) {
			defer group.Done()
			for at := worker; at < 1024; at += 32 {
				name := fmt.Sprint("v", at)
				for _, command := range []host.Command{create(name), remove(name)} {
					if answer, err := made.Do(ctx, command); err != nil || !answer.Reached {
						t.Errorf("%+v: %+v, %v", command, answer, err)
					}
				}
			}
		}(worker)
	}
	group.Wait()
	soon(t, "the names are free", func() bool { _, isThere := made.Get("v0"); return !isThere && made.Session() == 2 })
}

// A thousand commands may wait; more are refused at once.
func TestBusy(t *testing.T) {
	const most = 1000 + 64 + 1 // that wait, that are asked together, and one more
	kept := hosttest.NewStore()
	made := open(t, kept, &hosttest.Carrier{}, quick)
	letGo := kept.Hold()
	var group sync.WaitGroup
	var busy, done int32
	for at := 0; at < most+50; at++ {
		group.Add(1)
		go func(at int) {
			defer group.Done()
			switch _, err := made.Do(ctx, create(fmt.Sprint("v", at))); {
			case err == nil:
				atomic.AddInt32(&done, 1)
			case errors.Is(err, host.ErrBusy):
				atomic.AddInt32(&busy, 1)
			default:
				t.Error(err)
			}
		}(at)
	}
	soon(t, "some are refused", func() bool { return atomic.LoadInt32(&busy) >= 50 })
	letGo()
	group.Wait()
	if int(busy+done) != most+50 || done < 1000 {
		t.Errorf("%d are refused, and %d done", busy, done)
	}
}

// Sessions begin by the clock, each later than the last one, also where the clock stands still or goes back.
func TestClock(t *testing.T) {
	shard, kept := newShard(t), hosttest.NewStore()
	now := time.Now().Truncate(time.Second)
	first, at := uint64(now.Unix()), now
	clock := func() time.Time { return at }
	begun := func(want uint64) {
		t.Helper()
		made, err := host.Open(ctx, host.Options{Store: kept, Nodes: []string{"n1", "n2"}, Carrier: shard, Times: quick, Log: zap.NewNop(), Clock: clock})
		if err != nil {
			t.Fatal(err)
		}
		defer made.Close()
		if session := made.Session(); session != want {
			t.Errorf("session %d, not %d", session, want)
		}
		name := fmt.Sprint("v", want)
		does(t, made, create(name))
		does(t, made, use(name, "n1", "/"+name))
		if session, err := made.Begin(ctx, nil, "a test"); err != nil || session != want+1 {
			t.Errorf("the next one is %d, %v", session, err)
		}
		does(t, made, stop(name, "n1", "/"+name))
	}
	begun(first)
	begun(first + 2)
	at = now.Add(10 * time.Second)
	begun(first + 10)
	at = now.Add(-time.Hour)
	begun(first + 12)
	at = time.Unix(-5, 0)
	begun(first + 14)
}
