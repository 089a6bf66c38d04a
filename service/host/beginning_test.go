package host_test

import (
	"context"
	"strings"
	"testing"
	"time"

	"tufayon/service/carrying"
	"tufayon/service/frames"
	"tufayon/service/host"
	"tufayon/service/host/hosttest"
	"tufayon/service/numbers"
	"tufayon/service/records"
)

// Before a plugin has begun the session nothing is sent to it, and nothing about its node to the controller; before the controller has, nothing at all.
func TestGates(t *testing.T) {
	for _, late := range []string{carrying.Controller, carrying.NodeName("n1")} {
		begins := make(chan struct{})
		carrier := &hosttest.Carrier{Opens: func(ctx context.Context, plugin string, _ numbers.Opening) error {
			if plugin == late {
				select {
				case <-begins:
				case <-ctx.Done():
				}
			}
			return ctx.Err()
		}}
		made := open(t, hosttest.NewStore(), carrier, quick, "n1", "n2")
		ask := func(commands ...host.Command) {
			t.Helper()
			for _, command := range commands {
				if late == carrying.Controller {
					command.AtRest = false
				}
				does(t, made, command)
			}
		}
		ask(create("v"), create("w"))
		if late != carrying.Controller {
			ask(use("w", "n2", "/a"))
			waits := use("v", "n1", "/a")
			waits.AtRest = false
			ask(waits)
		}
		time.Sleep(20 * time.Millisecond)
		for _, call := range carrier.Calls() {
			attach, isAttach := call.Body.(frames.ControllerPublishVolume)
			if late == carrying.Controller || call.Node == "n1" || isAttach && attach.Node == "n1" {
				t.Errorf("%s hasn't begun the session, and %+v was sent", late, call)
			}
		}
		close(begins)
		for _, name := range []string{"v", "w"} {
			if _, err := made.AtRest(ctx, name); err != nil {
				t.Error(err)
			}
		}
	}
}

// A plugin that is gone when a session begins holds up nobody else; what a use wants of it is given up once its time is over, and else goes on later.
func TestGoneAtBeginning(t *testing.T) {
	shard, kept := newShard(t), hosttest.NewStore()
	made := serveShard(shard, kept)
	does(t, made, create("v"))
	does(t, made, create("w"))
	made.Close()
	shard.mutex.Lock()
	shard.gone[carrying.NodeName("n1")] = true
	shard.mutex.Unlock()
	times := quick
	times.Patience = 50 * time.Millisecond
	made = open(t, kept, shard, times, "n1", "n2")
	command := use("v", "n1", "/a")
	command.AtRest = false
	does(t, made, command)
	soon(t, "it is given up", func() bool {
		volume, _ := made.Get("v")
		return volume.Goal == records.ToStop && strings.Contains(volume.Trouble, "it hasn't begun session 2")
	})
	does(t, made, use("w", "n2", "/a"))
	shard.mutex.Lock()
	shard.gone = map[string]bool{}
	shard.mutex.Unlock()
	if answer, err := made.AtRest(ctx, "v"); err != nil || len(answer.Volume.At) != 0 {
		t.Errorf("once it is there: %+v, %v", answer, err)
	}
}

// Why a plugin didn't begin an earlier session isn't told of the present one, for which it isn't reached.
func TestTroubleOfBefore(t *testing.T) {
	node := carrying.NodeName("n1")
	carrier := &hosttest.Carrier{Opens: func(ctx context.Context, plugin string, opening numbers.Opening) error {
		switch {
		case plugin != node:
			return nil
		case opening.Session == 1:
			return carrying.ErrEarlier
		}
		<-ctx.Done()
		return ctx.Err()
	}}
	made := open(t, hosttest.NewStore(), carrier, quick, "n1")
	soon(t, "it is told", func() bool { return made.Trouble(node) == carrying.ErrEarlier.Error() })
	if _, err := made.Begin(ctx, nil, "a test"); err != nil {
		t.Fatal(err)
	}
	if trouble := made.Trouble(node); trouble != "" {
		t.Errorf("in the next session: %s", trouble)
	}
}
