package host_test

import (
	"context"
	"errors"
	"fmt"
	"sync/atomic"
	"testing"
	"time"

	"tufayon/service/carrying"
	"tufayon/service/frames"
	"tufayon/service/host"
	"tufayon/service/host/hosttest"
	"tufayon/service/records"
	"tufayon/service/store"
)

// Calls that get no reply are tried again: of a use twice, and then it is undone, but not before the patience is over.
func TestPatience(t *testing.T) {
	const patience = 300 * time.Millisecond
	var down, tries int32 = 1, 0
	carrier := &hosttest.Carrier{Answer: func(_ context.Context, call frames.Call, until time.Time) (frames.Reply, error, bool) {
		isUse := call.Kind() == frames.ControllerPublishVolumeKind || call.Kind() == frames.NodeStageVolumeKind || call.Kind() == frames.NodePublishVolumeKind
		if left := time.Until(until); isUse == until.IsZero() || isUse && left > patience {
			t.Errorf("%v is to be reached within %v", call.Kind(), left)
		} else if isUse && atomic.CompareAndSwapInt32(&tries, 0, 1) && left < patience/10 {
			t.Errorf("the first %v is to be reached within %v", call.Kind(), left)
		}
		return frames.Reply{}, errors.New("nobody is there"), atomic.LoadInt32(&down) == 1
	}}
	made := open(t, hosttest.NewStore(), carrier, host.Times{Patience: patience, Retry: time.Millisecond, MostRetry: 5 * time.Millisecond}, "n1")
	began := make(chan host.Answer, 1)
	go func() {
		answer, _ := made.Do(ctx, create("v"))
		began <- answer
	}()
	soon(t, "more than ten tries of a create", func() bool { return len(carrier.Calls()) > 10 })
	if volume, _ := made.Get("v"); volume.Trouble != "controller: nobody is there" {
		t.Errorf("the trouble is %q", volume.Trouble)
	}
	atomic.StoreInt32(&down, 0)
	if answer := <-began; !answer.Reached {
		t.Errorf("created: %+v", answer)
	}
	atomic.StoreInt32(&down, 1)
	tried, before := time.Now(), len(carrier.Calls())
	undone := make(chan host.Answer, 1)
	go func() {
		answer, _ := made.Do(ctx, use("v", "n1", "/a"))
		undone <- answer
	}()
	soon(t, "the use is given up", func() bool { volume, _ := made.Get("v"); return volume.Goal == records.ToStop })
	if took := time.Since(tried); took < patience {
		t.Errorf("it was given up after %v", took)
	}
	for _, call := range carrier.Calls()[before : before+3] {
		if call.Kind() != frames.ControllerPublishVolumeKind {
			t.Errorf("a try is a %v", call.Kind())
		}
	}
	atomic.StoreInt32(&down, 0)
	if answer := <-undone; answer.Reached || answer.Volume.Goal != records.None || len(answer.Volume.At) != 0 || answer.Volume.Trouble != "controller: nobody is there" {
		t.Errorf("undone: %+v", answer)
	}
}

// What a plugin's driver refuses is tried three times, without patience.
func TestDriverRefuses(t *testing.T) {
	carrier := &hosttest.Carrier{Answer: func(_ context.Context, call frames.Call, _ time.Time) (frames.Reply, error, bool) {
		return frames.Reply{}, fmt.Errorf("%w: no device", carrying.ErrRefused), call.Kind() == frames.NodeStageVolumeKind
	}}
	made := open(t, hosttest.NewStore(), carrier, quick, "n1")
	does(t, made, create("v"))
	answer, err := made.Do(ctx, use("v", "n1", "/a"))
	if err != nil || answer.Reached || answer.Volume.Trouble != "node:n1: its driver refuses: no device" {
		t.Errorf("%+v, %v", answer, err)
	}
	if count := len(carrier.Calls()); count < 5 || count > 7 { // create, attach, stage three times, and what undoes them
		t.Errorf("%d calls", count)
	}
}

// A plugin's refusal undoes a use, and its words are told; a refusal for want of room alone is tried once more.
func TestRefused(t *testing.T) {
	var refusing, times int32 = 1, 0
	carrier := &hosttest.Carrier{}
	carrier.Answer = func(_ context.Context, call frames.Call, _ time.Time) (frames.Reply, error, bool) {
		if call.Kind() != frames.NodeStageVolumeKind || atomic.AddInt32(&times, 1) > atomic.LoadInt32(&refusing) {
			return frames.Reply{}, nil, false
		}
		return hosttest.Refused(call, 8, "rows"), nil, true
	}
	made := open(t, hosttest.NewStore(), carrier, host.Times{Patience: 50 * time.Millisecond, Retry: time.Millisecond, MostRetry: 5 * time.Millisecond}, "n1")
	does(t, made, create("v"))
	does(t, made, use("v", "n1", "/a"))
	does(t, made, stop("v", "n1", "/a"))
	atomic.StoreInt32(&refusing, 1000)
	answer, err := made.Do(ctx, use("v", "n1", "/a"))
	if err != nil || answer.Reached || answer.Volume.Trouble != "node:n1 refused: 8 rows" {
		t.Errorf("refused twice: %+v, %v", answer, err)
	}
}

// What was wanted when a process ended goes on in the next one's session; a commit that fails ends the service, and nothing of it is sent or answered.
func TestRestart(t *testing.T) {
	kept := hosttest.NewStore()
	stuck := &hosttest.Carrier{Answer: func(ctx context.Context, call frames.Call, _ time.Time) (frames.Reply, error, bool) {
		if call.Kind() == frames.CreateVolumeKind {
			return frames.Reply{}, nil, false
		}
		<-ctx.Done()
		return frames.Reply{}, ctx.Err(), true
	}}
	first := open(t, kept, stuck, quick, "n1")
	does(t, first, create("v"))
	command := use("v", "n1", "/a")
	command.AtRest = false
	does(t, first, command)
	waits := make(chan error, 1)
	go func() {
		_, err := first.AtRest(ctx, "v")
		waits <- err
	}()
	soon(t, "the call is made", func() bool { return len(stuck.Calls()) == 2 })
	kept.Fail(store.ErrDevice)
	if _, err := first.Do(ctx, create("w")); !errors.Is(err, host.ErrEnded) {
		t.Errorf("a commit that fails: %v", err)
	}
	<-first.Done()
	if !errors.Is(first.Err(), store.ErrDevice) || len(stuck.Calls()) != 2 {
		t.Errorf("it ended by %v, after %d calls", first.Err(), len(stuck.Calls()))
	}
	if err := <-waits; !errors.Is(err, host.ErrEnded) {
		t.Errorf("who waited: %v", err)
	}
	kept.Fail(nil)
	carrier := &hosttest.Carrier{}
	second := open(t, kept, carrier, quick, "n1")
	answer, err := second.AtRest(ctx, "v")
	if err != nil || answer.Volume.PublishedAt("n1", "/a") != records.Yes || second.Session() != 2 {
		t.Errorf("in session %d: %+v, %v", second.Session(), answer.Volume.Row, err)
	}
	if _, isThere := second.Get("w"); isThere {
		t.Error("what wasn't committed is there")
	}
	kept.Lose()
	<-second.Done()
	if !errors.Is(second.Err(), store.ErrLost) {
		t.Errorf("it ended by %v", second.Err())
	}
}

// A session's commit is told as under way, as any other one is: so one that takes too long is found.
func TestSessionUnderWay(t *testing.T) {
	kept := hosttest.NewStore()
	made := open(t, kept, &hosttest.Carrier{}, quick)
	does(t, made, create("v")) // by now the controller's beginning is committed too
	begun := make(chan error, 1)
	func() {
		defer kept.Hold()()
		go func() {
			_, err := made.Begin(ctx, nil, "a test")
			begun <- err
		}()
		soon(t, "it is under way", func() bool { return made.Counts().Committing > 0 })
	}()
	if err := <-begun; err != nil {
		t.Error(err)
	}
	soon(t, "it is over", func() bool { return made.Counts().Committing == 0 })
}
