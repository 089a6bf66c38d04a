package host

import (
	"context"
	"errors"
	"testing"
	"time"

	"go.uber.org/zap"

	"tufayon/service/frames"
	"tufayon/service/host/hosttest"
)

// So many callers wait until a volume is at rest, and no more; who gives up makes room, and so does one who gave up before it began to wait.
func TestWaiting(t *testing.T) {
	defer func(before int) { mostResting = before }(mostResting)
	mostResting = 4
	ctx, cancel := context.WithTimeout(context.Background(), 10*time.Second)
	defer cancel()
	carrier := &hosttest.Carrier{Answer: func(ctx context.Context, _ frames.Call, _ time.Time) (frames.Reply, error, bool) {
		<-ctx.Done()
		return frames.Reply{}, ctx.Err(), true
	}}
	made, err := Open(ctx, Options{Store: hosttest.NewStore(), Carrier: carrier, Log: zap.NewNop(), Times: Times{Patience: time.Minute, Retry: time.Minute}})
	if err != nil {
		t.Fatal(err)
	}
	defer made.Close()
	create := func(name string) Command {
		return Command{Kind: Create, Name: name, Capabilities: []frames.Capability{{Mode: 1}}}
	}
	if _, err := made.Do(ctx, create("v")); err != nil {
		t.Fatal(err)
	}
	wait, giveUp := context.WithCancel(ctx)
	gaveUp := make(chan error, mostResting)
	for at := 0; at < mostResting; at++ {
		go func() {
			_, err := made.AtRest(wait, "v")
			gaveUp <- err
		}()
	}
	for !made.waiters.areFull() && ctx.Err() == nil {
		time.Sleep(time.Millisecond)
	}
	if _, err := made.AtRest(ctx, "v"); !errors.Is(err, ErrBusy) {
		t.Errorf("one more: %v", err)
	}
	command := create("w")
	command.AtRest = true
	if _, err := made.Do(ctx, command); !errors.Is(err, ErrBusy) {
		t.Errorf("a command more: %v", err)
	}
	if _, isThere := made.Get("w"); isThere {
		t.Error("it was carried out")
	}
	giveUp()
	for at := 0; at < mostResting; at++ {
		<-gaveUp
	}
	gone := newWaiter(nil)
	made.waiters.drop("v", gone)
	made.waiters.add("v", gone)
	if len(made.waiters.of) > 0 || made.waiters.areFull() {
		t.Errorf("%d wait", len(made.waiters.of["v"]))
	}
}
