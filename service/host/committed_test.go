package host

import (
	"context"
	"errors"
	"testing"
	"time"

	"go.uber.org/zap"

	"tufayon/service/frames"
	"tufayon/service/host/hosttest"
)

// commits counts commits, and those that failed.
type commits struct{ made, failed int }

func (it *commits) Happened([]Happening) {}

func (it *commits) Called(frames.Call, frames.Reply, error, time.Duration) {}

func (it *commits) Committed(_ time.Duration, err error) {
	if it.made++; err != nil {
		it.failed++
	}
}

// Each commit is told, that with which a session begins too, at the start and later.
func TestCommitted(t *testing.T) {
	ctx, kept, told := context.Background(), hosttest.NewStore(), &commits{}
	options := Options{Store: kept, Nodes: []string{"n1"}, Carrier: &hosttest.Carrier{}, Log: zap.NewNop(), Observers: []Observer{told}}
	host, err := Open(ctx, options)
	if err != nil {
		t.Fatal(err)
	}
	if _, err := host.Begin(ctx, nil, "a test"); err != nil {
		t.Fatal(err)
	}
	host.Close()
	if told.made != kept.Commits() || told.made < 2 || told.failed > 0 {
		t.Errorf("of %d commits %d are told, %d as failed", kept.Commits(), told.made, told.failed)
	}
	kept.Fail(errors.New("it fails"))
	if _, err := Open(ctx, options); err == nil || told.failed != 1 {
		t.Errorf("opened: %v, %d failed", err, told.failed)
	}
}
