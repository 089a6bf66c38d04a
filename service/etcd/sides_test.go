package etcd

import (
	"context"
	"errors"
	"fmt"
	"strings"
	"testing"
	"time"

	"tufayon/service/store"
)

// Sides are there with the commit that puts them, small or large, and not with one of who leads no more.
func TestSides(t *testing.T) {
	ctx, config := context.Background(), server(t)
	kept := open(t, config)
	has := func(want string) {
		t.Helper()
		sides, err := kept.Sides(ctx)
		if got := fmt.Sprintf("%s", sides); err != nil || got != want {
			t.Errorf("the sides are %s, %v, not %s", got, err, want)
		}
	}
	put := func(to *leading, value string, size int) error {
		changes := []store.Change{{Key: 1, Value: []byte(strings.Repeat("v", size))}, {Key: 2, Value: []byte(strings.Repeat("w", size))}}
		return to.CommitWith(ctx, []store.Side{{Name: "plugin/node:n 1", Value: []byte(value)}, {Name: value, Value: nil}}, changes)
	}
	has("map[]")
	if err := put(kept, "small", 1); err != nil {
		t.Fatal(err)
	}
	has("map[plugin/node:n 1:small small:]")
	if err := put(kept, "large", 900_000); err != nil {
		t.Fatal(err)
	}
	has("map[large: plugin/node:n 1:large small:]")
	if err := kept.CommitWith(ctx, []store.Side{{Name: "alone", Value: []byte("1")}}, nil); err != nil {
		t.Fatal(err)
	}
	has("map[alone:1 large: plugin/node:n 1:large small:]")
	if err := kept.CommitBoth(ctx, nil, nil, []store.Side{{Name: "alone", Out: true}, {Name: "none", Out: true}, {Name: "alone2", Value: []byte("2"), First: true}}); err != nil {
		t.Fatal(err)
	}
	has("map[alone2:2 large: plugin/node:n 1:large small:]")
	if err := kept.CommitWith(ctx, []store.Side{{Name: "alone2", Out: true}, {Name: "alone", Value: []byte("1")}}, nil); err != nil {
		t.Fatal(err)
	}
	has("map[alone:1 large: plugin/node:n 1:large small:]")
	old := kept
	if _, err := old.client.Revoke(ctx, old.session.Lease()); err != nil {
		t.Fatal(err)
	}
	kept = open(t, config)
	if err := put(old, "late", 1); !errors.Is(err, store.ErrLost) && !errors.Is(err, store.ErrUnknown) {
		t.Errorf("the old one commits: %v", err)
	}
	has("map[alone:1 large: plugin/node:n 1:large small:]")
	old.Close()
	kept.Close()
}

// Who leads is found by what it says of itself, and nobody once it ends.
func TestFinder(t *testing.T) {
	ctx, config := context.Background(), server(t)
	finder, err := config.Finder()
	if err != nil {
		t.Fatal(err)
	}
	defer finder.Close()
	wants := func(want string) {
		t.Helper()
		for end := time.Now().Add(10 * time.Second); ; time.Sleep(10 * time.Millisecond) {
			said := finder.Leader(ctx)
			if said == want {
				return
			}
			if time.Now().After(end) {
				t.Fatalf("%q leads, not %q", said, want)
			}
		}
	}
	config.Says = "first:1"
	first := open(t, config)
	wants("first:1")
	config.Says = "second:2"
	waited := make(chan *leading)
	go func() {
		kept, err := config.Open(ctx)
		if err != nil {
			t.Error(err)
		}
		waited <- kept.(*leading)
	}()
	time.Sleep(time.Second)
	wants("first:1")
	first.Close()
	second := <-waited
	wants("second:2")
	time.Sleep(findAgain)
	gone, giveUp := context.WithCancel(ctx)
	giveUp()
	finder.Leader(gone)
	if said := finder.Leader(ctx); said != "second:2" {
		t.Errorf("%q leads, behind a caller that gave up", said)
	}
	second.Close()
	wants("")
}
