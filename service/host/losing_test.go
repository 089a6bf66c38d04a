package host

import (
	"context"
	"errors"
	"sync"
	"testing"
	"time"

	"go.uber.org/zap"

	"tufayon/service/carrying"
	"tufayon/service/frames"
	"tufayon/service/host/hosttest"
	"tufayon/service/plugin"
	"tufayon/service/records"
	"tufayon/service/store"
)

// forgetful is a library that finds no memory to tell what changed.
type forgetful struct{ library }

func (forgetful) Changes() ([]store.Change, error) { return nil, plugin.NoMemory }

// forgetting puts it in place of the one that there is.
type forgetting struct{}

func (forgetting) alone() bool { return true }

func (forgetting) ask(host *Host, _ *work) error {
	host.core.library = forgetful{host.core.library}
	return nil
}

// Where it can't be told what a loss changed, the host ends: the library has lost the node, and the record hasn't.
func TestLossUntold(t *testing.T) {
	ctx, cancel := context.WithTimeout(context.Background(), 10*time.Second)
	defer cancel()
	options := Options{Store: hosttest.NewStore(), Nodes: []string{"n1"}, Carrier: &hosttest.Carrier{}, Log: zap.NewNop()}
	host, err := Open(ctx, options)
	if err != nil {
		t.Fatal(err)
	}
	defer host.Close()
	block := frames.Capability{Mode: 1}
	for _, it := range []Command{
		{Kind: Create, Name: "v", Required: 10, Capabilities: []frames.Capability{block}, AtRest: true},
		{Kind: Use, Name: "v", Node: "n1", Target: "/a", Capability: block, AtRest: true},
	} {
		if answer, err := host.Do(ctx, it); err != nil || !answer.Reached {
			t.Fatalf("%+v, %v", answer, err)
		}
	}
	host.tell(forgetting{})
	if _, err := host.Lose(ctx, "n1"); !errors.Is(err, ErrEnded) {
		t.Errorf("the loss: %v", err)
	}
	<-host.Done()
	if !errors.Is(host.Err(), plugin.NoMemory) {
		t.Errorf("it ended by %v", host.Err())
	}
	again, err := Open(ctx, options)
	if err != nil {
		t.Fatal(err)
	}
	defer again.Close()
	if volume, _ := again.Get("v"); volume.PublishedAt("n1", "/a") != records.Yes {
		t.Errorf("then it has %+v", volume.Row)
	}
}

// firsts notes of each side whether it was put before the record last.
type firsts struct {
	*hosttest.Store
	mutex sync.Mutex
	first map[string]bool
}

func (it *firsts) CommitWith(ctx context.Context, sides []store.Side, changes []store.Change) error {
	it.mutex.Lock()
	for _, side := range sides {
		it.first[side.Name] = side.First
	}
	it.mutex.Unlock()
	return it.Store.CommitWith(ctx, sides, changes)
}

// That a lost node has to be new, and when nodes were lost, is kept before the record has the loss.
func TestLossComesFirst(t *testing.T) {
	ctx, kept := context.Background(), &firsts{Store: hosttest.NewStore(), first: map[string]bool{}}
	host, err := Open(ctx, Options{Store: kept, Nodes: []string{"n1", "n2"}, Carrier: &hosttest.Carrier{}, Log: zap.NewNop()})
	if err != nil {
		t.Fatal(err)
	}
	defer host.Close()
	if _, err := host.Lose(ctx, "n1"); err != nil {
		t.Fatal(err)
	}
	kept.mutex.Lock()
	defer kept.mutex.Unlock()
	if name := pluginName + carrying.NodeName("n1"); !kept.first[name] || !kept.first[listName] || kept.first[pluginName+carrying.NodeName("n2")] {
		t.Errorf("%v", kept.first)
	}
}
