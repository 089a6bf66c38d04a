package host_test

import (
	"context"
	"errors"
	"fmt"
	"strings"
	"sync"
	"testing"
	"time"

	"go.uber.org/zap"
	"google.golang.org/grpc/metadata"
	"google.golang.org/grpc/status"

	"tufayon/service/carrying"
	"tufayon/service/frames"
	"tufayon/service/host"
	"tufayon/service/host/hosttest"
	"tufayon/service/numbers"
	"tufayon/service/plugin"
	"tufayon/service/records"
	"tufayon/service/serving"
	"tufayon/service/store"
)

// A place is a plugin of the library over its store.
type place struct {
	kept *hosttest.Store
	core *serving.Core
}

// A shard is a controller and nodes, which hear calls in the same process.
type shard struct {
	t      *testing.T
	mutex  sync.Mutex
	places map[string]*place // by the plugins' names
	gone   map[string]bool   // those that nobody reaches
	isOld  bool              // they begin no sessions
	calls  []frames.Call     // that came
	still  sync.RWMutex      // held while nothing is to come
}

const shardConfig = `{"greatest":1000,"nodes":[{"id":"n1","slots":9},{"id":"n2","slots":9}]}`

func newShard(t *testing.T) *shard {
	made := &shard{t: t, places: map[string]*place{}, gone: map[string]bool{}}
	for _, name := range []string{carrying.Controller, carrying.NodeName("n1"), carrying.NodeName("n2")} {
		made.put(name, hosttest.NewStore(), 0)
	}
	return made
}

// put has a plugin served over a store, in place of the one that was.
func (shard *shard) put(name string, kept *hosttest.Store, session uint64) {
	shard.t.Helper()
	maker := plugin.Maker{Name: []byte(strings.TrimPrefix(name, carrying.NodeName(""))), Session: session}
	if name == carrying.Controller {
		maker = plugin.Maker{IsController: true, Name: []byte(shardConfig)}
	}
	shard.mutex.Lock()
	defer shard.mutex.Unlock()
	if before := shard.places[name]; before != nil {
		before.core.Close()
	}
	core, err := serving.Open(ctx, serving.Config{
		Store:     kept,
		Numbering: func(uint64) (numbers.Source, error) { return numbers.Metadata{MostAbove: 1000}, nil },
		Make: func(record []byte) (serving.Plugin, bool, error) {
			made, renewed, err := maker.Make(record)
			if err != nil {
				return nil, false, err
			}
			return made, renewed, nil
		},
	})
	if err != nil {
		shard.t.Fatal(err)
	}
	shard.t.Cleanup(core.Close)
	shard.places[name] = &place{kept, core}
}

var errGone = errors.New("it is gone")

func (shard *shard) at(name string) (*serving.Core, error) {
	shard.mutex.Lock()
	defer shard.mutex.Unlock()
	if shard.gone[name] {
		return nil, errGone
	}
	return shard.places[name].core, nil
}

// Carry has a call answered.
func (shard *shard) Carry(ctx context.Context, call frames.Call, _ time.Time) (frames.Reply, error) {
	shard.still.RLock()
	defer shard.still.RUnlock()
	core, err := shard.at(carrying.PluginOf(call))
	if err != nil {
		return frames.Reply{}, err
	}
	shard.mutex.Lock()
	shard.calls = append(shard.calls, call)
	shard.mutex.Unlock()
	numbered := metadata.NewIncomingContext(ctx, metadata.Pairs(numbers.Key, numbers.Text(call.Number)))
	answer, err := core.Carry(numbered, serving.Request{Node: call.Node, Body: call.Body})
	return answer.Reply, err
}

// Begin has a session begun.
func (shard *shard) Begin(ctx context.Context, name string, opening numbers.Opening) error {
	core, err := shard.at(name)
	if shard.isOld {
		return carrying.ErrNone
	}
	if err == nil {
		_, err = core.Begin(ctx, opening)
	}
	switch status.Convert(err).Message() {
	case "later":
		return carrying.ErrLater
	case "earlier":
		return carrying.ErrEarlier
	}
	return err
}

// count is how many calls came.
func (shard *shard) count() int {
	shard.mutex.Lock()
	defer shard.mutex.Unlock()
	return len(shard.calls)
}

// serveShard opens an orchestrator over a store.
func serveShard(shard *shard, kept store.Store) *host.Host {
	shard.t.Helper()
	return open(shard.t, kept, shard, quick, "n1", "n2")
}

// ends waits until a host has ended, and gives why; or until it has used the volume w, which shows that it goes on: then it gives nothing.
func ends(t *testing.T, made *host.Host) error {
	t.Helper()
	limited, cancel := context.WithTimeout(ctx, within)
	defer cancel()
	if _, err := made.Do(limited, create("w")); err == nil {
		return nil
	}
	select {
	case <-made.Done():
		return made.Err()
	case <-limited.Done():
		return errors.New("it waits")
	}
}

// A service over an older copy of its store ends before it sends anything, if anything was sent and heard since; else it goes on.
func TestOlderCopies(t *testing.T) {
	life := []host.Command{create("v"), use("v", "n1", "/a"), stop("v", "n1", "/a"), use("v", "n2", "/b"), stop("v", "n2", "/b"), remove("v"), create("u")}
	for at := 0; at <= len(life); at++ {
		for _, restarts := range []int{0, 1, 2} {
			t.Run(fmt.Sprint(at, " ", restarts), func(t *testing.T) {
				shard, kept := newShard(t), hosttest.NewStore()
				made := serveShard(shard, kept)
				for _, command := range life[:at] {
					does(t, made, command)
				}
				older := kept.Copy()
				for _, command := range life[at:] {
					does(t, made, command)
				}
				for count := 0; count < restarts; count++ {
					made.Close()
					made = serveShard(shard, kept)
					does(t, made, use("u", "n1", "/c"))
					does(t, made, stop("u", "n1", "/c"))
				}
				made.Close()
				came := shard.count()
				isOlder := at < len(life) || restarts > 0
				for again := 0; again < 4; again++ { // sessions that it begins don't let it in
					err := ends(t, serveShard(shard, older))
					if isOlder != errors.Is(err, store.ErrOlder) || isOlder && shard.count() != came {
						t.Fatalf("it ended by %v, and sent %d calls", err, shard.count()-came)
					}
					if !isOlder {
						break
					}
				}
			})
		}
	}
}

// Of two services over copies of one store at once, one at most goes on; and what it says is so.
func TestCopiesAtOnce(t *testing.T) {
	for seed := 0; seed < 10; seed++ {
		shard, kept := newShard(t), hosttest.NewStore()
		made := serveShard(shard, kept)
		does(t, made, create("v"))
		made.Close()
		var group sync.WaitGroup
		ended := make([]error, 2)
		for at, its := range []*hosttest.Store{kept, kept.Copy()} {
			group.Add(1)
			go func(at int, its *hosttest.Store) {
				defer group.Done()
				made, err := host.Open(ctx, host.Options{Store: its, Nodes: []string{"n1", "n2"}, Carrier: shard, Times: quick, Log: zap.NewNop()})
				if err != nil {
					t.Error(err)
					return
				}
				defer made.Close()
				limited, cancel := context.WithTimeout(ctx, 300*time.Millisecond)
				defer cancel()
				node := fmt.Sprint("n", 1+at)
				answer, err := made.Do(limited, use("v", node, "/a"))
				if ended[at] = err; err == nil && !answer.Reached {
					ended[at] = errors.New(answer.Volume.Trouble)
				}
			}(at, its)
		}
		group.Wait()
		if ended[0] == nil && ended[1] == nil {
			t.Error("both used it")
		}
		known, err := shard.places[carrying.Controller].core.Known(ctx, 1)
		volume, _ := records.ReadVolume(known.Row)
		if err != nil || len(volume.Nodes) > 1 {
			t.Errorf("it is attached to %v, %v", volume.Nodes, err)
		}
	}
}

// A plugin over an older copy of its store isn't used, and that is told; the others go on. Over its own store it is used again.
func TestPluginSetBack(t *testing.T) {
	shard, kept := newShard(t), hosttest.NewStore()
	made := serveShard(shard, kept)
	n1 := carrying.NodeName("n1")
	does(t, made, create("v"))
	older := shard.places[n1].kept.Copy()
	does(t, made, use("v", "n1", "/a"))
	present := shard.places[n1].kept
	made.Close()
	shard.put(n1, older, 0)
	made = serveShard(shard, kept)
	soon(t, "it is told", func() bool { return strings.Contains(made.Trouble(n1), carrying.ErrEarlier.Error()) })
	came := shard.count()
	limited, cancel := context.WithTimeout(ctx, 100*time.Millisecond)
	defer cancel()
	if _, err := made.Do(limited, stop("v", "n1", "/a")); !errors.Is(err, context.DeadlineExceeded) {
		t.Errorf("a stop there: %v", err)
	}
	if shard.count() != came {
		t.Errorf("%d calls", shard.count()-came)
	}
	does(t, made, create("w"))
	does(t, made, use("w", "n2", "/a"))
	shard.put(n1, present, 0)
	if _, err := made.AtRest(ctx, "v"); err != nil || made.Trouble(n1) != "" {
		t.Errorf("with its store: %v, %s", err, made.Trouble(n1))
	}
	does(t, made, use("v", "n2", "/a"))
}

// A node that was set back together with the orchestrator hears nothing of it: the controller is asked first, and says that the orchestrator's store is older.
func TestNodeSetBackWithIt(t *testing.T) {
	shard, kept := newShard(t), hosttest.NewStore()
	made := serveShard(shard, kept)
	n1 := carrying.NodeName("n1")
	does(t, made, create("v"))
	does(t, made, use("v", "n1", "/a"))
	older, itsOlder := kept.Copy(), shard.places[n1].kept.Copy()
	does(t, made, stop("v", "n1", "/a"))
	does(t, made, use("v", "n2", "/a"))
	made.Close()
	shard.put(n1, itsOlder, 0)
	begun := itsOlder.Side("begun")
	is := func(name string, isGone bool) {
		shard.mutex.Lock()
		defer shard.mutex.Unlock()
		shard.gone[name] = isGone
	}
	is(carrying.Controller, true)
	made = serveShard(shard, older)
	soon(t, "the controller isn't reached", func() bool { return made.Trouble(carrying.Controller) != "" && made.Trouble(n1) != "" })
	time.Sleep(20 * quick.Retry)
	if _, isKnown := made.Heard(n1); isKnown || itsOlder.Side("begun") != begun {
		t.Errorf("the node is told of it: %v, %s", isKnown, itsOlder.Side("begun"))
	}
	is(carrying.Controller, false)
	if err := ends(t, made); !errors.Is(err, store.ErrOlder) {
		t.Errorf("it ended by %v", err)
	}
	if _, isKnown := made.Heard(n1); isKnown || itsOlder.Side("begun") != begun {
		t.Errorf("the node was told of it: %v, %s", isKnown, itsOlder.Side("begun"))
	}
	made = serveShard(shard, kept)
	soon(t, "with its own store the node is told", func() bool { _, isKnown := made.Heard(n1); return isKnown })
}

// A node that was lost isn't used when it comes back, and another one under its id is, which joins with the session of the loss.
func TestLostComesBack(t *testing.T) {
	shard, kept := newShard(t), hosttest.NewStore()
	made := serveShard(shard, kept)
	n1 := carrying.NodeName("n1")
	does(t, made, create("v"))
	does(t, made, use("v", "n1", "/a"))
	session, err := made.Lose(ctx, "n1")
	if err != nil {
		t.Fatal(err)
	}
	for turn := 0; turn < 2; turn++ { // also after a restart
		if _, err := made.Begin(ctx, []string{"n1", "n2"}, "it is listed again"); err != nil {
			t.Fatal(err)
		}
		soon(t, "it is told", func() bool { return strings.Contains(made.Trouble(n1), carrying.ErrEarlier.Error()) })
		made.Close()
		made = serveShard(shard, kept)
	}
	shard.put(n1, hosttest.NewStore(), session)
	does(t, made, stop("v", "n1", "/a"))
	does(t, made, use("v", "n1", "/b"))
	made.Close()
	made = serveShard(shard, kept)
	does(t, made, stop("v", "n1", "/b"))
}

// A copy of before a loss is found, also where nothing was sent since but the session's beginning.
func TestCopyOfBeforeLoss(t *testing.T) {
	shard, kept := newShard(t), hosttest.NewStore()
	made := serveShard(shard, kept)
	does(t, made, create("v"))
	older := kept.Copy()
	if _, err := made.Lose(ctx, "n1"); err != nil {
		t.Fatal(err)
	}
	controller := shard.places[carrying.Controller].kept
	soon(t, "the controller has begun the session", func() bool { return strings.Contains(controller.Side("begun"), `"session":2`) })
	made.Close()
	for again := 0; again < 3; again++ {
		if err := ends(t, serveShard(shard, older)); !errors.Is(err, store.ErrOlder) {
			t.Errorf("it ended by %v", err)
		}
	}
}

// A record of a time at which nothing was kept beside it is taken as it is, once, and plugins that begin no sessions are used as they were.
func TestRecordOfBefore(t *testing.T) {
	shard, kept := newShard(t), hosttest.NewStore()
	shard.isOld = true
	made := serveShard(shard, kept)
	does(t, made, create("v"))
	does(t, made, use("v", "n1", "/a"))
	made.Close()
	kept.ForgetSides()
	shard.isOld = false
	older := kept.Copy()
	made = serveShard(shard, kept)
	does(t, made, stop("v", "n1", "/a"))
	made.Close()
	made = serveShard(shard, kept)
	does(t, made, remove("v"))
	made.Close()
	if err := ends(t, serveShard(shard, older)); !errors.Is(err, store.ErrOlder) {
		t.Errorf("a copy of before: %v", err)
	}
}

// One that another has overtaken ends by that, or, over a copy, since a plugin finds its open call stale: nothing is committed of it.
func TestOvertaken(t *testing.T) {
	for _, fault := range []error{nil, store.ErrLost} {
		kept := hosttest.NewStore()
		carrier := &hosttest.Carrier{Answer: func(_ context.Context, call frames.Call, _ time.Time) (frames.Reply, error, bool) {
			if call.Kind() == frames.NodeStageVolumeKind {
				kept.Fail(fault)
				return hosttest.Refused(call, 10, "stale"), nil, true
			}
			return frames.Reply{}, nil, false
		}}
		made := open(t, kept, carrier, quick, "n1")
		does(t, made, create("v"))
		made.Do(ctx, use("v", "n1", "/a"))
		<-made.Done()
		want := fault
		if want == nil {
			want = store.ErrOlder
		}
		if !errors.Is(made.Err(), want) {
			t.Errorf("it ended by %v, not %v", made.Err(), want)
		}
		if volume, _ := made.Get("v"); volume.Goal != records.ToUse {
			t.Errorf("of the volume it has %+v", volume.Row)
		}
	}
}
