package host_test

import (
	"context"
	"errors"
	"fmt"
	"math/rand"
	"sync"
	"testing"
	"time"

	"go.uber.org/zap"

	"tufayon/service/carrying"
	"tufayon/service/host"
	"tufayon/service/host/hosttest"
	"tufayon/service/numbers"
	"tufayon/service/records"
	"tufayon/service/store"
)

// copying is a shard at work whose orchestrator's store is copied and put back.
type copying struct {
	*shard
	random *rand.Rand
	kept   *hosttest.Store // the present one
	spare  *hosttest.Store // a copy over which another service ran beside
	copies []*hosttest.Store
	made   *service

	tried, older, ends int // how many copies were put back, how many of them were found, and whether no service goes on any more
}

// A service is a host, and how many plugins have begun its session.
type service struct {
	*host.Host
	*shard
	mutex sync.Mutex
	begun map[string]bool
}

// Begin has a session begun, and notes that.
func (it *service) Begin(ctx context.Context, name string, opening numbers.Opening) error {
	err := it.shard.Begin(ctx, name, opening)
	if err == nil {
		it.mutex.Lock()
		defer it.mutex.Unlock()
		it.begun[name] = true
	}
	return err
}

// goesOn waits until all plugins have begun the service's session, or it has ended, and says whether it goes on.
func (it *service) goesOn() bool {
	it.t.Helper()
	goesOn := false
	soon(it.t, "the service goes on, or ends", func() bool {
		it.mutex.Lock()
		defer it.mutex.Unlock()
		goesOn = len(it.begun) == 3
		return goesOn || it.ended()
	})
	return goesOn && !it.ended()
}

// ended says whether it has ended, which only an older store makes it do.
func (it *service) ended() bool {
	select {
	case <-it.Host.Done():
		if !errors.Is(it.Host.Err(), store.ErrOlder) {
			it.t.Fatalf("it ended by %v", it.Host.Err())
		}
		return true
	default:
		return false
	}
}

func (it *copying) start(kept *hosttest.Store) *service {
	it.t.Helper()
	made := &service{shard: it.shard, begun: map[string]bool{}}
	options := host.Options{Store: kept, Nodes: []string{"n1", "n2"}, Carrier: made, Times: quick, Log: zap.NewNop()}
	if it.random.Intn(2) == 0 {
		options.Clock = time.Now
	}
	var err error
	if made.Host, err = host.Open(ctx, options); err != nil {
		it.t.Fatal(err)
	}
	return made
}

// work asks for something, and doesn't always wait until it is so.
func (it *copying) work(made *service, random *rand.Rand) {
	name, node, target := fmt.Sprint("v", random.Intn(4)), fmt.Sprint("n", 1+random.Intn(2)), fmt.Sprint("/", random.Intn(2))
	command := use(name, node, target)
	switch random.Intn(8) {
	case 0, 1:
		command = create(name)
	case 2, 3, 4:
		command = stop(name, node, target)
	case 5:
		command = remove(name)
	}
	limited, cancel := context.WithTimeout(ctx, time.Duration(random.Intn(20))*time.Millisecond)
	defer cancel()
	made.Host.Do(limited, command)
}

// putBack ends the service, and has one go on over a copy: if that is found to be older, over its own store.
func (it *copying) putBack() {
	it.made.Host.Close()
	copied := it.copies[it.random.Intn(len(it.copies))].Copy()
	it.tried++
	if it.made = it.start(copied); it.made.goesOn() {
		it.kept = copied
		return
	}
	it.older++
	it.made = it.start(it.kept)
}

// both has another service run over a copy for a while, beside this one.
func (it *copying) both() {
	copied := it.kept.Copy()
	other := it.start(copied)
	var group sync.WaitGroup
	for _, made := range []*service{it.made, other} {
		group.Add(1)
		go func(made *service, random *rand.Rand) {
			defer group.Done()
			for count := 0; count < 4; count++ {
				it.work(made, random)
			}
		}(made, rand.New(rand.NewSource(it.random.Int63())))
	}
	group.Wait()
	it.spare = copied
	if other.goesOn() {
		it.made.Host.Close()
		it.kept, it.spare, it.made = copied, it.kept, other
	} else {
		other.Host.Close()
	}
}

// again has a service go on over one of the two stores, where the one of before has ended, since another one began later. Where each was used beside
// the other, there may be none that goes on.
func (it *copying) again() {
	for _, kept := range []*hosttest.Store{it.kept, it.spare} {
		if it.made.ended() && kept != nil {
			if made := it.start(kept); made.goesOn() {
				it.kept, it.made = kept, made
			}
		}
	}
	if it.made.ended() {
		it.ends = 1
	}
}

// safe wants that of a volume in a mode of one node one node at most has it, and that what is staged is attached.
func (it *copying) safe() {
	it.t.Helper()
	it.still.Lock()
	defer it.still.Unlock()
	for id := uint64(1); id < 40; id++ {
		known, err := it.places[carrying.Controller].core.Known(ctx, id)
		volume, failed := records.ReadVolume(known.Row)
		if err != nil || failed != nil || len(volume.Nodes) > 1 {
			it.t.Fatalf("volume %d is attached to %v, %v, %v", id, volume.Nodes, err, failed)
		}
		for _, node := range []string{"n1", "n2"} {
			known, err := it.places[carrying.NodeName(node)].core.Known(ctx, id)
			if row, failed := records.ReadStaged(known.Row); err != nil || failed != nil || row.IsStaged && !volume.IsAt(node) {
				it.t.Fatalf("volume %d is staged at %s, and attached to %v, %v, %v", id, node, volume.Nodes, err, failed)
			}
		}
	}
}

// agrees wants that what the orchestrator says of its volumes at rest is what the plugins have.
func (it *copying) agrees() {
	it.t.Helper()
	limited, cancel := context.WithTimeout(ctx, within)
	defer cancel()
	volumes, _ := it.made.Host.List("", 100, func(host.Volume) bool { return true })
	for _, volume := range volumes {
		answer, err := it.made.Host.AtRest(limited, volume.Name)
		if err != nil {
			it.t.Fatalf("%s isn't at rest: %v, %+v, %v", volume.Name, err, volume, it.made.Host.Err())
		}
		known, _ := it.places[carrying.Controller].core.Known(ctx, answer.Volume.ID)
		has, _ := records.ReadVolume(known.Row)
		for _, node := range []string{"n1", "n2"} {
			at, _ := answer.Volume.Where(node)
			known, _ := it.places[carrying.NodeName(node)].core.Known(ctx, answer.Volume.ID)
			row, _ := records.ReadStaged(known.Row)
			if has.IsAt(node) != (at.Attached == records.Yes) || row.IsStaged != (at.Staged == records.Yes) || len(row.Targets) != len(at.Targets) {
				it.t.Fatalf("%s at %s: %+v, attached to %v, %+v", volume.Name, node, at, has.Nodes, row)
			}
		}
	}
}

// Stores that are copied at any moment, put back at any later one, and run side by side: at each moment the plugins' state is safe, and the service that
// goes on knows what they have.
func TestDrawnCopies(t *testing.T) {
	tried, older, ends, seeds := 0, 0, 0, int64(12)
	if testing.Short() {
		seeds = 4
	}
	for seed := int64(1); seed <= seeds; seed++ {
		it := &copying{shard: newShard(t), random: rand.New(rand.NewSource(seed)), kept: hosttest.NewStore()}
		it.made = it.start(it.kept)
		for step := 0; step < 60 && it.ends == 0; step++ {
			switch it.random.Intn(12) {
			case 0, 1:
				it.copies = append(it.copies, it.kept.Copy())
			case 2:
				if len(it.copies) > 0 {
					it.putBack()
				}
			case 3:
				it.both()
			default:
				it.work(it.made, it.random)
			}
			it.safe()
			it.again()
		}
		if it.ends == 0 {
			it.agrees()
		}
		it.made.Host.Close()
		tried, older, ends = tried+it.tried, older+it.older, ends+it.ends
	}
	t.Logf("%d copies were put back, %d of them found to be older; %d times no service went on", tried, older, ends)
	if older == 0 || older == tried || int64(ends) > seeds/2 {
		t.Error("that is too few, or too many")
	}
}
