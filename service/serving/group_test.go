package serving

import (
	"context"
	"sync"
	"testing"
	"time"

	"google.golang.org/grpc/codes"
	"google.golang.org/grpc/status"

	"tufayon/service/store"
)

// heldUp begins a commit that waits, and has so many more calls wait behind it.
func heldUp(t *testing.T, core *Core, kept *memory, count int) (ended []<-chan error, goOn func()) {
	t.Helper()
	hold := make(chan struct{})
	kept.mutex.Lock()
	kept.hold = hold
	kept.mutex.Unlock()
	for at := 0; at <= count; at++ {
		ended = append(ended, carry(core, numbered(1, uint64(at+1)), stage(uint64(at+1))))
		if at == 0 {
			time.Sleep(20 * time.Millisecond) // it is in the commit by then
		}
	}
	time.Sleep(20 * time.Millisecond)
	return ended, func() {
		kept.mutex.Lock()
		kept.hold = nil
		kept.mutex.Unlock()
		close(hold)
	}
}

// What waits is committed together, 64 at a time, and none is told before.
func TestGroup(t *testing.T) {
	kept := newMemory()
	core := open(t, kept, 1000, &faults{})
	before := kept.count()
	ended, goOn := heldUp(t, core, kept, 128)
	for at, it := range ended {
		select {
		case err := <-it:
			t.Errorf("call %d is answered before its commit: %v", at, err)
		default:
		}
	}
	goOn()
	for _, it := range ended {
		wantsError(t, it, codes.OK)
	}
	if commits := kept.count() - before; commits != 3 {
		t.Errorf("%d commits", commits)
	}
	for volume := uint64(1); volume <= 129; volume++ {
		if !kept.has(volume) {
			t.Errorf("volume %d isn't there", volume)
		}
	}
}

// A refused commit ends all: nobody of the group is replied, and the next process goes on from the store.
func TestGroupRefused(t *testing.T) {
	kept := newMemory()
	core := open(t, kept, 1000, &faults{})
	ended, goOn := heldUp(t, core, kept, 10)
	kept.mutex.Lock()
	before := len(kept.parts)
	kept.fault = store.ErrDevice
	kept.mutex.Unlock()
	goOn()
	for _, it := range ended {
		wantsError(t, it, codes.Unavailable)
	}
	<-core.Done()
	kept.fault = nil
	if len(kept.parts) != before {
		t.Errorf("the store has %d parts", len(kept.parts))
	}
	wants(t, open(t, kept, 1000, &faults{}), numbered(1, 1), stage(1), codes.OK)
}

// A call that is refused memory changes nothing; those of its group are carried out.
func TestMemory(t *testing.T) {
	for name, fault := range map[string]func(*faults){
		"the reply":   func(faults *faults) { faults.answer = store.ErrMemory },
		"the changes": func(faults *faults) { faults.changes = store.ErrMemory },
	} {
		faults, kept := &faults{}, newMemory()
		core := open(t, kept, 1000, faults)
		ended, goOn := heldUp(t, core, kept, 10)
		faults.mutex.Lock()
		fault(faults)
		faults.mutex.Unlock()
		goOn()
		refused := 0
		for at, it := range ended {
			err := <-it
			if status.Code(err) == codes.ResourceExhausted && status.Convert(err).Message() == "memory" {
				refused++
			} else if err != nil {
				t.Errorf("%s: %v", name, err)
			}
			if kept.has(uint64(at+1)) != (err == nil) {
				t.Errorf("%s: call %d ended by %v, and the store has it: %v", name, at, err, err != nil)
			}
		}
		if refused != 1 {
			t.Errorf("%s: %d calls were refused memory", name, refused)
		}
		for at := range ended { // the plugin knows those that were carried out
			if volume := uint64(at + 1); kept.has(volume) {
				wants(t, core, numbered(1, 0), stage(volume), codes.Aborted)
			}
		}
		wants(t, core, numbered(1, 100), stage(100), codes.OK)
	}
}

// A copy that is refused memory undoes nothing.
func TestMemoryOfACopy(t *testing.T) {
	faults, kept, deed := &faults{}, newMemory(), done()
	core := open(t, kept, 10, faults)
	wants(t, core, numbered(1, 1), stage(1), codes.OK)
	for _, fault := range []*error{&faults.answer, &faults.changes} {
		faults.mutex.Lock()
		*fault = store.ErrMemory
		faults.mutex.Unlock()
		wants(t, core, numbered(1, 2), unstage(1).by(deed), codes.ResourceExhausted)
	}
	if !kept.has(1) || deed.times() != 0 {
		t.Errorf("the store has it: %v, and it was undone %d times", kept.has(1), deed.times())
	}
	wants(t, core, numbered(1, 2), unstage(1).by(deed), codes.OK)
}

// locked is a store that is this process's as long as it is open.
type locked struct{ *memory }

func (locked) IsLocked() bool { return true }

// What is undone waits for nobody else's commit before that, unless the store has to confirm that it is still ours; its own it waits for.
func TestUndoneAtOnce(t *testing.T) {
	for _, isLocked := range []bool{false, true} {
		kept, deed := newMemory(), newDeed()
		config := Config{Make: making(10, &faults{}), Store: kept, Notes: opened(beside{kept}), Numbering: byMetadata}
		if isLocked {
			config.Store = locked{kept}
		}
		core, err := Open(context.Background(), config)
		if err != nil {
			t.Fatal(err)
		}
		defer core.Close()
		wants(t, core, numbered(1, 1), stage(9), codes.OK)
		holds := []chan struct{}{make(chan struct{}), make(chan struct{}), make(chan struct{})}
		holdNext := func(at int) {
			kept.mutex.Lock()
			kept.hold = holds[at]
			kept.mutex.Unlock()
		}
		holdNext(0)
		ended := []<-chan error{carry(core, numbered(1, 2), stage(1))}
		time.Sleep(20 * time.Millisecond) // it is in the commit by then
		ended = append(ended, carry(core, numbered(1, 3), stage(2)), carry(core, numbered(1, 4), unstage(9).by(deed)))
		time.Sleep(20 * time.Millisecond) // these wait together
		holdNext(1)
		close(holds[0])
		select {
		case <-deed.begun:
			if !isLocked {
				t.Error("it is undone before the store was confirmed")
			}
		case <-time.After(200 * time.Millisecond):
			if isLocked {
				t.Error("what is undone waits for another's commit")
			}
		}
		holdNext(2)
		close(holds[1])
		close(deed.goOn)
		time.Sleep(20 * time.Millisecond)
		select {
		case err := <-ended[2]:
			t.Errorf("it is answered before its commit: %v", err)
		default:
		}
		close(holds[2])
		for _, it := range ended {
			wantsError(t, it, codes.OK)
		}
		if kept.has(9) || !kept.has(1) || !kept.has(2) {
			t.Errorf("the store has %s", kept.text())
		}
	}
}

// A group is committed early where a transaction would get too large.
func TestFull(t *testing.T) {
	it := newGroup()
	for key := uint64(0); !it.isFull(); key++ {
		it.add([]store.Change{{Key: key, Value: make([]byte, 10)}, {Key: 0, Value: []byte{1}}})
	}
	if len(it.list()) != mostChanges {
		t.Errorf("it has %d changes", len(it.list()))
	}
	it = newGroup()
	it.add([]store.Change{{Key: 1, Value: make([]byte, mostBytes)}, {Key: 1, Out: true}})
	if changes := it.list(); !it.isFull() || len(changes) != 1 || !changes[0].Out {
		t.Errorf("it has %v", changes)
	}
}

// Calls of one volume at once, and of many, end each once, whatever their order.
func TestAtOnce(t *testing.T) {
	kept, deed := newMemory(), done()
	deed.begun = make(chan struct{}, 10000)
	core := open(t, kept, 1000, &faults{})
	var group sync.WaitGroup
	for at := uint64(1); at <= 400; at++ {
		group.Add(1)
		go func(at uint64) {
			defer group.Done()
			request := stage(at % 7)
			if at%7 == 0 {
				request = stage(at)
			}
			if at%3 == 0 {
				request = unstage(request.Body.Volume())
			}
			answer, err := core.Carry(numbered(1, at), request.by(deed))
			if err != nil || answer.Reply.Status != 0 && answer.Reply.Status != uint8(codes.Aborted) {
				t.Errorf("call %d: %+v, %v", at, answer.Reply, err)
			}
		}(at)
	}
	group.Wait()
	if len(core.turns.queues) != 0 || core.calls != 0 || len(core.acts.running) != 0 {
		t.Errorf("left are %d keys, %d calls, %d acts", len(core.turns.queues), core.calls, len(core.acts.running))
	}
}
