package serving

import (
	"context"
	"errors"
	"sync"
	"testing"

	"google.golang.org/grpc/codes"

	"tufayon/service/store"
)

// errKilled is what everything comes to once the process of a test is killed.
var errKilled = errors.New("killed")

// A machine has a store, its notes, and what is really there of each volume. It kills the process at a chosen step: a step is a commit, or the
// beginning or the end of a deed, and none after that has any effect.
type machine struct {
	*memory
	mutex  sync.Mutex
	there  map[uint64]bool
	left   int      // steps until the kill; below 0 there is none
	done   int      // calls that got an OK
	faults []string // what was found wrong
}

func newMachine(left int) *machine {
	return &machine{memory: newMemory(), there: map[uint64]bool{}, left: left}
}

// step takes a step, with its effect, unless the process is killed before.
func (machine *machine) step(effect func() error) error {
	machine.mutex.Lock()
	defer machine.mutex.Unlock()
	if machine.left == 0 {
		return errKilled
	}
	machine.left--
	err := effect()
	for volume, there := range machine.there {
		if there && !machine.has(volume) {
			machine.faults = append(machine.faults, "something is there that the store doesn't have")
		}
	}
	return err
}

func (machine *machine) Commit(ctx context.Context, anew bool, changes []store.Change) error {
	return machine.step(func() error { return machine.memory.Commit(ctx, anew, changes) })
}

// noting are a machine's notes.
type noting struct{ of *machine }

func (notes noting) Load(ctx context.Context) (map[uint64]string, error) {
	return beside{notes.of.memory}.Load(ctx)
}

func (notes noting) Commit(ctx context.Context, changes []store.Note) error {
	return notes.of.step(func() error { return beside{notes.of.memory}.Commit(ctx, changes) })
}

// act does, or undoes, in two steps.
func (machine *machine) act(there bool) func(context.Context, Known) (any, error) {
	return func(_ context.Context, known Known) (any, error) {
		if err := machine.step(func() error { return nil }); err != nil {
			return nil, err
		}
		return nil, machine.step(func() error { machine.there[known.Volume] = there; return nil })
	}
}

func (machine *machine) open(t *testing.T) *Core {
	t.Helper()
	core, err := Open(context.Background(), Config{Make: making(10, &faults{}), Store: machine, Notes: opened(noting{machine}), Numbering: byMetadata})
	if errors.Is(err, errKilled) {
		return nil
	}
	if err != nil {
		t.Fatal(err)
	}
	t.Cleanup(core.Close)
	return core
}

func (machine *machine) calls() []Request {
	stage, unstage := stage(1), unstage(1)
	stage.Act, unstage.Act = machine.act(true), machine.act(false)
	return []Request{stage, unstage}
}

// playedUntilKilled stages and unstages a volume, and says whether the process was killed meanwhile. An OK is given only for what is done.
func (machine *machine) playedUntilKilled(t *testing.T) bool {
	core := machine.open(t)
	if core == nil {
		return true
	}
	for at, request := range machine.calls() {
		answer, err := core.Carry(numbered(1, uint64(at+1)), request)
		if err != nil {
			return true
		}
		if answer.Reply.Status != 0 || machine.there[1] != (at == 0) {
			t.Errorf("call %d: %+v, and it is there: %v", at, answer.Reply, machine.there[1])
		}
		machine.done++
	}
	return false
}

// A process is killed at each step of a stage and an unstage, and the calls are made again, by the same numbers or by new ones. At each step what is
// there is in the store; an OK is given only for what is done; and in the end it is done.
func TestKills(t *testing.T) {
	for _, again := range []uint64{0, 10} { // what is added to a repeat's number
		kills := 0
		for at := 0; ; at++ {
			machine := newMachine(at)
			killed := machine.playedUntilKilled(t)
			if !killed {
				break
			}
			kills++
			machine.left = -1
			core := machine.open(t)
			calls, from := machine.calls(), 0
			if machine.done == 1 {
				from = 1
			}
			for ; from < 2; from++ {
				wants(t, core, numbered(1, uint64(from+1)+again), calls[from], codes.OK)
				if machine.there[1] != (from == 0) {
					t.Errorf("killed at step %d: OK of call %d, and it is there: %v", at, from, machine.there[1])
				}
			}
			if machine.has(1) || len(machine.faults) > 0 {
				t.Errorf("killed at step %d: the store has it: %v; %v", at, machine.has(1), machine.faults)
			}
		}
		if kills < 8 {
			t.Errorf("%d kills", kills)
		}
	}
}
