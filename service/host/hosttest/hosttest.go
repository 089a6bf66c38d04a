// Package hosttest has a store in memory and plugins that answer in the same process, for tests of who runs an orchestrator.
package hosttest

import (
	"context"
	"sort"
	"sync"
	"time"

	"tufayon/service/frames"
	"tufayon/service/numbers"
	"tufayon/service/store"
)

// A Store outlives its hosts, counts its commits, and may fail.
type Store struct {
	mutex   sync.Mutex
	parts   map[uint64][]byte
	sides   map[string][]byte
	commits int
	fault   error
	lost    chan struct{}

	Pause time.Duration // how long a commit takes, beside what it does
}

// NewStore makes an empty one.
func NewStore() *Store {
	return &Store{parts: map[uint64][]byte{}, sides: map[string][]byte{}, lost: make(chan struct{})}
}

// Copy gives a store that has what this one has now.
func (kept *Store) Copy() *Store {
	kept.mutex.Lock()
	defer kept.mutex.Unlock()
	made := NewStore()
	for key, value := range kept.parts {
		made.parts[key] = value
	}
	for name, value := range kept.sides {
		made.sides[name] = value
	}
	return made
}

// Sides gives all sides.
func (kept *Store) Sides(context.Context) (map[string][]byte, error) { return kept.Copy().sides, nil }

// Side gives a side, nothing where there is none.
func (kept *Store) Side(name string) string { return string(kept.Copy().sides[name]) }

// ForgetSides takes out all sides.
func (kept *Store) ForgetSides() {
	kept.mutex.Lock()
	defer kept.mutex.Unlock()
	kept.sides = map[string][]byte{}
}

// CommitWith makes the changes, and puts the sides, unless the store fails.
func (kept *Store) CommitWith(ctx context.Context, sides []store.Side, changes []store.Change) error {
	if err := kept.Commit(ctx, false, changes); err != nil {
		return err
	}
	kept.mutex.Lock()
	defer kept.mutex.Unlock()
	for _, side := range sides {
		if delete(kept.sides, side.Name); !side.Out {
			kept.sides[side.Name] = side.Value
		}
	}
	return nil
}

// Load gives all parts, by rising key.
func (kept *Store) Load(context.Context) ([]store.Part, error) {
	kept.mutex.Lock()
	defer kept.mutex.Unlock()
	var parts []store.Part
	for key, value := range kept.parts {
		parts = append(parts, store.Part{Key: key, Value: value})
	}
	sort.Slice(parts, func(i, j int) bool { return parts[i].Key < parts[j].Key })
	return parts, nil
}

// Commit makes the changes, unless the store fails.
func (kept *Store) Commit(_ context.Context, _ bool, changes []store.Change) error {
	time.Sleep(kept.Pause)
	kept.mutex.Lock()
	defer kept.mutex.Unlock()
	if kept.fault != nil {
		return kept.fault
	}
	kept.commits++
	for _, change := range changes {
		if change.Out {
			delete(kept.parts, change.Key)
		} else {
			kept.parts[change.Key] = change.Value
		}
	}
	return nil
}

// Lost says that the store is another's.
func (kept *Store) Lost() <-chan struct{} { return kept.lost }

// Close does nothing.
func (kept *Store) Close() error { return nil }

// Fail has commits fail from now on.
func (kept *Store) Fail(fault error) {
	kept.mutex.Lock()
	defer kept.mutex.Unlock()
	kept.fault = fault
}

// Hold has commits wait until they are let go.
func (kept *Store) Hold() (letGo func()) {
	kept.mutex.Lock()
	return kept.mutex.Unlock
}

// Lose says that the store is another's now.
func (kept *Store) Lose() { close(kept.lost) }

// Commits counts the commits.
func (kept *Store) Commits() int {
	kept.mutex.Lock()
	defer kept.mutex.Unlock()
	return kept.commits
}

// A Carrier answers calls itself. It gives each volume an id, and says OK, unless Answer, if there is one, does otherwise: it says whether it answers.
type Carrier struct {
	Answer func(ctx context.Context, call frames.Call, until time.Time) (reply frames.Reply, err error, answers bool)
	// Opens says how a plugin begins a session; without it each does.
	Opens func(ctx context.Context, plugin string, opening numbers.Opening) error

	mutex sync.Mutex
	calls []frames.Call
	last  uint64
}

// Carry answers a call.
func (carrier *Carrier) Carry(ctx context.Context, call frames.Call, until time.Time) (frames.Reply, error) {
	carrier.mutex.Lock()
	carrier.calls = append(carrier.calls, call)
	carrier.mutex.Unlock()
	if carrier.Answer != nil {
		if reply, err, answers := carrier.Answer(ctx, call, until); answers {
			return reply, err
		}
	}
	return carrier.OK(call), nil
}

// Begin has a plugin begin a session.
func (carrier *Carrier) Begin(ctx context.Context, plugin string, opening numbers.Opening) error {
	if carrier.Opens == nil {
		return nil
	}
	return carrier.Opens(ctx, plugin, opening)
}

// OK is the reply that says that a call was carried out.
func (carrier *Carrier) OK(call frames.Call) frames.Reply {
	reply := frames.Reply{Number: call.Number, Node: call.Node, Kind: call.Kind()}
	if call.Kind() == frames.CreateVolumeKind {
		carrier.mutex.Lock()
		defer carrier.mutex.Unlock()
		carrier.last++
		reply.Volume = carrier.last
	}
	return reply
}

// Refused is the reply that refuses a call.
func Refused(call frames.Call, status uint8, detail string) frames.Reply {
	return frames.Reply{Number: call.Number, Node: call.Node, Kind: call.Kind(), Status: status, Detail: detail}
}

// Calls are those that came, in order.
func (carrier *Carrier) Calls() []frames.Call {
	carrier.mutex.Lock()
	defer carrier.mutex.Unlock()
	return append([]frames.Call(nil), carrier.calls...)
}
