// Package serving carries calls to a plugin over its store, and has done what they ask for, in the order of docs/DRIVER.md, "What is done in which
// order": what waits together is committed together, and what a call really does is done outside the plugin's goroutine, one call of a volume at a time.
package serving

import (
	"context"
	"sync"
	"time"

	"google.golang.org/grpc/codes"
	"google.golang.org/grpc/status"

	"tufayon/service/frames"
	"tufayon/service/identities"
	"tufayon/service/numbers"
	"tufayon/service/staging"
	"tufayon/service/store"
)

// A Plugin answers frames, and tells what the last one changed. One goroutine, bound to its thread, makes all its calls.
type Plugin interface {
	// Answer answers one whole frame. Where it fails, nothing was changed.
	Answer(frame []byte) ([]byte, error)
	// Changes are those of the last answered frame, or of making the plugin. Where that fails, they are lost.
	Changes() ([]store.Change, error)
	Free()
}

// Make makes the plugin of a whole record, or a new one of none. Where renewed is set, its changes take the place of all that the store has.
type Make func(record []byte) (plugin Plugin, renewed bool, err error)

// Numbering makes the source of numbers, once the latest session is known.
type Numbering func(latest uint64) (numbers.Source, error)

// Notes keep where volumes are staged, beside the record.
type Notes interface {
	Load(ctx context.Context) (map[uint64]string, error)
	// Commit makes all changes, in order, or none.
	Commit(ctx context.Context, notes []store.Note) error
}

// Config says over what a core serves.
type Config struct {
	Make      Make
	Store     store.Store
	Notes     func(context.Context) (Notes, error) // opens them, once the plugin is made; nil of a controller
	Numbering Numbering
	MustBegin bool     // no call is taken of a session that wasn't begun (Begin)
	Calls     int      // how many may wait or be under way: 0 for 2,048
	Texts     bool     // ids are texts, which the store keeps beside the record: it is a store.Keeper
	Observer  Observer // may be nil
}

// A Request is a call, and what the driver does besides. Judge and Act may be nil.
type Request struct {
	Node    string // of a call to a node
	Body    frames.Body
	Staging string // the staging path that it names, if it names one
	Like    string // what else is asked: only compared, to see whether a repeat asks the same
	// Bind says of which calls the request is made, in place of Body, each time before the plugin is asked: on its goroutine, without waiting. Kind is then
	// which of CSI's calls it is, and Key what one request at a time may be about.
	Bind func(View) (Bound, error)
	Kind frames.Kind
	Key  string
	Also func() string // another one, once Key is taken: none where it is empty, or nil
	// Judge refuses the call before the plugin is asked: then nothing was changed. It is run on the plugin's goroutine, and doesn't wait.
	Judge func(Known) error
	// Act does what the call asks for, or undoes it. What it gives becomes the Answer's Acted, which nobody changes. It returns soon once the
	// context ends.
	Act func(context.Context, Known) (any, error)
	// Always has Act done where the plugin allows a call that undoes something, whether or not the store has what it undoes.
	Always bool
	// Keep says, of what Act gave, which texts are to be kept beside the record before there is an answer. It is run on the plugin's goroutine.
	Keep func(View, Known, any) ([]store.Text, error)
	// Failed is what a call gets whose deed failed: nil for 14, and the error's text.
	Failed func(error) error
	// Back is a request that undoes, in the same turn, what a deed left that failed: none where it says so. What is known is as before the call. Where that
	// fails too the store has what may be there.
	Back func(Known, error) (Request, bool)
}

// Known is what the store has of a call's volume before that call; where Act is run for a duplicate, with that call.
type Known struct {
	Number  frames.Number // the call's
	Volume  uint64        // the call's, or that which a CreateVolume made
	Session uint64        // the latest that the plugin has heard of
	Row     []byte        // nil where the volume has none
	Staging string        // where it is staged, if it is
}

// IsBehind says whether the plugin refuses a call by its number, where the volume's last call is this, so that nothing else is to be judged.
func (known Known) IsBehind(last frames.Number) bool {
	return known.Number.Session < known.Session || known.Number.IsBefore(last)
}

// An Answer is the plugin's reply, the value of the volume's row where it has one, and what Act gave.
type Answer struct {
	Reply frames.Reply
	Row   []byte
	Acted any
}

// usualCalls is how many calls wait, or are under way, at most.
const usualCalls = 2048

var (
	// errEnded is what a call gets whose commit failed, or that came after that: it got no reply of the plugin.
	errEnded  = status.Error(codes.Unavailable, "serving ended")
	errMemory = status.Error(codes.ResourceExhausted, "memory")
	errKept   = status.Error(codes.Unavailable, "memory: it is undone, and the record has it still")
	errCalls  = status.Error(codes.ResourceExhausted, "calls")
	// errTooLate is what becomes of a deed that wasn't begun before the core's end.
	errTooLate = status.Error(codes.Unavailable, "the driver ends: it wasn't begun")
	// errNotBegun is what a call of a session gets that wasn't begun here, where one was.
	errNotBegun = status.Error(codes.FailedPrecondition, "session not begun")
)

// A Core is a plugin over its store. It has one goroutine, bound to its thread, which makes all calls of the plugin.
type Core struct {
	counts counts

	config Config
	source numbers.Source
	turns  turns
	acts   acts

	jobs chan *job     // each is carried out by the goroutine
	stop chan struct{} // closed once it is to end
	done chan struct{} // closed once it did
	err  error         // why, read once done is closed

	acting  context.Context // of what is done for calls
	endActs context.CancelFunc

	mutex   sync.Mutex
	calls   int           // that wait or are under way
	closing bool          // no more are let in
	idle    chan struct{} // closed once closing is set, and there are none

	// What only the goroutine uses.
	plugin Plugin
	parts  map[uint64][]byte // the record, with what was asked since the last commit
	notes  Notes
	paths  *staging.Paths
	texts  *identities.Table // nil where there are none
	longs  int               // so many long texts may there be before those are taken out that no row has
	begun  begun
	last   map[uint64]last // by the volumes' ids
	late   map[uint64]bool // volumes without a row, whose last calls are to be taken out of what stands beside the record
}

// Open makes the plugin of what the store has, commits what that changes, and begins to serve.
func Open(ctx context.Context, config Config) (*Core, error) {
	if config.Calls == 0 {
		config.Calls = usualCalls
	}
	if config.Observer == nil {
		config.Observer = unobserved{}
	}
	core := &Core{
		config: config, jobs: make(chan *job), stop: make(chan struct{}), done: make(chan struct{}), idle: make(chan struct{}),
		turns: turns{queues: map[key][]chan struct{}{}}, acts: acts{running: map[key]*act{}, last: map[uint64]*act{}},
	}
	core.acting, core.endActs = context.WithCancel(context.Background())
	opened := make(chan error)
	go core.run(ctx, opened)
	if err := <-opened; err != nil {
		<-core.done
		core.endActs()
		return nil, err
	}
	return core, nil
}

// Done is closed when the core serves no more, and then Err says why.
func (core *Core) Done() <-chan struct{} { return core.done }

// Err says why the core ended, or nil where it was closed.
func (core *Core) Err() error { return core.err }

// Finish lets nothing more in, and waits until the calls that are under way have ended, or the context has.
func (core *Core) Finish(ctx context.Context) {
	core.mutex.Lock()
	if !core.closing {
		core.closing = true
		if core.calls == 0 {
			close(core.idle)
		}
	}
	core.mutex.Unlock()
	select {
	case <-core.idle:
	case <-ctx.Done():
	}
}

// afterEnd is how long Close waits for what it ended.
const afterEnd = 5 * time.Second

// Close ends what is done for calls, and the core. The store stays open.
func (core *Core) Close() {
	core.endActs()
	ctx, cancel := context.WithTimeout(context.Background(), afterEnd)
	defer cancel()
	core.Finish(ctx)
	core.mutex.Lock()
	select {
	case <-core.stop:
	default:
		close(core.stop)
	}
	core.mutex.Unlock()
	<-core.done
}

// enter lets a call in, unless there are too many, or the core is to end.
func (core *Core) enter() error {
	core.mutex.Lock()
	defer core.mutex.Unlock()
	if core.closing {
		return errEnded
	}
	if core.calls >= core.config.Calls { // what is done anew counts, whatever the limit
		return errCalls
	}
	core.calls++
	return nil
}

func (core *Core) leave() {
	core.mutex.Lock()
	defer core.mutex.Unlock()
	if core.calls--; core.calls == 0 && core.closing {
		close(core.idle)
	}
}

// Admit refuses a call that comes with a number where it shouldn't, or without one where it should.
func (core *Core) Admit(ctx context.Context) error { return core.source.Admit(ctx) }

// Carry carries a request to the plugin, once those of its volume that came before have ended, and has done what it asks for. An error is a refusal
// of the driver's own, or says that no reply is given: then what was asked may have been done or not.
func (core *Core) Carry(ctx context.Context, request Request) (Answer, error) {
	if err := core.enter(); err != nil {
		return Answer{}, err
	}
	defer core.leave()
	key := keyOf(request)
	joined := core.acts.find(key, request)
	if err := core.turns.take(ctx, key, core.done); err != nil {
		return Answer{}, err
	}
	defer core.turns.leave(key)
	if also := request.also(); also.name != "" {
		if err := core.turns.take(ctx, also, core.done); err != nil {
			return Answer{}, err
		}
		defer core.turns.leave(also)
	}
	if request.Act != nil && undoes(request.kind()) {
		return core.undo(ctx, request)
	}
	return core.do(ctx, key, request, joined)
}

// Known tells what the store has of a volume, and confirms that this process still has the store.
func (core *Core) Known(ctx context.Context, volume uint64) (known Known, err error) {
	if err := core.enter(); err != nil {
		return Known{}, err
	}
	defer core.leave()
	err = core.inTurn(ctx, func(*group) (bool, error) {
		known = core.known(frames.Number{}, volume)
		return true, nil
	})
	return known, err
}

// Row gives the value of a volume's row, as Known does.
func (core *Core) Row(ctx context.Context, volume uint64) ([]byte, error) {
	known, err := core.Known(ctx, volume)
	return known.Row, err
}

// failed is what a call gets whose deed failed: unless the request says otherwise, no reply came to who asked, so that it asks again, or has it undone.
func (request Request) failed(err error) error {
	if request.Failed != nil {
		return request.Failed(err)
	}
	if told, is := status.FromError(err); is {
		return status.Error(codes.Unavailable, told.Message())
	}
	return status.Error(codes.Unavailable, err.Error())
}
