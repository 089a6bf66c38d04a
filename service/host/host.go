// Package host has the proved orchestrator run as a service: many callers ask it at once, and its calls are made at the plugins side by side.
//
// One goroutine, bound to its thread, owns the orchestrator. It takes what has come, commands of callers and replies of plugins, asks the orchestrator
// each of it, at most 64 at a time, and commits all that changed together; only then calls are sent and callers answered. So who has an answer has it of
// what is committed, and a process that ends at any moment loses only calls and answers, which any network may lose.
package host

import (
	"context"
	"errors"
	"runtime"
	"sync"
	"sync/atomic"
	"time"

	"go.uber.org/zap"
	"go.uber.org/zap/zapcore"

	"tufayon/service/carrying"
	"tufayon/service/frames"
	"tufayon/service/numbers"
	"tufayon/service/store"
	"tufayon/service/tracing"
)

const (
	mostEvents   = 64   // that one commit has
	mostCommands = 1000 // that wait
	enoughGone   = 1024 // names of deleted volumes: in a quiet moment a session begins, which forgets them
)

var (
	errSession = errors.New("a session has to begin first")
	errIgnored = errors.New("the orchestrator ignores the reply")
)

// A Carrier makes calls at plugins, side by side: carrying.Carrier is one.
type Carrier interface {
	// Carry makes a call, and gives the reply. It fails where none came, for a reason that is told. Where a time is given, it fails too if the plugin
	// isn't reached until then.
	Carry(ctx context.Context, call frames.Call, until time.Time) (frames.Reply, error)
	// Begin has a plugin begin a session, once it is reached. It fails with carrying.ErrLater, ErrEarlier or ErrNone as it says, or else may be asked again.
	Begin(ctx context.Context, plugin string, opening numbers.Opening) error
}

// Options are what a host needs.
type Options struct {
	Store   store.Store // it stays open
	Nodes   []string    // the list of nodes
	Carrier Carrier
	Times   Times
	Log     *zap.Logger
	Clock   func() time.Time // by which sessions begin, in seconds since 1970; nil for those after the last one
	// Observers are told what happens.
	Observers []Observer
}

// A Host is an orchestrator that runs. Its methods may be called side by side.
type Host struct {
	committing atomic.Pointer[time.Time] // since when a commit is under way: nil where none is

	carrier   Carrier
	times     Times
	log       *zap.Logger
	observers []Observer

	commands chan event // of callers
	happened chan event // what came of calls, and timeouts
	stop     chan struct{}
	once     sync.Once
	done     chan struct{}
	err      error // why it ended, read once done is closed

	waiters  *waiters
	board    *board
	confirms confirming
	callers  *callers

	// What only the loop uses.
	core    *core
	volumes map[string]*volume
	queue   []event // what is asked before anything that comes
	epoch   uint64  // counts the sessions that this process began
	isLast  bool    // no session begins any more
	calls   context.Context
	giveUp  context.CancelFunc // gives up the calls of the present session
	gates   gates              // of the present session
}

// Open begins the next session over a store, commits it, and begins to serve.
func Open(ctx context.Context, options Options) (*Host, error) {
	core, err := newCore(options.Store, options.Clock)
	if err != nil {
		return nil, err
	}
	host := &Host{
		carrier: options.Carrier, times: options.Times, log: options.Log, observers: options.Observers,
		commands: make(chan event, mostCommands), happened: make(chan event), stop: make(chan struct{}), done: make(chan struct{}),
		waiters: newWaiters(), board: newBoard(),
		core: core, volumes: map[string]*volume{},
	}
	core.committed = host.committed
	host.callers = newCallers(host.done)
	host.confirms.ask = func(ctx context.Context) error { return options.Store.Commit(ctx, false, nil) }
	host.calls, host.giveUp = context.WithCancel(context.Background())
	opened := make(chan error)
	go host.run(ctx, options.Nodes, opened)
	if err := <-opened; err != nil {
		<-host.done
		return nil, err
	}
	return host, nil
}

// Done is closed when the host serves no more, and then Err says why.
func (host *Host) Done() <-chan struct{} { return host.done }

// Err says why the host ended, or nil where it was closed.
func (host *Host) Err() error { return host.err }

// Close ends the host. What is asked now is committed and answered; calls that are under way are given up.
func (host *Host) Close() {
	host.once.Do(func() { close(host.stop) })
	<-host.done
}

func (host *Host) run(ctx context.Context, nodes []string, opened chan<- error) {
	runtime.LockOSThread() // for good: the thread ends with the goroutine
	defer close(host.done)
	defer func() { host.giveUp() }()
	defer host.core.free()
	if err := host.core.begin(ctx, nodes); err != nil {
		opened <- err
		return
	}
	work := newWork()
	host.began(work)
	host.tells(work, Happening{What: Began, Why: "the service starts"})
	host.publish(work)
	host.observe(work)
	host.openPlugins()
	opened <- nil
	for host.err == nil {
		batch := host.gather()
		if batch == nil {
			break
		}
		host.err = host.carryOut(batch)
	}
	host.board.close()
}

// gather waits until something has come, and gives it, at most 64 events; or one alone that goes with no other. It gives nothing once the host is to end.
func (host *Host) gather() []event {
	batch := host.fromQueue()
	if len(batch) == 0 {
		select {
		case it := <-host.happened:
			batch = append(batch, it)
		case it := <-host.commands:
			batch = append(batch, it)
		case <-host.core.store.Lost():
			host.err = store.ErrLost
			return nil
		case <-host.stop:
			return nil
		}
	}
	for len(batch) < mostEvents && !batch[len(batch)-1].alone() {
		select {
		case it := <-host.happened:
			batch = append(batch, it)
			continue
		default:
		}
		select {
		case it := <-host.commands:
			batch = append(batch, it)
			continue
		default:
		}
		break
	}
	if last := len(batch) - 1; last > 0 && batch[last].alone() {
		host.queue = append([]event{batch[last]}, host.queue...)
		batch = batch[:last]
	}
	return batch
}

// fromQueue takes at most 64 events of the queue, or one alone.
func (host *Host) fromQueue() []event {
	count := 0
	for count < len(host.queue) && count < mostEvents && !host.queue[count].alone() {
		count++
	}
	if count == 0 && len(host.queue) > 0 {
		count = 1
	}
	batch := append([]event(nil), host.queue[:count]...)
	host.queue = host.queue[count:]
	return batch
}

// carryOut asks a batch's events, commits what they changed, and then has calls made and callers answered. Where it fails nothing may be answered any more.
func (host *Host) carryOut(batch []event) error {
	work := newWork()
	if len(host.observers) > 0 {
		work.told = make([]Happening, 0, len(batch))
	}
	for at, it := range batch {
		err := it.ask(host, work)
		if err == errSession {
			_, isCommand := it.(*asking) // which is refused where no session begins
			rest := append([]event{&beginning{why: "there is no room for names or numbers", isNeeded: !isCommand}}, batch[at:]...)
			host.queue = append(rest, host.queue...)
			break
		}
		if err != nil {
			return err
		}
		if host.core.isFull() {
			host.queue = append(append([]event(nil), batch[at+1:]...), host.queue...)
			break
		}
	}
	if err := host.commit(); err != nil {
		return err
	}
	host.publish(work)
	if work.begins {
		host.openPlugins()
	}
	ctx, epoch := host.calls, host.epoch
	for at := range work.sends {
		it := &work.sends[at]
		host.callers.make(func() { host.call(ctx, epoch, it) })
	}
	for _, it := range work.held {
		go host.await(host.calls, host.epoch, it, host.gates.of(it.call))
	}
	for _, answer := range work.after {
		answer()
	}
	host.observe(work) // nobody waits for that
	if host.core.counts.gone >= enoughGone && host.core.counts.wanted == 0 && len(host.queue) == 0 && !host.isLast {
		host.queue = append(host.queue, &beginning{why: "names of deleted volumes are forgotten"})
	}
	return nil
}

// call makes a call, and tells what came of it.
func (host *Host) call(ctx context.Context, epoch uint64, it *sending) {
	began := time.Now()
	reply, err := host.carrier.Carry(tracing.Into(ctx, it.trace), it.call, it.until)
	if ctx.Err() != nil {
		return // it was given up
	}
	now := time.Now()
	took := now.Sub(began)
	for _, observer := range host.observers {
		observer.Called(it.call, reply, err, took)
	}
	host.tell(&heard{name: it.name, epoch: epoch, call: it.call, reply: reply, err: err})
	host.logs(it, reply, err, now, took) // nobody waits for that
}

// lines has room for the fields of lines of the log, of which nothing is kept once they are logged.
var lines = sync.Pool{New: func() any { return new([9]zap.Field) }}

// logs has a line of the log for a call that ended now. Of what zap would do of each line it wants the core's part alone.
func (host *Host) logs(it *sending, reply frames.Reply, err error, now time.Time, took time.Duration) {
	core, level, message := host.log.Core(), zap.InfoLevel, "a call"
	if err != nil {
		level, message = zap.WarnLevel, "a call got no reply"
	}
	if !core.Enabled(level) {
		return
	}
	room := lines.Get().(*[9]zap.Field)
	defer lines.Put(room)
	fields := append(room[:0],
		zap.String("volume", it.name), zap.String("kind", it.call.Kind().String()), zap.String("plugin", carrying.PluginOf(it.call)),
		zap.Uint64("session", it.call.Number.Session), zap.Uint64("call", it.call.Number.Call), zap.Duration("took", took),
	)
	if it.trace != "" {
		fields = append(fields, zap.String("trace", it.trace))
	}
	if err != nil {
		fields = append(fields, zap.Error(err))
	} else {
		fields = append(fields, zap.Uint8("status", reply.Status), zap.String("detail", reply.Detail))
	}
	_ = core.Write(zapcore.Entry{Level: level, Time: now, Message: message}, fields) // there is nobody to tell
}

// tell hands an event to the loop.
func (host *Host) tell(it event) {
	select {
	case host.happened <- it:
	case <-host.done:
	}
}
