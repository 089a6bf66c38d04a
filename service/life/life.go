// Package life runs a CSI driver from its start to its end: its store, its plugin, and the servers at which it is called.
package life

import (
	"context"
	"fmt"
	"net"
	"time"

	"google.golang.org/grpc"

	"tufayon/service/daemon"
	"tufayon/service/driver"
	"tufayon/service/hooks"
	"tufayon/service/limiting"
	"tufayon/service/numbers"
	"tufayon/service/plugin"
	"tufayon/service/serving"
	"tufayon/service/store"
	"tufayon/service/upstream"
	"tufayon/service/version"
)

const (
	callsEnd = 10 * time.Second // how long calls that are under way may go on once the driver is to end
	mostEnd  = 8 * time.Second  // how long all the rest of an end may take
)

// A Driver says what is run.
type Driver struct {
	Program     string // its name
	Name        string // the plugin's, as Identity tells it
	Maker       plugin.Maker
	Numbering   serving.Numbering
	IsByArrival bool // Numbering is ByArrival: there is no orchestrator that begins sessions
	MustBegin   bool // a service begins them, and no call comes before
	Open        func(context.Context) (store.Store, error)
	Waits       bool            // opening waits to lead
	Notes       string          // a node's file of staging paths; none of a controller
	Hooks       hooks.Hooks     // what does what calls ask for; nil where nothing does: the ledger alone is kept
	MaxVolumes  int64           // as NodeGetInfo tells it
	Upstream    *upstream.Proxy // the driver behind, to which calls go in place of all this; nil where there is none. Its store is a store.Keeper
	Doors       []Door
	Say         func(line string) // tells whoever runs it how far it is
	Starts      string            // of a node: the file with the start of its machine in which all was mounted that its record has; none: nothing is done anew
	Start       func() string     // tells this start of the machine from others: nil for the kernel's
	Trouble     func(text string) // told what isn't mounted that the record has, whenever that changes, and with no text that all is; may be nil
	Observer    Observer          // may be nil
}

// An Observer is told what a driver does.
type Observer interface {
	serving.Observer
	// Serves tells that calls are answered from now on, by this core, or by none: nil.
	Serves(core *serving.Core)
}

// A Door is where a driver is called.
type Door struct {
	Address string
	Listen  func() (net.Listener, error)
	Options []grpc.ServerOption // who may call, ..
	IsLocal bool                // tells of the driver's health and Identity alone
}

// A Life is a driver's, from its start to its end.
type Life struct {
	driver  Driver
	backend *driver.Backend
	servers []*grpc.Server
	served  chan error // what ended a server, where nothing here did
	remakes chan remade
	ended   chan struct{} // closed once Run returns
	anew    *driver.Anew  // what is to be staged and published anew
	most    time.Duration // that an end may take

	// What there is by now.
	listens bool
	store   store.Store
	notes   *store.Notes
	core    *serving.Core
	tried   <-chan struct{} // closed once each volume was tried that is to be staged and published anew: nil where none is
}

// remade asks for a plugin that is made anew.
type remade struct {
	maker    plugin.Maker
	judge    Judge
	answered chan<- error
}

// New makes a life that has not begun.
func New(it Driver) *Life {
	if it.Start == nil {
		it.Start = machineStart
	}
	life := &Life{
		driver: it, backend: driver.NewBackend(), served: make(chan error, len(it.Doors)), remakes: make(chan remade), ended: make(chan struct{}),
		most: callsEnd + mostEnd,
	}
	life.anew = driver.NewAnew(string(it.Maker.Name), it.Hooks, life.backend)
	return life
}

// Run runs the driver until the context ends, or it can't go on, and ends it in time: what is under way may go on for a while, then hooks are killed, then
// all else is given up. It is called once.
func (life *Life) Run(ctx context.Context) error {
	defer close(life.ended)
	if err := life.driver.Maker.Check(); err != nil {
		return err // before there is a store
	}
	daemon.CollectSeldom()
	telling, told := context.WithCancel(context.Background())
	defer told()
	go life.tellTroubles(telling)
	hooks.Reap(telling)
	ends, ended := make(chan error, 1), make(chan error, 1)
	go func() {
		err := life.live(ctx)
		ends <- err
		if failed := life.endAll(); err == nil {
			err = failed
		}
		ended <- err
	}()
	var why error
	select {
	case why = <-ends:
	case <-ctx.Done():
	}
	select {
	case err := <-ended:
		return err
	case <-time.After(life.most):
	}
	if why == nil {
		why = fmt.Errorf("%w: something under way can't be ended", store.ErrDevice)
	}
	return why
}

// live serves, until it is to end, or can't go on. Where it waits, its sockets are there meanwhile, and tell that it isn't ready.
func (life *Life) live(ctx context.Context) error {
	if life.driver.Waits {
		if err := life.listen(); err != nil {
			return err
		}
		life.say("waits at %s")
	}
	return life.serve(ctx)
}

// say tells how far it is, with where it is called.
func (life *Life) say(line string) { life.driver.Say(fmt.Sprintf(line, life.driver.Doors[0].Address)) }

// listen makes the sockets, and begins to answer there.
func (life *Life) listen() error {
	life.listens = true
	for _, door := range life.driver.Doors {
		listener, err := door.Listen()
		if err != nil {
			return err
		}
		limits := limiting.New()
		server := life.server(door, limits)
		life.servers = append(life.servers, server)
		go func() { life.served <- server.Serve(limits.Listen(listener)) }()
	}
	return nil
}

// server makes the server of a door.
func (life *Life) server(door Door, limits *limiting.Limits) *grpc.Server {
	it := &life.driver
	if it.Upstream != nil && !door.IsLocal {
		return it.Upstream.Server(life.backend, limits, it.Program, door.Options...)
	}
	server := driver.NewServer(life.backend, limits, it.Program, door.Options...)
	driver.RegisterIdentity(server, life.backend, it.Name, version.Number)
	if !door.IsLocal {
		life.register(server)
	}
	return server
}

// register adds the plugin's services to a server.
func (life *Life) register(server *grpc.Server) {
	it := &life.driver
	if !it.IsByArrival {
		driver.RegisterPlugin(server, life.backend)
	}
	if it.Maker.IsController {
		driver.RegisterController(server, life.backend, it.Hooks)
		return
	}
	driver.RegisterNode(server, life.backend, driver.NodeOptions{ID: string(it.Maker.Name), MaxVolumes: it.MaxVolumes, Hooks: it.Hooks, Anew: life.anew})
}

// serve serves until it is to end, or can't go on.
func (life *Life) serve(ctx context.Context) error {
	err := life.openStore(ctx)
	if err == nil {
		err = life.open(ctx, nil)
	}
	if err != nil {
		return unlessTold(ctx, err)
	}
	if !life.listens {
		if err := life.listen(); err != nil {
			return err
		}
	}
	life.awaitTried(ctx)
	life.say("serves at %s")
	for {
		select {
		case err := <-life.served:
			return err
		case it := <-life.remakes:
			err := life.remake(ctx, it.maker, it.judge)
			it.answered <- err
			if life.core == nil {
				return unlessTold(ctx, err)
			}
		case <-life.core.Done():
			return nil
		case <-ctx.Done():
			return nil
		}
	}
}

// unlessTold is why there is nothing that could be served: no reason where it was told to end meanwhile, as one that waits to lead may be.
func unlessTold(ctx context.Context, err error) error {
	if ctx.Err() != nil {
		return nil
	}
	return err
}

// openStore opens the store, which may take long where it waits to lead. Another configuration that comes meanwhile is taken as at a start: there is no record
// yet that could be judged.
func (life *Life) openStore(ctx context.Context) error {
	opened := make(chan error, 1)
	go func() {
		var err error
		life.store, err = life.driver.Open(ctx)
		opened <- err
	}()
	for {
		select {
		case err := <-opened:
			return err
		case it := <-life.remakes:
			err := it.maker.Check()
			if err == nil {
				life.driver.Maker = it.maker
			}
			it.answered <- err
		}
	}
}

// open makes the plugin of what the store has, and has the servers serve it, unless that is judged to be wrong.
func (life *Life) open(ctx context.Context, judge Judge) error {
	config := serving.Config{
		Store: life.store, Numbering: life.driver.Numbering, MustBegin: life.driver.MustBegin, Observer: life.driver.Observer,
		Texts: life.driver.Upstream != nil,
		Make: func(record []byte) (serving.Plugin, bool, error) {
			made, renewed, err := life.driver.Maker.Make(record)
			if err != nil {
				return nil, false, err
			}
			return made, renewed, nil
		},
	}
	if file := life.driver.Notes; file != "" {
		config.Notes = func(ctx context.Context) (serving.Notes, error) {
			var err error
			if life.notes == nil {
				life.notes, err = store.OpenNotes(ctx, file)
			}
			return life.notes, err
		}
	}
	core, err := serving.Open(ctx, config)
	if err != nil {
		return err
	}
	if err := life.prepare(ctx, core, judge); err != nil {
		core.Close()
		if failed := core.Err(); failed != nil {
			return failed // of which the other one came
		}
		return err
	}
	life.core = core
	life.backend.Serve(core)
	if life.driver.Observer != nil {
		life.driver.Observer.Serves(core)
	}
	return nil
}

// prepare judges what a core has, and does what comes before it is served.
func (life *Life) prepare(ctx context.Context, core *serving.Core, judge Judge) error {
	if err := judge.of(ctx, core); err != nil {
		return err
	}
	if behind := life.driver.Upstream; behind != nil {
		if err := behind.Opened(ctx, core, life.driver.Maker); err != nil {
			return err
		}
	}
	return life.restore(ctx, core)
}

// endAll ends what there is.
func (life *Life) endAll() error {
	err := life.endCore()
	life.finish()
	for _, it := range life.stores() {
		if closed := it.Close(); err == nil {
			err = closed
		}
	}
	return err
}

// endCore has the plugin answer nobody any more, and ends it. It tells what the plugin failed of.
func (life *Life) endCore() error {
	life.backend.Stop()
	if life.core == nil {
		return nil
	}
	ctx, cancel := context.WithTimeout(context.Background(), callsEnd)
	defer cancel()
	life.core.Finish(ctx)
	life.core.Close()
	if life.driver.Observer != nil {
		life.driver.Observer.Serves(nil)
	}
	return life.core.Err()
}

// finish has each call's refusal, or its answer, go out, and closes the sockets.
func (life *Life) finish() {
	finished := make(chan struct{})
	go func() {
		for _, server := range life.servers {
			server.GracefulStop()
		}
		close(finished)
	}()
	select {
	case <-finished:
	case <-time.After(time.Second):
		for _, server := range life.servers {
			limiting.Stop(server)
		}
	}
}

// A closer is a store that is open, or a connection.
type closer interface{ Close() error }

func (life *Life) stores() []closer {
	var stores []closer
	if life.store != nil {
		stores = append(stores, life.store)
	}
	if life.notes != nil {
		stores = append(stores, life.notes)
	}
	if life.driver.Upstream != nil {
		stores = append(stores, life.driver.Upstream)
	}
	return stores
}

// ByMetadata takes calls' numbers from their metadata: of sessions that are at most so far above the latest one, or any where that is 0.
func ByMetadata(mostAbove uint64) serving.Numbering {
	return func(uint64) (numbers.Source, error) { return numbers.Metadata{MostAbove: mostAbove}, nil }
}

// ByArrival numbers calls as they arrive.
func ByArrival(latest uint64) (numbers.Source, error) { return numbers.NewArrival(latest) }
