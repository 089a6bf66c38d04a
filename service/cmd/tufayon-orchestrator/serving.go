package main

import (
	"context"
	"errors"
	"fmt"
	"net"
	"os"
	"os/signal"
	"reflect"
	"syscall"
	"time"

	"go.uber.org/zap"
	"google.golang.org/grpc"
	"google.golang.org/grpc/credentials"

	"tufayon/service/api"
	"tufayon/service/carrying"
	"tufayon/service/daemon"
	"tufayon/service/host"
	"tufayon/service/limiting"
	"tufayon/service/program"
	"tufayon/service/secure"
	"tufayon/service/settings"
	"tufayon/service/store"
)

const (
	reach   = 10 * time.Second // how long a node may take to say which one it is
	finish  = 10 * time.Second // how long calls that are under way may take, once the process is to end
	mostEnd = 8 * time.Second  // how long all the rest of an end may take

	busy = 20 * time.Millisecond // until it is looked once more whether fewer commands wait
)

// service is what runs.
type service struct {
	settings *settings.Settings
	log      *zap.Logger
	carrier  *carrying.Carrier
	host     *host.Host
	roles    *api.Roles
	clients  *clients
	server   *api.Server
	grpc     *grpc.Server
	watching *watching
	anew     <-chan os.Signal // says that the files are to be read anew
	ends     chan error       // why it ends, once it does
	ended    chan error       // what came of it in the end
	most     time.Duration    // that an end may take
	opens    func(context.Context) (store.Store, error)
}

// serve serves until the context ends, or it can't go on.
func serve(ctx context.Context, read *settings.Settings, log *zap.Logger) error {
	anew := make(chan os.Signal, 1)
	signal.Notify(anew, syscall.SIGHUP)
	defer signal.Stop(anew)
	return newService(read, log, anew).run(ctx)
}

// newService makes one that doesn't run yet.
func newService(read *settings.Settings, log *zap.Logger, anew <-chan os.Signal) *service {
	made := &service{settings: read, log: log, roles: &api.Roles{}, anew: anew, most: finish + mostEnd}
	made.ends, made.ended = make(chan error, 1), make(chan error, 1)
	made.clients = &clients{roles: made.roles, of: map[string]time.Time{}}
	made.roles.Set(read.Roles(os.Geteuid()))
	process := &read.Process
	made.opens = func(ctx context.Context) (store.Store, error) {
		return program.OpenStore(ctx, &process.Place, process.Address)
	}
	return made
}

// run runs the service, and ends it in time: what is under way may go on for a while, then all else is given up, as a commit that etcd doesn't answer. It is
// called once.
func (running *service) run(ctx context.Context) error {
	go func() { running.ended <- running.live(ctx) }()
	var why error
	select {
	case err := <-running.ended:
		return err
	case why = <-running.ends:
	case <-ctx.Done():
	}
	select {
	case err := <-running.ended:
		return err
	case <-time.After(running.most):
	}
	if why == nil {
		why = fmt.Errorf("%w: something under way can't be ended", store.ErrDevice)
	}
	return why
}

// live serves callers at once, and waits until this process has the store: then it leads.
func (running *service) live(ctx context.Context) error {
	read, log := running.settings, running.log
	if err := running.connect(); err != nil {
		return err
	}
	defer running.carrier.Close()
	var err error
	if running.watching, err = running.watch(); err != nil {
		return err
	}
	defer running.watching.close()
	running.watching.alive(ctx)
	go tellUnknown(ctx, read, log)
	served, end, err := running.listen()
	if err != nil {
		return err
	}
	defer end()
	log.Info("waits for the store", zap.String("address", read.Process.Listen))
	daemon.Ready("waits for the store")
	defer daemon.Stopping()
	kept, err := running.open(ctx)
	if err != nil {
		if ctx.Err() != nil {
			return nil // it was ended while it waited to lead
		}
		return err
	}
	err = running.lead(ctx, kept, served)
	running.toEnd(err)
	if closed := kept.Close(); err == nil {
		err = closed
	}
	return err
}

// open opens the store, once this process leads, and reads the files anew meanwhile at SIGHUP: else it would lead with a list of nodes of before.
func (running *service) open(ctx context.Context) (store.Store, error) {
	var kept store.Store
	opened := make(chan error, 1)
	go func() {
		var err error
		kept, err = running.opens(ctx)
		opened <- err
	}()
	for {
		select {
		case <-running.anew:
			running.asked(ctx)
		case err := <-opened:
			select {
			case <-running.anew:
				running.asked(ctx)
			default:
			}
			return kept, err
		}
	}
}

// listen has the API served, while this process waits to lead too. It gives what ends that, and what ended it where that wasn't called.
func (running *service) listen() (served <-chan error, end func(), err error) {
	read := running.settings
	leader, closeFinder, err := program.Leader(&read.Process.Place)
	if err != nil {
		return nil, nil, err
	}
	listener, err := program.Listen(read.Process.Listen)
	if err != nil {
		closeFinder()
		return nil, nil, err
	}
	running.server, running.grpc = api.New(running.carrier, leader, running.roles, running.credentials(), running.log,
		append(running.watching.options(), api.Rate(read.Process.Calls.Caller)...)...)
	running.watching.find(leader)
	running.watching.metrics.Server.InitializeMetrics(running.grpc)
	running.server.Keep(running.watching.history)
	ended := make(chan error, 1)
	go func() { ended <- running.grpc.Serve(running.server.Listen(listener)) }()
	return ended, func() { limiting.Stop(running.grpc); listener.Close(); closeFinder() }, nil
}

// connect makes connections to the plugins.
func (running *service) connect() error {
	read := running.settings
	peers := carrying.Peers{Set: read.Set.Name, Files: read.Process.Files(), May: program.IsOwn, Refused: func(plugin string) secure.Refused {
		return func(_ net.Addr, why error) {
			running.log.Warn("a plugin is refused", zap.String("plugin", plugin), zap.Error(why))
		}
	}}
	limits := carrying.Limits{
		AtController: read.Process.Calls.Controller, AtNode: read.Process.Calls.Node, Answer: settings.Seconds(read.Set.Times.Answer), Reach: reach,
	}
	running.carrier = carrying.New(limits, read.Set.Staging, peers.Dial)
	return running.carrier.Set(read.Set.Addresses())
}

// tellUnknown tells which addresses can't be looked up now. Nothing ends by that: they are looked up again whenever a plugin is connected to.
func tellUnknown(ctx context.Context, read *settings.Settings, log *zap.Logger) {
	for _, fault := range read.LookUp(ctx) {
		if ctx.Err() == nil {
			log.Warn("an address isn't known, and is tried again", zap.String("fault", fault))
		}
	}
}

// lead begins the orchestrator's next session over the store, and serves.
func (running *service) lead(ctx context.Context, kept store.Store, served <-chan error) error {
	times := running.settings.Set.Times
	var err error
	running.host, err = host.Open(ctx, host.Options{
		Store: kept, Nodes: running.settings.Set.IDs(), Carrier: running.carrier, Log: running.log, Clock: time.Now, Observers: running.watching.observers(),
		Times: host.Times{Patience: settings.Seconds(times.Patience), Retry: settings.Seconds(times.Retry), MostRetry: settings.Seconds(times.MostRetry)},
	})
	if err != nil {
		if ctx.Err() != nil {
			return nil // it was ended while it began to lead
		}
		return err
	}
	defer running.host.Close()
	running.carrier.Leads(running.host.Heard)
	running.server.Lead(running.host)
	running.watching.lead(running.host)
	defer running.watching.lead(nil)
	daemon.Status("leads")
	running.log.Info("serves", zap.String("address", running.settings.Process.Listen), zap.Uint64("session", running.host.Session()))
	err = running.wait(ctx, served)
	running.toEnd(err)
	return err
}

// toEnd notes that it ends from now on, and why.
func (running *service) toEnd(why error) {
	select {
	case running.ends <- why:
	default: // it is known
	}
}

// credentials are those by which callers are known.
func (running *service) credentials() credentials.TransportCredentials {
	refused := func(from net.Addr, why error) {
		running.log.Warn("a caller is refused", zap.Stringer("from", from), zap.Error(why))
	}
	if carrying.IsLocal(running.settings.Process.Listen) {
		return secure.Local{May: running.roles.MayConnect, Refused: refused}
	}
	return secure.Seeing(running.settings.Process.Files().Server(secure.Those(running.settings.Set.Name, secure.Client), refused), running.clients.seen)
}

// wait serves until the process is to end, or can't go on, and reads the files anew at SIGHUP.
func (running *service) wait(ctx context.Context, served <-chan error) error {
	for {
		select {
		case <-running.anew:
			running.asked(ctx)
		case err := <-served:
			return err
		case <-running.host.Done():
			limiting.Stop(running.grpc) // each caller gets that it isn't known what became of its command
			return running.host.Err()
		case <-ctx.Done():
			running.server.Leave()
			go running.grpc.GracefulStop() // no more callers
			running.drain()
			running.host.Close()
			return running.host.Err()
		}
	}
}

// drain waits a while for the calls that are under way.
func (running *service) drain() {
	for until := time.Now().Add(finish); time.Now().Before(until); time.Sleep(20 * time.Millisecond) {
		underWay := 0
		for _, state := range running.carrier.States() {
			underWay += state.UnderWay
		}
		if underWay == 0 {
			return
		}
	}
}

// asked reads the files anew, or tells why it doesn't.
func (running *service) asked(ctx context.Context) {
	if err := running.readAnew(ctx); err != nil {
		running.log.Error("all stays as it was", zap.Error(err))
	}
}

// readAnew reads the files anew. Other addresses and roles count at once, and other nodes are a session of the orchestrator that leads, which refuses to leave
// out one where a volume may be attached.
func (running *service) readAnew(ctx context.Context) error {
	read, err := settings.Read(running.settings.File)
	if err != nil {
		return err
	}
	if _, err := read.Check(ctx); err != nil {
		return err
	}
	if err := running.stays(read); err != nil {
		return err
	}
	running.watching.configure(read) // a session that begins has the new list
	if err := running.follow(ctx, read); err != nil {
		running.watching.configure(running.settings)
		return err
	}
	running.roles.Set(read.Roles(os.Geteuid()))
	running.settings = read
	running.log.Info("the files were read anew", zap.Strings("nodes", read.Set.IDs()))
	return nil
}

// follow has the connections to the plugins be to other addresses, and the orchestrator that leads begin a session with other nodes.
func (running *service) follow(ctx context.Context, read *settings.Settings) error {
	both := running.settings.Set.Addresses()
	for plugin, address := range read.Set.Addresses() {
		both[plugin] = address
	}
	if err := running.carrier.Set(both); err != nil {
		return err
	}
	if running.host != nil && !same(read.Set.IDs(), running.host.Nodes()) {
		if err := running.list(ctx, read.Set.IDs()); err != nil {
			running.carrier.Set(running.settings.Set.Addresses())
			return settings.Faults{fmt.Sprintf("%s: nodes: %v", read.Process.Place.Set, err)}
		}
	}
	return running.carrier.Set(read.Set.Addresses())
}

// list has the orchestrator begin a session with other nodes, also while very many commands wait: nobody would ask for it again.
func (running *service) list(ctx context.Context, nodes []string) error {
	for {
		_, err := running.host.Begin(ctx, nodes, "the list of nodes is another one")
		if !errors.Is(err, host.ErrBusy) {
			return err
		}
		select {
		case <-time.After(busy):
		case <-running.host.Done():
			return host.ErrEnded
		case <-ctx.Done():
			return ctx.Err()
		}
	}
}

// stays says what isn't changed without a restart of the process.
func (running *service) stays(read *settings.Settings) error {
	old, anew := running.settings, read
	var faults settings.Faults
	for _, it := range []struct {
		place     string
		isAnother bool
	}{
		{anew.Process.Place.Set + ": set", old.Set.Name != anew.Set.Name},
		{anew.Process.Place.Set + ": staging", old.Set.Staging != anew.Set.Staging},
		{anew.Process.Place.Set + ": times", old.Set.Times != anew.Set.Times},
		{anew.File + ": store", old.Process.Store != anew.Process.Store},
		{anew.File + ": etcd", !reflect.DeepEqual(old.Process.Etcd, anew.Process.Etcd)},
		{anew.File + ": listen", old.Process.Listen != anew.Process.Listen},
		{anew.File + ": address", old.Process.Address != anew.Process.Address},
		{anew.File + ": calls", old.Process.Calls != anew.Process.Calls},
		{anew.File + ": watch", old.Process.Watch != anew.Process.Watch},
		{anew.File + ": log", old.Process.Log != anew.Process.Log},
		{anew.File + ": history", old.Process.History != anew.Process.History},
		{anew.File + ": draws", old.Process.Draws != anew.Process.Draws},
		{anew.File + ": certificate, key, authorities", old.Process.Certificate != anew.Process.Certificate || old.Process.Key != anew.Process.Key ||
			old.Process.Authorities != anew.Process.Authorities},
	} {
		if it.isAnother {
			faults = append(faults, it.place+": it changes at a restart only")
		}
	}
	if len(faults) > 0 {
		return faults
	}
	return nil
}

func same(some, others []string) bool {
	if len(some) != len(others) {
		return false
	}
	for at := range some {
		if some[at] != others[at] {
			return false
		}
	}
	return true
}
