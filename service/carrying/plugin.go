package carrying

import (
	"context"
	"fmt"
	"sync"
	"time"

	"google.golang.org/grpc"
	"google.golang.org/grpc/connectivity"

	"tufayon/service/wire"
)

// again is how long it takes until a plugin that doesn't say which node it is is asked again.
const again = time.Second

// plugin is one plugin: its connection, and the calls that are made over it.
type plugin struct {
	name, address string
	connection    *grpc.ClientConn
	places        chan struct{} // has as many as calls are under way
	closed        chan struct{}
	heard         Heard
	reach         time.Duration // how long it may take to say which node it is

	mutex   sync.Mutex
	queued  int
	last    uint64 // the number of the last connection
	known   uint64 // that over which it said that it is the node that it should be
	trouble string // why it isn't reached
	amiss   string // what it says of itself that isn't as its record has it
	// unmounted says why volumes aren't mounted there that its record has. Nobody changes it.
	unmounted map[uint64]string
}

func newPlugin(name, address string, limit int, reach time.Duration, dial Dial, heard Heard) (*plugin, error) {
	made := &plugin{name: name, address: address, heard: heard, reach: reach, places: make(chan struct{}, limit), closed: make(chan struct{})}
	connection, err := dial(name, address, made.connects)
	made.connection = connection
	if err == nil && name != Controller {
		go made.listen()
	}
	return made, err
}

// connects gives the number of a connection that is made, at whose end another plugin may be.
func (plugin *plugin) connects() uint64 {
	plugin.mutex.Lock()
	defer plugin.mutex.Unlock()
	plugin.last++
	return plugin.last
}

func (plugin *plugin) close() {
	close(plugin.closed)
	plugin.connection.Close()
}

// turn waits until the plugin is reached and has a place for a call, which is to be given back, and says over which connection the call is to be made. Where
// a time is given, it fails once that is over and the plugin isn't reached; how long a call waits for its place doesn't count.
func (plugin *plugin) turn(ctx context.Context, until time.Time) (by *over, release func(), err error) {
	plugin.queue(1)
	defer plugin.queue(-1)
	reached := ctx
	if !until.IsZero() {
		var cancel context.CancelFunc
		reached, cancel = context.WithDeadline(ctx, until)
		defer cancel()
	}
	release = func() { <-plugin.places }
	for {
		if err := plugin.connected(reached); err != nil {
			return nil, nil, err
		}
		select {
		case plugin.places <- struct{}{}:
		case <-plugin.closed:
			return nil, nil, ErrMoved
		case <-ctx.Done():
			return nil, nil, ctx.Err()
		}
		if plugin.connection.GetState() != connectivity.Ready { // it went while this call waited for its place
			release()
			continue
		}
		by, err := plugin.identify(ctx)
		if err == nil {
			return by, release, nil
		}
		release()
		select {
		case <-time.After(again):
		case <-reached.Done():
			return nil, nil, plugin.unreached(reached, err)
		}
	}
}

func (plugin *plugin) queue(more int) {
	plugin.mutex.Lock()
	defer plugin.mutex.Unlock()
	plugin.queued += more
}

// connected waits until there is a connection.
func (plugin *plugin) connected(ctx context.Context) error {
	for {
		state := plugin.connection.GetState()
		switch {
		case state == connectivity.Ready:
			return nil
		case state == connectivity.Shutdown:
			return ErrMoved
		case !plugin.connection.WaitForStateChange(ctx, state):
			return plugin.unreached(ctx, fmt.Errorf("%w: %v", ErrNotReached, state))
		}
	}
}

// unreached is why a call wasn't sent: who gave it up, or that the plugin wasn't reached in time.
func (plugin *plugin) unreached(ctx context.Context, err error) error {
	if ctx.Err() == context.Canceled {
		return ctx.Err()
	}
	plugin.mutex.Lock()
	defer plugin.mutex.Unlock()
	plugin.trouble = err.Error()
	return err
}

// identify asks a node which one it is, once for each connection: CSI's requests name no node, so one at another's address would carry them out.
func (plugin *plugin) identify(ctx context.Context) (*over, error) {
	plugin.mutex.Lock()
	by := &over{number: plugin.last}
	isKnown := plugin.last > 0 && plugin.known == plugin.last
	if plugin.name == Controller {
		by.number, isKnown = 0, true
	}
	if isKnown {
		plugin.trouble = ""
	}
	plugin.mutex.Unlock()
	if isKnown {
		return by, nil
	}
	ctx, cancel := context.WithTimeout(ctx, plugin.reach)
	defer cancel()
	told, err := wire.NewNodeClient(plugin.connection).NodeGetInfo(ctx, &wire.NodeGetInfoRequest{}, grpc.PerRPCCredentials(by))
	if err != nil {
		err = fmt.Errorf("%w: which node it is: %s", ErrNotReached, said(err))
	} else if NodeName(told.GetNodeId()) != plugin.name {
		err = fmt.Errorf("%w: %q", ErrOther, told.GetNodeId())
	}
	plugin.mutex.Lock()
	defer plugin.mutex.Unlock()
	if err != nil {
		plugin.trouble = err.Error()
		return nil, err
	}
	if by.number > plugin.known {
		plugin.known = by.number
	}
	plugin.trouble = ""
	return by, nil
}

func (plugin *plugin) state() State {
	plugin.mutex.Lock()
	defer plugin.mutex.Unlock()
	state := plugin.connection.GetState()
	trouble := plugin.trouble
	if trouble == "" && state == connectivity.TransientFailure {
		trouble = ErrNotReached.Error()
	}
	return State{
		Address: plugin.address, Connection: state.String(), UnderWay: len(plugin.places), Queued: plugin.queued, Trouble: trouble,
		Amiss: plugin.amiss,
	}
}
