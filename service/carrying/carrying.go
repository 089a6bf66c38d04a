// Package carrying makes an orchestrator's calls at the plugins, as CSI's gRPC calls: side by side, a limited number at each plugin, so that one that is
// slow or gone holds up no other.
package carrying

import (
	"context"
	"errors"
	"fmt"
	"strings"
	"sync"
	"time"

	"google.golang.org/grpc"
	"google.golang.org/grpc/codes"
	"google.golang.org/grpc/connectivity"
	"google.golang.org/grpc/metadata"
	"google.golang.org/grpc/status"

	"tufayon/service/frames"
	"tufayon/service/numbers"
	"tufayon/service/translate"
)

// Controller is the name of the controller among the plugins.
const Controller = "controller"

// NodeName is the name of a node among the plugins.
func NodeName(id string) string { return "node:" + id }

// PluginOf is the name of the plugin that a call goes to.
func PluginOf(call frames.Call) string {
	if call.Kind().OfNode() {
		return NodeName(call.Node)
	}
	return Controller
}

// Why there is no reply.
var (
	ErrNoAddress  = errors.New("it has no address")
	ErrNotReached = errors.New("it isn't reached")
	ErrOther      = errors.New("another plugin is there")
	ErrNoReply    = errors.New("no reply")
	ErrRefused    = errors.New("its driver refuses")
	ErrMoved      = errors.New("it has another address now")
)

// Limits are how many calls are made at once, and how long they take.
type Limits struct {
	AtController, AtNode int           // calls at once
	Answer               time.Duration // how long a plugin may take to answer a call
	Reach                time.Duration // how long it may take to say which node it is
}

// A Carrier makes calls at plugins. Its methods may be called side by side.
type Carrier struct {
	limits  Limits
	staging string
	dial    Dial

	mutex   sync.Mutex
	plugins map[string]*plugin
	heard   Heard // nil while it isn't known
}

// A Heard is the last call that a plugin acknowledged that it heard. It isn't known where another process leads.
type Heard func(plugin string) (heard frames.Number, isKnown bool)

// Leads says which calls were heard, from now on: nodes that ask for it are told.
func (carrier *Carrier) Leads(heard Heard) {
	carrier.mutex.Lock()
	defer carrier.mutex.Unlock()
	carrier.heard = heard
}

func (carrier *Carrier) heardOf(plugin string) (frames.Number, bool) {
	carrier.mutex.Lock()
	heard := carrier.heard
	carrier.mutex.Unlock()
	if heard == nil {
		return frames.Number{}, false
	}
	return heard(plugin)
}

// Dial makes a connection to a plugin at an address, which is used whenever it is there. Peers.Dial is one: it has credentials that keep the number that
// `connects` gives of each connection that it makes.
type Dial func(plugin, address string, connects func() uint64) (*grpc.ClientConn, error)

// New makes a carrier without plugins. A volume is staged in the folder `staging`, under its id.
func New(limits Limits, staging string, dial Dial) *Carrier {
	return &Carrier{limits: limits, staging: strings.TrimSuffix(staging, "/"), dial: dial, plugins: map[string]*plugin{}}
}

// Set sets where the plugins are, by their names. Calls that are under way at one that moved or went get no reply. Where it fails, nothing is changed.
func (carrier *Carrier) Set(addresses map[string]string) error {
	carrier.mutex.Lock()
	defer carrier.mutex.Unlock()
	made := map[string]*plugin{}
	for name, address := range addresses {
		if there := carrier.plugins[name]; there != nil && there.address == address {
			continue
		}
		limit := carrier.limits.AtNode
		if name == Controller {
			limit = carrier.limits.AtController
		}
		it, err := newPlugin(name, address, limit, carrier.limits.Reach, carrier.dial, carrier.heardOf)
		if err != nil {
			for _, it := range made {
				it.close()
			}
			return fmt.Errorf("%s at %s: %w", name, address, err)
		}
		made[name] = it
	}
	for name, it := range carrier.plugins {
		if _, stays := addresses[name]; !stays || made[name] != nil {
			it.close()
			delete(carrier.plugins, name)
		}
	}
	for name, it := range made {
		carrier.plugins[name] = it
	}
	return nil
}

// Close closes all connections.
func (carrier *Carrier) Close() { carrier.Set(nil) }

func (carrier *Carrier) plugin(name string) *plugin {
	carrier.mutex.Lock()
	defer carrier.mutex.Unlock()
	return carrier.plugins[name]
}

// Carry makes a call, once its plugin is reached and has a place for it, and gives the reply. It fails where none came: the call may have been carried
// out or not, or it wasn't sent, since the plugin wasn't reached until a time, if one is given.
func (carrier *Carrier) Carry(ctx context.Context, call frames.Call, until time.Time) (frames.Reply, error) {
	plugin := carrier.plugin(PluginOf(call))
	if plugin == nil {
		return frames.Reply{}, ErrNoAddress
	}
	method, err := translate.MethodOf(call, carrier.staging+"/"+translate.VolumeID(call.Volume()))
	if err != nil {
		return replyOf(call, method, err) // no plugin is asked for what CSI can't say
	}
	for {
		reply, isSent, err := carrier.carry(ctx, plugin, call, method, until)
		if isSent || err != nil {
			return reply, err
		}
	}
}

// carry makes a call over the connection of the plugin's turn. Where that has ended meanwhile, nothing is sent.
func (carrier *Carrier) carry(ctx context.Context, plugin *plugin, call frames.Call, method translate.Method, until time.Time) (frames.Reply, bool, error) {
	over, release, err := plugin.turn(ctx, until)
	if err != nil {
		return frames.Reply{}, false, err
	}
	defer release()
	ctx, cancel := context.WithTimeout(ctx, carrier.limits.Answer)
	defer cancel()
	ctx = metadata.AppendToOutgoingContext(ctx, numbers.Key, numbers.Text(call.Number))
	var trailer metadata.MD
	err = plugin.connection.Invoke(ctx, method.Path, method.Request, method.Response, grpc.Trailer(&trailer), grpc.PerRPCCredentials(over))
	switch {
	case err != nil && over.refused():
		return frames.Reply{}, false, nil
	case err != nil && !isReply(trailer, call.Number) && isDrivers(status.Code(err)):
		return frames.Reply{}, true, fmt.Errorf("%w: %s", ErrRefused, said(err))
	case err != nil && !isReply(trailer, call.Number):
		return frames.Reply{}, true, fmt.Errorf("%w: %s", ErrNoReply, said(err))
	}
	reply, err := replyOf(call, method, err)
	return reply, true, err
}

// isReply says whether a trailer says that the plugin itself replied to this call. A status without it was made by gRPC, or by something between.
func isReply(trailer metadata.MD, number frames.Number) bool {
	values := trailer.Get(numbers.ReplyKey)
	return len(values) == 1 && values[0] == numbers.Text(number)
}

// isDrivers says whether a status that isn't the plugin's reply is its driver's: gRPC makes none of these by itself. It is no reply either, since the plugin
// wasn't asked, but the driver is there, and another try will hardly fare better.
func isDrivers(code codes.Code) bool {
	switch code {
	case codes.InvalidArgument, codes.NotFound, codes.AlreadyExists, codes.FailedPrecondition, codes.Aborted, codes.OutOfRange:
		return true
	}
	return false
}

func replyOf(call frames.Call, method translate.Method, err error) (frames.Reply, error) {
	reply, came := translate.ReplyOf(call, method.Response, err)
	if !came {
		return frames.Reply{}, fmt.Errorf("%w: %s", ErrNoReply, said(err))
	}
	return reply, nil
}

// mostSaid is how many bytes are told of what a driver says: each volume keeps it, and the history.
const mostSaid = 1024

// said is what a status says, in short. A driver's words may be anything, whole pages too, and what isn't UTF-8 can't be told to callers.
func said(err error) string {
	told := status.Convert(err)
	if told.Code() == codes.OK {
		return "an answer that says no volume"
	}
	message := strings.ToValidUTF8(told.Message(), "\ufffd")
	if len(message) > mostSaid {
		message = strings.ToValidUTF8(message[:mostSaid], "") + ".."
	}
	return fmt.Sprintf("%d %v %s", told.Code(), told.Code(), message)
}

// A State is how it stands with a plugin.
type State struct {
	Address    string
	Connection string // gRPC's name of the connection's state
	UnderWay   int    // calls
	Queued     int    // calls that wait for their turn, or until it is reached
	Trouble    string // why it isn't reached
	Amiss      string // what a node says that isn't as its record has it: calls are made at it all the same
}

// IsReached says whether calls can be made at it, as far as is known.
func (state State) IsReached() bool {
	return state.Connection == connectivity.Ready.String() && state.Trouble == ""
}

// States says how it stands with each plugin, by its name.
func (carrier *Carrier) States() map[string]State {
	carrier.mutex.Lock()
	defer carrier.mutex.Unlock()
	states := make(map[string]State, len(carrier.plugins))
	for name, it := range carrier.plugins {
		states[name] = it.state()
	}
	return states
}
