package host

import (
	"context"
	"errors"
	"fmt"
	"time"

	"go.uber.org/zap"

	"tufayon/service/carrying"
	"tufayon/service/frames"
	"tufayon/service/numbers"
	"tufayon/service/store"
)

// gates are those of the plugins of a session, by their names: each is closed, as a channel, once its plugin has begun the session. Before that nothing is
// sent to it, or about it.
type gates map[string]chan struct{}

func newGates(nodes []string) gates {
	made := gates{carrying.Controller: make(chan struct{})}
	for _, id := range nodes {
		made[carrying.NodeName(id)] = make(chan struct{})
	}
	return made
}

// of are those that a call has to wait for: the controller's, and that of the node which it goes to or is about, if that is listed.
func (gates gates) of(call frames.Call) []chan struct{} {
	needed := []chan struct{}{gates[carrying.Controller]}
	node := call.Node
	switch body := call.Body.(type) {
	case frames.ControllerPublishVolume:
		node = body.Node
	case frames.ControllerUnpublishVolume:
		node = body.Node
	}
	if gate := gates[carrying.NodeName(node)]; gate != nil {
		needed = append(needed, gate)
	}
	return needed
}

// lets says whether a call may be sent now.
func (gates gates) lets(call frames.Call) bool {
	for _, gate := range gates.of(call) {
		select {
		case <-gate:
		default:
			return false
		}
	}
	return true
}

// openPlugins has the session begin at the controller, and then at each node, side by side. The session is committed.
func (host *Host) openPlugins() {
	for name := range host.gates {
		opening := host.core.peers.opening(name, host.core.session, host.core.token)
		go host.openPlugin(host.calls, host.epoch, name, opening, host.gates[carrying.Controller])
	}
}

// openPlugin has the session begin at a plugin, and asks again as long as it doesn't. At a node it begins once the controller has begun it: where this store
// is an older copy, the controller says so, and a node that was put back with it would mount what is elsewhere by now.
func (host *Host) openPlugin(ctx context.Context, epoch uint64, name string, opening numbers.Opening, controller <-chan struct{}) {
	if name != carrying.Controller && !host.follows(ctx, epoch, name, controller) {
		return
	}
	log := host.log.With(zap.String("plugin", name), zap.Uint64("session", opening.Session))
	for wait := host.times.Retry; ; wait = 2 * wait {
		err := host.carrier.Begin(ctx, name, opening)
		switch {
		case ctx.Err() != nil:
			return
		case err == nil, errors.Is(err, carrying.ErrNone):
			if err != nil {
				log.Warn("an older copy of its store, or of this one, isn't found", zap.Error(err))
			}
			host.tell(&begunAt{plugin: name, epoch: epoch})
			return
		case errors.Is(err, carrying.ErrLater):
			host.tell(&fault{fmt.Errorf("%w: %s: %v", store.ErrOlder, name, err)})
			return
		}
		log.Warn("it doesn't begin the session, and isn't used", zap.Error(err))
		host.board.note(epoch, name, err.Error())
		if wait > host.times.MostRetry {
			wait = host.times.MostRetry
		}
		select {
		case <-time.After(wait):
		case <-ctx.Done():
			return
		}
	}
}

// follows waits until the controller has begun the session, and then tells so. If that isn't soon, why a node hasn't begun it is noted meanwhile.
func (host *Host) follows(ctx context.Context, epoch uint64, node string, controller <-chan struct{}) bool {
	late := time.NewTimer(host.times.Retry)
	defer late.Stop()
	for {
		select {
		case <-controller:
			return true
		case <-late.C:
			host.board.note(epoch, node, "it waits until the controller has begun the session")
		case <-ctx.Done():
			return false
		}
	}
}

// begunAt says that a plugin has begun the session.
type begunAt struct {
	plugin string
	epoch  uint64
}

func (it *begunAt) alone() bool { return false }

func (it *begunAt) ask(host *Host, work *work) error {
	if it.epoch != host.epoch {
		return nil
	}
	host.core.peers.begins(it.plugin, host.core.session)
	gate := host.gates[it.plugin]
	work.after = append(work.after, func() {
		host.board.note(it.epoch, it.plugin, "")
		if it.plugin == carrying.Controller {
			host.board.current()
		}
		close(gate)
	})
	return nil
}

// await waits until a call may be sent, or its plugin hasn't begun the session in time.
func (host *Host) await(ctx context.Context, epoch uint64, it sending, needed []chan struct{}) {
	late := make(<-chan time.Time)
	if !it.until.IsZero() {
		timer := time.NewTimer(time.Until(it.until))
		defer timer.Stop()
		late = timer.C
	}
	for _, gate := range needed {
		select {
		case <-gate:
		case <-late:
			err := fmt.Errorf("%w: it hasn't begun session %d", carrying.ErrNotReached, it.call.Number.Session)
			host.tell(&heard{name: it.name, epoch: epoch, call: it.call, err: err})
			return
		case <-ctx.Done():
			return
		}
	}
	host.tell(&let{epoch: epoch, sending: it})
}

// let says that a call may be sent.
type let struct {
	epoch   uint64
	sending sending
}

func (it *let) alone() bool { return false }

func (it *let) ask(host *Host, work *work) error {
	volume := host.volumes[it.sending.name]
	if it.epoch != host.epoch || volume == nil || !volume.isOpen || volume.open.Number != it.sending.call.Number {
		return nil
	}
	host.core.peers.sends(it.sending.call)
	work.sends = append(work.sends, it.sending)
	return nil
}

// send notes that a call is to be made: now, or once its plugins have begun the session.
func (host *Host) send(it sending, work *work) {
	if host.gates.lets(it.call) {
		host.core.peers.sends(it.call)
		work.sends = append(work.sends, it)
		return
	}
	work.held = append(work.held, it)
}
