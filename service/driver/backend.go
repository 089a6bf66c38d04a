package driver

import (
	"context"
	"errors"
	"sync"

	"google.golang.org/grpc"
	"google.golang.org/grpc/codes"
	"google.golang.org/grpc/health"
	"google.golang.org/grpc/health/grpc_health_v1"
	"google.golang.org/grpc/metadata"
	"google.golang.org/grpc/status"

	"tufayon/service/frames"
	"tufayon/service/numbers"
	"tufayon/service/serving"
	"tufayon/service/translate"
)

// A Core carries calls to a plugin: serving.Core.
type Core interface {
	Admit(ctx context.Context) error
	Carry(ctx context.Context, request serving.Request) (serving.Answer, error)
	Known(ctx context.Context, volume uint64) (serving.Known, error)
	Begin(ctx context.Context, opening numbers.Opening) (frames.Number, error)
	Confirm(ctx context.Context, acknowledged frames.Number) error
	Done() <-chan struct{}
}

// errNotReady is what a call gets that needs the plugin, while the driver waits for its store, or once it serves no more.
var errNotReady = status.Error(codes.Unavailable, "not ready")

// A Backend is the core behind the services, which are there before it, while the driver waits to lead.
type Backend struct {
	health  *health.Server
	mutex   sync.RWMutex
	served  Core // nil while there is none
	trouble Trouble
	changed chan struct{} // closed at the next change of these two
	isSure  chan struct{} // closed once the store is known to be no older copy
}

// NewBackend makes one that isn't ready.
func NewBackend() *Backend {
	backend := &Backend{health: health.NewServer(), changed: make(chan struct{}), isSure: make(chan struct{})}
	backend.tell(grpc_health_v1.HealthCheckResponse_NOT_SERVING)
	return backend
}

// tell sets what grpc.health.v1 says of the whole server.
func (backend *Backend) tell(how grpc_health_v1.HealthCheckResponse_ServingStatus) {
	backend.health.SetServingStatus("", how)
}

// Serve has the services serve over the core, from now until it is done, or Stop.
func (backend *Backend) Serve(core Core) {
	backend.put(core, nil)
	go func() {
		<-core.Done()
		backend.put(nil, core)
	}()
}

// Stop has no further call get to the core. Those that are under way go on.
func (backend *Backend) Stop() { backend.put(nil, nil) }

// put puts a core, or none, in place of another one, or of any.
func (backend *Backend) put(core, other Core) {
	backend.mutex.Lock()
	defer backend.mutex.Unlock()
	if other != nil && backend.served != other {
		return
	}
	backend.served = core
	backend.change()
	how := grpc_health_v1.HealthCheckResponse_SERVING
	if core == nil {
		how = grpc_health_v1.HealthCheckResponse_NOT_SERVING
	}
	backend.tell(how)
}

// change wakes those that wait for a change. The lock is held.
func (backend *Backend) change() {
	close(backend.changed)
	backend.changed = make(chan struct{})
}

// A Trouble is what isn't mounted that a node's record has: no text where all is.
type Trouble struct {
	Text      string
	Asks      bool        // nothing is mounted before it is confirmed that the store is no older copy
	Unmounted []Unmounted // by rising id
}

// An Unmounted is a volume that isn't mounted, or not everywhere, and why.
type Unmounted struct {
	Volume uint64
	Why    string
}

// is says whether two troubles say the same.
func (trouble Trouble) is(other Trouble) bool {
	if trouble.Text != other.Text || trouble.Asks != other.Asks || len(trouble.Unmounted) != len(other.Unmounted) {
		return false
	}
	for at, it := range trouble.Unmounted {
		if it != other.Unmounted[at] {
			return false
		}
	}
	return true
}

// tellTrouble sets the trouble.
func (backend *Backend) tellTrouble(trouble Trouble) {
	backend.mutex.Lock()
	defer backend.mutex.Unlock()
	select {
	case <-backend.isSure:
		trouble.Asks = false
	default:
	}
	if !backend.trouble.is(trouble) {
		backend.trouble = trouble
		backend.change()
	}
}

// confirm notes that the store is no older copy, or that it is one.
func (backend *Backend) confirm(err error) {
	backend.mutex.Lock()
	defer backend.mutex.Unlock()
	select {
	case <-backend.isSure:
		return
	default:
	}
	was := backend.trouble
	switch {
	case err == nil:
		close(backend.isSure)
		backend.trouble.Asks = false
	case errors.Is(err, serving.ErrEarlier) && backend.trouble.Asks:
		backend.trouble.Text = "its store is an older copy, or another's: nothing is mounted by it"
	}
	if !backend.trouble.is(was) {
		backend.change()
	}
}

// Trouble is what isn't mounted that the record has, and what is closed once that may have changed, or whether anything is served.
func (backend *Backend) Trouble() (trouble Trouble, changed <-chan struct{}) {
	backend.mutex.RLock()
	defer backend.mutex.RUnlock()
	return backend.trouble, backend.changed
}

// core gives the core, or refuses the call.
func (backend *Backend) core() (Core, error) {
	backend.mutex.RLock()
	defer backend.mutex.RUnlock()
	if backend.served == nil {
		return nil, errNotReady
	}
	return backend.served, nil
}

// Core gives the core, or refuses a call by 14 `not ready`.
func (backend *Backend) Core() (Core, error) { return backend.core() }

// carry carries a request to the plugin, and gives the refusal where there is one. What the plugin itself replied is marked by the call's number.
func (backend *Backend) carry(ctx context.Context, request serving.Request) (serving.Answer, error) {
	core, err := backend.core()
	if err != nil {
		return serving.Answer{}, err
	}
	answer, err := core.Carry(ctx, request)
	if err != nil {
		return serving.Answer{}, err
	}
	_ = grpc.SetTrailer(ctx, metadata.Pairs(numbers.ReplyKey, numbers.Text(answer.Reply.Number))) // fails where gRPC isn't what calls
	return answer, translate.Refusal(answer.Reply)
}
