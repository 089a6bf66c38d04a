package passing

import (
	"sync"

	"google.golang.org/grpc"
)

// mostIdle is how many goroutines are kept that have no call.
const mostIdle = 128

// Kept are goroutines that are kept for the next calls. A new one has a small stack, which each call would have grow anew, by copying it. gRPC has such
// (NumStreamWorkers), and may panic where it is stopped while a call comes.
type Kept struct {
	mutex sync.Mutex
	idle  []*worker // in the order in which they ended their calls
	ended bool
}

// A worker is one of them.
type worker struct {
	calls chan func() error
	gave  chan error
}

// Handle has calls handled by them.
func (kept *Kept) Handle(handle grpc.StreamHandler) grpc.StreamHandler {
	return func(server any, stream grpc.ServerStream) error {
		it := kept.take()
		it.calls <- func() error { return handle(server, stream) }
		err := <-it.gave
		kept.leave(it)
		return err
	}
}

// take gives the one that ended its call last, or a new one.
func (kept *Kept) take() *worker {
	kept.mutex.Lock()
	defer kept.mutex.Unlock()
	if last := len(kept.idle) - 1; last >= 0 {
		it := kept.idle[last]
		kept.idle = kept.idle[:last]
		return it
	}
	it := &worker{calls: make(chan func() error, 1), gave: make(chan error, 1)}
	go func() {
		for call := range it.calls {
			it.gave <- call()
		}
	}()
	return it
}

// leave keeps one, unless enough are kept.
func (kept *Kept) leave(it *worker) {
	kept.mutex.Lock()
	defer kept.mutex.Unlock()
	if kept.ended || len(kept.idle) == mostIdle {
		close(it.calls)
		return
	}
	kept.idle = append(kept.idle, it)
}

// Close ends those that are kept, and each other one with its call.
func (kept *Kept) Close() {
	kept.mutex.Lock()
	defer kept.mutex.Unlock()
	kept.ended = true
	for _, it := range kept.idle {
		close(it.calls)
	}
	kept.idle = nil
}
