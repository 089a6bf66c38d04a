package host

import (
	"context"
	"errors"
	"fmt"
	"sync"
	"time"

	"tufayon/service/store"
)

// ErrUnsure says that it isn't known whether this process still has the store.
var ErrUnsure = errors.New("it isn't known whether this service leads")

const confirmWithin = 10 * time.Second // how long the store may take to say so

// Confirm says whether this process had the store after the call of it: what was read before was no older copy then. It fails with ErrEnded where another
// process has it, and then the host ends, and else with ErrUnsure or the context's error.
func (host *Host) Confirm(ctx context.Context) error {
	err := host.confirms.confirm(ctx)
	switch {
	case err == nil || ctx.Err() != nil:
		return err
	case errors.Is(err, store.ErrLost):
		go host.tell(&fault{err})
		return ErrEnded
	}
	return fmt.Errorf("%w: %v", ErrUnsure, err)
}

// fault ends the host.
type fault struct{ err error }

func (it *fault) alone() bool { return true }

// ask gives why it ends. Where another process has the store by now, that is why: it seems an older copy to plugins.
func (it *fault) ask(host *Host, _ *work) error {
	if errors.Is(it.err, store.ErrOlder) {
		if err := host.core.store.Commit(context.Background(), false, nil); err != nil {
			return err
		}
	}
	return it.err
}

// confirming asks the store once for all who ask meanwhile: each gets an answer that was asked for after it came.
type confirming struct {
	ask func(context.Context) error

	mutex  sync.Mutex
	next   *round // of those who came since the store was asked last; nil where there are none
	isBusy bool
}

// A round is asked once.
type round struct {
	done chan struct{}
	err  error // read once done is closed
}

func (confirming *confirming) confirm(ctx context.Context) error {
	confirming.mutex.Lock()
	if confirming.next == nil {
		confirming.next = &round{done: make(chan struct{})}
	}
	mine := confirming.next
	if !confirming.isBusy {
		confirming.isBusy = true
		go confirming.run()
	}
	confirming.mutex.Unlock()
	select {
	case <-mine.done:
		return mine.err
	case <-ctx.Done():
		return ctx.Err()
	}
}

// run asks round after round, until nobody waits.
func (confirming *confirming) run() {
	for {
		confirming.mutex.Lock()
		it := confirming.next
		confirming.next = nil
		confirming.isBusy = it != nil
		confirming.mutex.Unlock()
		if it == nil {
			return
		}
		ctx, cancel := context.WithTimeout(context.Background(), confirmWithin)
		it.err = confirming.ask(ctx)
		cancel()
		close(it.done)
	}
}
