package host

import (
	"sync"

	"tufayon/service/records"
)

// A waiter is a caller that waits for an answer.
type waiter struct {
	came    chan answered // has room for one
	reached func(*records.Row) bool
	hasGone bool // the waiters' to change: it waits no more
}

func newWaiter(reached func(*records.Row) bool) *waiter {
	return &waiter{came: make(chan answered, 1), reached: reached}
}

// mostResting is how many callers may wait until their volume is at rest, each with a call that is open: fewer in a test.
var mostResting = 16384

// waiters are those who wait until nothing is wanted of a volume any more, by its name.
type waiters struct {
	mutex sync.Mutex
	of    map[string]map[*waiter]bool
	count int
}

func newWaiters() *waiters { return &waiters{of: map[string]map[*waiter]bool{}} }

// areFull says whether so many wait that nobody else may.
func (waiters *waiters) areFull() bool {
	waiters.mutex.Lock()
	defer waiters.mutex.Unlock()
	return waiters.count >= mostResting
}

// add has one wait, unless it has gone meanwhile.
func (waiters *waiters) add(name string, it *waiter) {
	waiters.mutex.Lock()
	defer waiters.mutex.Unlock()
	if it.hasGone {
		return
	}
	if waiters.of[name] == nil {
		waiters.of[name] = map[*waiter]bool{}
	}
	waiters.of[name][it] = true
	waiters.count++
}

// drop takes out one who waits no more.
func (waiters *waiters) drop(name string, it *waiter) {
	waiters.mutex.Lock()
	defer waiters.mutex.Unlock()
	it.hasGone = true
	if waiters.of[name][it] {
		delete(waiters.of[name], it)
		waiters.count--
	}
	if len(waiters.of[name]) == 0 {
		delete(waiters.of, name)
	}
}

// rest has those who wait for a volume answered, of which nothing is wanted any more as it is now, whatever is wanted next.
func (waiters *waiters) rest(work *work, volume *volume) {
	waiters.mutex.Lock()
	defer waiters.mutex.Unlock()
	name, shown := volume.row.Name, volume.shown()
	for it := range waiters.of[name] {
		work.answer(it, answered{answer: Answer{Volume: shown, Reached: it.reached == nil || it.reached(shown.Row)}})
	}
	waiters.count -= len(waiters.of[name])
	delete(waiters.of, name)
}
