package history

import (
	"sync"
	"time"

	"tufayon/service/host"
)

const (
	waiting  = 4096                   // batches that may wait to be kept: beyond that they are lost
	together = 100 * time.Millisecond // so long they wait at most, unless somebody asks before
)

// coming is what came and isn't kept yet, so that the host is soon done with it.
type coming struct {
	keep *time.Timer // has it kept

	mutex   sync.Mutex
	batches [][]host.Happening
	lost    uint64
	told    chan struct{} // closed, and made anew, when something came
	isAsked bool          // somebody has that channel
}

// add has a batch wait. Sessions always find their place; other events that find none are lost.
func (it *coming) add(batch []host.Happening) {
	it.mutex.Lock()
	defer it.mutex.Unlock()
	if first := batch[0].What; len(it.batches) >= waiting && first != host.Began && first != host.Lost {
		it.lost += uint64(len(batch))
		return
	}
	it.batches = append(it.batches, batch)
	if len(it.batches) == 1 {
		it.keep.Reset(together)
	}
	if it.isAsked {
		close(it.told)
		it.told, it.isAsked = make(chan struct{}), false
	}
}

// take gives what waits.
func (it *coming) take() [][]host.Happening {
	it.mutex.Lock()
	defer it.mutex.Unlock()
	taken := it.batches
	it.batches = nil
	return taken
}

// more gives what waits, and what is closed when something comes after that.
func (it *coming) more() ([][]host.Happening, <-chan struct{}) {
	it.mutex.Lock()
	defer it.mutex.Unlock()
	taken := it.batches
	it.batches, it.isAsked = nil, true
	return taken, it.told
}

// losses are how many events were lost.
func (it *coming) losses() uint64 {
	it.mutex.Lock()
	defer it.mutex.Unlock()
	return it.lost
}
