package upstream

import (
	"context"
	"sync"
	"time"

	"tufayon/service/serving"
)

// A gauge is a number that only the plugin's goroutine can count.
type gauge struct {
	mutex  sync.Mutex
	look   looker // nil as long as nobody serves
	number func(serving.View) int
	asks   bool // who counts hasn't ended
	last   int
}

// A looker is a core, to whoever has a look at what it knows.
type looker interface {
	Look(ctx context.Context, look func(serving.View)) error
}

// moment is how long who asks waits for a count.
const moment = 100 * time.Millisecond

// of says of whom it is, and what the number is.
func (gauge *gauge) of(look looker, number func(serving.View) int) {
	gauge.mutex.Lock()
	defer gauge.mutex.Unlock()
	gauge.look, gauge.number = look, number
}

// count counts, or where that takes longer than a moment, as while a commit hangs, gives what was counted last.
func (gauge *gauge) count() int {
	gauge.mutex.Lock()
	defer gauge.mutex.Unlock()
	if gauge.look == nil || gauge.asks {
		return gauge.last
	}
	gauge.asks = true
	counted := make(chan struct{})
	go gauge.ask(gauge.look, gauge.number, counted)
	gauge.mutex.Unlock()
	select {
	case <-counted:
	case <-time.After(moment):
	}
	gauge.mutex.Lock()
	return gauge.last
}

func (gauge *gauge) ask(look looker, number func(serving.View) int, counted chan<- struct{}) {
	defer close(counted)
	now := 0
	err := look.Look(context.Background(), func(view serving.View) { now = number(view) })
	gauge.mutex.Lock()
	defer gauge.mutex.Unlock()
	if gauge.asks = false; err == nil {
		gauge.last = now
	}
}
