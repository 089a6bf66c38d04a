package host

import (
	"runtime"
	"sync"
	"testing"
	"time"
)

// Calls are made side by side, however many there are; goroutines are used again, some wait, and all end.
func TestCallers(t *testing.T) {
	done, before := make(chan struct{}), runtime.NumGoroutine()
	it := newCallers(done)
	for round := 0; round < 20; round++ {
		var all sync.WaitGroup
		goOn := make(chan struct{})
		for at := 0; at < 3*mostIdle; at++ {
			all.Add(1)
			it.make(func() { all.Done(); <-goOn })
		}
		all.Wait() // all are under way at once
		close(goOn)
	}
	settles(t, before+mostIdle)
	close(done)
	settles(t, before)
}

// settles wants at most so many goroutines soon.
func settles(t *testing.T, most int) {
	t.Helper()
	for end := time.Now().Add(10 * time.Second); runtime.NumGoroutine() > most; time.Sleep(time.Millisecond) {
		if time.Now().After(end) {
			t.Fatalf("there are %d goroutines, and not %d", runtime.NumGoroutine(), most)
		}
	}
}
