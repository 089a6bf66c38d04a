package metrics

import (
	"sync"
	"sync/atomic"
)

// bound has, by keys, what metrics are found by: so labels are looked up once for each key, and not at each event.
type bound[Key comparable, Of any] struct {
	find func(Key) Of

	of    atomic.Pointer[map[Key]Of] // which nobody changes
	mutex sync.Mutex                 // of who puts another one in its place
}

// at gives what is found for a key.
func (it *bound[Key, Of]) at(key Key) Of {
	if of := it.of.Load(); of != nil {
		if found, isThere := (*of)[key]; isThere {
			return found
		}
	}
	found := it.find(key)
	it.mutex.Lock()
	defer it.mutex.Unlock()
	made := map[Key]Of{key: found}
	if of := it.of.Load(); of != nil {
		for key, its := range *of {
			made[key] = its
		}
	}
	it.of.Store(&made)
	return found
}
