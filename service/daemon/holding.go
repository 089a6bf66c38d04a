package daemon

import (
	"sync"
	"time"

	"go.uber.org/zap/zapcore"
)

// held is how long an event may wait until it is written, so that those who log don't wait for each line.
const held = 100 * time.Millisecond

// A sink has events that wait. One at a time adds to it, or takes.
type sink interface {
	// add has an event wait, and says whether there are too many now.
	add(zapcore.Entry, []zapcore.Field) (isFull bool, err error)
	// take gives what writes those that wait, and has them wait no more. It isn't called again before those are written.
	take() (write func() error)
}

// holding is a core whose events wait for a while at most, and then are written together, in their order, and in nobody's time; a warning is written at
// once, with all before it.
type holding struct {
	zapcore.LevelEnabler
	queue  *queue
	fields []zapcore.Field // of each event
}

// hold makes a core, from a level on, that has its events written later.
func hold(least zapcore.LevelEnabler, by sink) zapcore.Core {
	made := &queue{by: by}
	made.timer = time.AfterFunc(time.Hour, func() { made.write() })
	made.timer.Stop()
	return &holding{LevelEnabler: least, queue: made}
}

// With adds fields to each event.
func (it *holding) With(fields []zapcore.Field) zapcore.Core {
	return &holding{it.LevelEnabler, it.queue, it.and(fields)}
}

func (it *holding) and(fields []zapcore.Field) []zapcore.Field {
	if len(it.fields) == 0 {
		return fields
	}
	return append(append([]zapcore.Field{}, it.fields...), fields...)
}

// Check takes entries of its level.
func (it *holding) Check(entry zapcore.Entry, checked *zapcore.CheckedEntry) *zapcore.CheckedEntry {
	if it.Enabled(entry.Level) {
		return checked.AddCore(entry, it)
	}
	return checked
}

// Write has an entry wait. A warning, or where too many wait, has all written.
func (it *holding) Write(entry zapcore.Entry, fields []zapcore.Field) error {
	isFull, err := it.queue.add(entry, it.and(fields))
	if err == nil && (isFull || entry.Level >= zapcore.WarnLevel) {
		return it.queue.write()
	}
	return err
}

// Sync writes all that waits.
func (it *holding) Sync() error { return it.queue.write() }

// A queue has a sink's events written.
type queue struct {
	timer   *time.Timer
	writing sync.Mutex // one at a time writes

	mutex  sync.Mutex // of what follows
	by     sink
	isHeld bool // something waits
}

func (it *queue) add(entry zapcore.Entry, fields []zapcore.Field) (isFull bool, err error) {
	it.mutex.Lock()
	defer it.mutex.Unlock()
	if !it.isHeld {
		it.isHeld = true
		it.timer.Reset(held)
	}
	return it.by.add(entry, fields)
}

// write writes what waits.
func (it *queue) write() error {
	it.writing.Lock()
	defer it.writing.Unlock()
	return it.take()()
}

func (it *queue) take() func() error {
	it.mutex.Lock()
	defer it.mutex.Unlock()
	it.isHeld = false
	return it.by.take()
}
