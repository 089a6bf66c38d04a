package serving

import (
	"context"
	"sync/atomic"
	"time"

	"tufayon/service/frames"
	"tufayon/service/records"
)

// An Observer is told what a core does. It returns soon, and asks the core nothing.
type Observer interface {
	// Committed tells how long a commit took, or why it failed: then the core ends.
	Committed(took time.Duration, err error)
	// Acted tells how long what a call asks for took to be done, or why it wasn't.
	Acted(kind frames.Kind, took time.Duration, err error)
	// Repeated tells that a call was a duplicate, and got the kept reply.
	Repeated(kind frames.Kind)
}

// unobserved is told in vain.
type unobserved struct{}

func (unobserved) Committed(time.Duration, error)          {}
func (unobserved) Acted(frames.Kind, time.Duration, error) {}
func (unobserved) Repeated(frames.Kind)                    {}

// counts are what the goroutine last said of itself.
type counts struct {
	rows, session, committing int64 // since when a commit is under way, in Unix nanoseconds, or 0
}

// Counts are how many there are of what an operator watches.
type Counts struct {
	Calls      int           // that wait or are under way
	Rows       int           // of volumes, those that a later session forgets too
	Session    uint64        // the latest that the plugin has heard of
	Committing time.Duration // how long the present commit has taken: 0 where there is none
}

// Counts counts now.
func (core *Core) Counts() Counts {
	now := Counts{Rows: int(atomic.LoadInt64(&core.counts.rows)), Session: uint64(atomic.LoadInt64(&core.counts.session))}
	if began := atomic.LoadInt64(&core.counts.committing); began != 0 {
		now.Committing = time.Since(time.Unix(0, began))
	}
	core.mutex.Lock()
	defer core.mutex.Unlock()
	now.Calls = core.calls
	return now
}

// count notes what the record has.
func (core *Core) count() {
	rows := len(core.parts)
	if core.parts[records.HeadKey] != nil {
		rows--
	}
	atomic.StoreInt64(&core.counts.rows, int64(rows))
	atomic.StoreInt64(&core.counts.session, int64(core.latest()))
}

// commit commits what a group changed, and tells how long that took.
func (core *Core) commit(group *group) error {
	began := time.Now()
	err := core.timed(func() error { return core.put(context.Background(), group) })
	core.config.Observer.Committed(time.Since(began), err)
	core.count()
	return err
}

// timed has a commit counted as one that is under way, so that one that hangs is found.
func (core *Core) timed(commit func() error) error {
	atomic.StoreInt64(&core.counts.committing, time.Now().UnixNano())
	defer atomic.StoreInt64(&core.counts.committing, 0)
	return commit()
}

// acted does what a request asks for, and tells how long that took. Once what is being done is to end nothing is begun any more, only to be ended at once.
func (core *Core) acted(request Request, known Known) (any, error) {
	if core.acting.Err() != nil {
		return nil, errTooLate
	}
	began := time.Now()
	gave, err := request.Act(core.acting, known)
	core.config.Observer.Acted(request.kind(), time.Since(began), err)
	return gave, err
}
