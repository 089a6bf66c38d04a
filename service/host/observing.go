package host

import (
	"context"
	"time"

	"tufayon/service/frames"
	"tufayon/service/records"
)

// An Observer is told what happens. It returns soon, and asks the host nothing.
type Observer interface {
	// Happened tells what the orchestrator was asked, in that order, once it is committed, and callers are answered.
	Happened(all []Happening)
	// Called tells what came of a call: a reply, or why there is none. It is told side by side, before the orchestrator is.
	Called(call frames.Call, reply frames.Reply, err error, took time.Duration)
	// Committed tells how long a commit took, or why it failed: then the host ends.
	Committed(took time.Duration, err error)
}

// What happened.
type What uint8

// What may happen.
const (
	Commanded  What = iota // a caller's command was judged
	Replied                // a reply was taken
	Unanswered             // a call got no reply, or one that counts as none
	TimedOut               // the orchestrator was told that a call timed out, or that something is wanted
	Began                  // a session began
	Lost                   // a node was declared lost, and a session began
)

// A Happening is something that the orchestrator was asked. Which fields count, What says.
type Happening struct {
	What    What
	Time    time.Time
	Session uint64 // the present one
	Name    string // of the volume, of the first four

	Command Command      // of a Commanded
	IsMet   bool         // likewise: it was so already
	Refusal Refusal      // likewise: why it was refused, or 0
	Call    frames.Call  // of a Replied or an Unanswered
	Reply   frames.Reply // of a Replied
	Why     string       // of an Unanswered or a Began
	Sent    *frames.Call // the call that is made now, if one is
	Node    string       // of a Lost
	After   uint64       // of a Began: the session that the store had before, 0 where it had none

	Before, Row *records.Row   // as the volume was, and is now, of the first four: nil where it has none
	Nodes       []string       // the list, of the last two
	Rows        []*records.Row // all there are, of the last two
	Forgotten   []string       // names that this process knew and that are free again, of the last two
}

// tells notes what happened, as it is now.
func (host *Host) tells(work *work, it Happening) {
	if len(host.observers) == 0 {
		return
	}
	it.Time, it.Session = time.Now(), host.core.session
	if it.What == Began || it.What == Lost {
		it.Nodes, it.Forgotten, it.After = host.core.nodes, work.forgotten, host.core.after
		it.Rows = make([]*records.Row, 0, len(host.core.rows))
		for _, row := range host.core.rows {
			it.Rows = append(it.Rows, row)
		}
	} else {
		it.Row = host.core.row(it.Name)
	}
	work.told = append(work.told, it)
}

// observe tells the observers what was committed.
func (host *Host) observe(work *work) {
	if len(work.told) == 0 {
		return
	}
	for _, observer := range host.observers {
		observer.Happened(work.told)
	}
}

// commit commits what was asked.
func (host *Host) commit() error {
	if len(host.core.changes)+len(host.core.peers.changed) == 0 {
		return nil
	}
	return host.underWay(func() error { return host.core.commit(context.Background()) })
}

// committed tells the observers of a commit, also of that with which a session begins.
func (host *Host) committed(took time.Duration, err error) {
	for _, observer := range host.observers {
		observer.Committed(took, err)
	}
}

// underWay has a commit made, which is told as under way meanwhile.
func (host *Host) underWay(commit func() error) error {
	began := time.Now()
	host.committing.Store(&began)
	defer host.committing.Store(nil)
	return commit()
}

// Counts are how many there are of what an operator watches.
type Counts struct {
	Waiting    int           // commands of callers
	Watchers   int           // streams that are told what happens
	Committing time.Duration // how long the present commit has taken: 0 where there is none
}

// Counts counts now.
func (host *Host) Counts() Counts {
	counts := Counts{Waiting: len(host.commands)}
	if began := host.committing.Load(); began != nil {
		counts.Committing = time.Since(*began)
	}
	host.board.mutex.RLock()
	defer host.board.mutex.RUnlock()
	counts.Watchers = len(host.board.watchers)
	return counts
}
