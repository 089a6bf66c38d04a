package host

// An event is something that came.
type event interface {
	// ask asks the orchestrator, and notes what is to be done once that is committed. With errSession nothing was asked: a session has to begin before.
	ask(host *Host, work *work) error
	// alone says whether it is committed by itself.
	alone() bool
}

// work is what is to be done once a batch's events are committed.
type work struct {
	changed   map[string]*volume
	forgotten []string // names
	lost      string   // a node
	begins    bool     // a session began
	sends     []sending
	held      []sending // calls whose plugins haven't begun the session
	after     []func()  // answers
	told      []Happening
}

func newWork() *work { return &work{changed: map[string]*volume{}} }

// answer has a caller answered. It has room for the one answer that it gets.
func (work *work) answer(waiter *waiter, came answered) {
	work.after = append(work.after, func() { waiter.came <- came })
}
