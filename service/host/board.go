package host

import (
	"context"
	"errors"
	"sort"
	"sync"

	"tufayon/service/frames"
)

// ErrSlow says that a watcher was too slow to get all that happened.
var ErrSlow = errors.New("the watcher is too slow")

// watched is how many events a watcher may be behind, and ofEach how many beside those for each name that there was at once: a session tells of each, and
// what is wanted of it is told anew.
const (
	watched = 1024
	ofEach  = 3
)

// A board has what was committed last, for all who want to read it.
type board struct {
	mutex    sync.RWMutex
	session  uint64
	count    uint64 // of the events since this process serves
	nodes    []string
	volumes  map[string]posted
	freed    []freed           // names that became free last
	unknown  uint64            // up to this count of events some that became free aren't known any more
	epoch    uint64            // of the session
	troubles map[string]string // why plugins haven't begun the session, by their names
	heard    map[string]frames.Number
	watchers map[*Watching]bool
	most     int // events that a watcher may be behind

	isCurrent bool // the controller has begun a session since this process serves: so its store is no older copy
	isClosed  bool
}

// A posted is a volume, and the count of the event that changed it last.
type posted struct {
	Volume
	count uint64
}

// A freed is a name, and the count of the event by which it became free.
type freed struct {
	name  string
	count uint64
}

// mostFreed is how many names are known at least that became free.
const mostFreed = 4096

func newBoard() *board {
	return &board{
		volumes: map[string]posted{}, troubles: map[string]string{}, heard: map[string]frames.Number{}, watchers: map[*Watching]bool{}, most: watched,
	}
}

// note notes why a plugin hasn't begun a session, or with no text that it has. What is told of an earlier one counts no more.
func (board *board) note(epoch uint64, plugin, why string) {
	board.mutex.Lock()
	defer board.mutex.Unlock()
	if epoch != board.epoch {
		return
	}
	if why == "" {
		delete(board.troubles, plugin)
		return
	}
	board.troubles[plugin] = why
}

// Trouble is why a plugin hasn't begun the present session, and so isn't used: nothing where it has, or wasn't asked yet.
func (host *Host) Trouble(plugin string) string {
	host.board.mutex.RLock()
	defer host.board.mutex.RUnlock()
	return host.board.troubles[plugin]
}

// current notes that the store is no older copy.
func (board *board) current() {
	board.mutex.Lock()
	defer board.mutex.Unlock()
	board.isCurrent = true
}

// Heard is the last call that a plugin acknowledged that it heard, as far as that is committed. It isn't known before the controller has begun a session.
func (host *Host) Heard(plugin string) (heard frames.Number, isKnown bool) {
	host.board.mutex.RLock()
	defer host.board.mutex.RUnlock()
	return host.board.heard[plugin], host.board.isCurrent && !host.board.isClosed
}

// An Event is what became of a volume, or of a node. One of the last three fields counts.
type Event struct {
	Session, Count uint64
	Volume         Volume // as it is now, if it has a row
	Forgotten      string // a name that is free again
	Lost           string // a node
}

// publish shows what was committed.
func (host *Host) publish(work *work) {
	board := host.board
	board.mutex.Lock()
	defer board.mutex.Unlock()
	board.session, board.nodes = host.core.session, host.core.nodes
	if work.begins {
		board.epoch, board.troubles = host.epoch, map[string]string{}
	}
	for name, it := range host.core.peers.of {
		board.heard[name] = it.heard
	}
	for _, name := range work.forgotten {
		delete(board.volumes, name)
		board.tell(name, Event{Forgotten: name})
		board.free(name)
	}
	for name, it := range work.changed {
		volume := it.shown()
		board.tell(name, Event{Volume: volume})
		board.volumes[name] = posted{volume, board.count}
	}
	if most := watched + ofEach*len(board.volumes); most > board.most {
		board.most = most
	}
	if work.lost != "" {
		board.tell("", Event{Lost: work.lost})
	}
}

// free notes a name that is free by the last event. The lock is held.
func (board *board) free(name string) {
	if len(board.freed) == 2*mostFreed {
		board.unknown = board.freed[mostFreed-1].count
		board.freed = append(board.freed[:0], board.freed[mostFreed:]...)
	}
	board.freed = append(board.freed, freed{name, board.count})
}

// tell tells the watchers an event about a name. The lock is held.
func (board *board) tell(name string, event Event) {
	board.count++
	if len(board.watchers) == 0 {
		return
	}
	event.Session, event.Count = board.session, board.count
	for it := range board.watchers {
		if it.name != "" && it.name != name {
			continue
		}
		if len(it.events) >= board.most {
			it.events = nil // it has to begin again
			board.drop(it, ErrSlow)
			continue
		}
		it.events = append(it.events, event)
		it.wake()
	}
}

// drop ends a watcher. The lock is held.
func (board *board) drop(it *Watching, why error) {
	if board.watchers[it] {
		delete(board.watchers, it)
		it.err = why
		it.wake()
	}
}

// close ends all watchers: the host serves no more.
func (board *board) close() {
	board.mutex.Lock()
	defer board.mutex.Unlock()
	board.isClosed = true
	for it := range board.watchers {
		board.drop(it, ErrEnded)
	}
}

// Session is the present session.
func (host *Host) Session() uint64 {
	host.board.mutex.RLock()
	defer host.board.mutex.RUnlock()
	return host.board.session
}

// Nodes are those that the orchestrator lists.
func (host *Host) Nodes() []string {
	host.board.mutex.RLock()
	defer host.board.mutex.RUnlock()
	return host.board.nodes
}

// Get gives a volume, if there is one of that name.
func (host *Host) Get(name string) (Volume, bool) {
	host.board.mutex.RLock()
	defer host.board.mutex.RUnlock()
	it, isThere := host.board.volumes[name]
	return it.Volume, isThere
}

// Changes are what changed behind a count of events.
type Changes struct {
	Session, Count uint64
	Volumes        []Volume // as they are now
	Forgotten      []string // names that are free
}

// Changed gives what changed behind a count of events, behind 0 all there is. It isn't known any more of a count of long ago, since which very many names
// became free.
func (host *Host) Changed(behind uint64) (changes Changes, isKnown bool) {
	board := host.board
	board.mutex.RLock()
	defer board.mutex.RUnlock()
	changes.Session, changes.Count = board.session, board.count
	if behind == board.count && behind > 0 {
		return changes, true
	}
	for _, it := range board.volumes {
		if it.count > behind || behind == 0 {
			changes.Volumes = append(changes.Volumes, it.Volume)
		}
	}
	if behind == 0 {
		return changes, true
	}
	for at := len(board.freed) - 1; at >= 0 && board.freed[at].count > behind; at-- {
		name := board.freed[at].name
		if _, isThere := board.volumes[name]; !isThere {
			changes.Forgotten = append(changes.Forgotten, name)
		}
	}
	return changes, behind >= board.unknown
}

// List gives at most so many volumes behind a name, by their names, byte by byte, that are wanted. `more` says whether there are others behind them.
func (host *Host) List(after string, most int, isWanted func(Volume) bool) (volumes []Volume, more bool) {
	host.board.mutex.RLock()
	for name, volume := range host.board.volumes {
		if name > after && isWanted(volume.Volume) {
			volumes = append(volumes, volume.Volume)
		}
	}
	host.board.mutex.RUnlock()
	sort.Slice(volumes, func(i, j int) bool { return volumes[i].Row.Name < volumes[j].Row.Name })
	if len(volumes) > most {
		return volumes[:most], true
	}
	return volumes, false
}

// A Watching gets events, from a moment on.
type Watching struct {
	Current []Event // the volumes as they were at that moment, by their names, if they are wanted
	board   *board
	name    string
	came    chan struct{} // has room for one: something came, or it ended

	// These are the board's to change.
	events []Event // that came and weren't taken
	err    error   // why it ended
}

// Watch begins to watch all that happens, or what happens to the volume of a name. Its end has to be asked for.
func (host *Host) Watch(current bool, name string) *Watching {
	it := &Watching{board: host.board, name: name, came: make(chan struct{}, 1)}
	board := host.board
	board.mutex.Lock()
	defer board.mutex.Unlock()
	if current {
		for its, volume := range board.volumes {
			if name == "" || name == its {
				it.Current = append(it.Current, Event{Session: board.session, Count: board.count, Volume: volume.Volume})
			}
		}
		sort.Slice(it.Current, func(i, j int) bool { return it.Current[i].Volume.Name < it.Current[j].Volume.Name })
	}
	board.watchers[it] = true
	if board.isClosed {
		board.drop(it, ErrEnded)
	}
	return it
}

// wake has it look what came. The lock is held.
func (it *Watching) wake() {
	select {
	case it.came <- struct{}{}:
	default:
	}
}

// take gives what came, or why nothing comes any more.
func (it *Watching) take() ([]Event, error) {
	it.board.mutex.Lock()
	defer it.board.mutex.Unlock()
	if events := it.events; len(events) > 0 {
		it.events = nil
		return events, nil
	}
	return nil, it.err
}

// Next waits for the next events, and gives all that are there. It fails with ErrSlow, ErrEnded, or the context's error.
func (it *Watching) Next(ctx context.Context) ([]Event, error) {
	for {
		if events, err := it.take(); len(events) > 0 || err != nil {
			return events, err
		}
		select {
		case <-it.came:
		case <-ctx.Done():
			return nil, ctx.Err()
		}
	}
}

// End ends it.
func (it *Watching) End() {
	it.board.mutex.Lock()
	defer it.board.mutex.Unlock()
	it.board.drop(it, ErrEnded)
}
