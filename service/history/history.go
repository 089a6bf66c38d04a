// Package history keeps the last events of an orchestrator's service, in a file where there is one, and gives them as a schedule, of all volumes or of
// one, which csi-replay runs and draws: docs/SERVICE.md, "The history".
package history

import (
	"bytes"
	"encoding/json"
	"fmt"
	"reflect"
	"sync"
	"time"

	"go.uber.org/zap"

	"tufayon/service/frames"
	"tufayon/service/host"
	"tufayon/service/records"
)

// Usual is how many events are kept.
const Usual = 10000

// mostBytes is how many bytes the lines may have of those that are kept: a volume that is in use at many places has large ones. Fewer in a test.
var mostBytes = 32 << 20

// A base is what was before the first event that is kept: of the service, or of a volume.
type base struct {
	Config json.RawMessage         `json:"config,omitempty"`
	Nodes  []string                `json:"nodes"` // the orchestrator's list
	Rows   map[string]*records.Row `json:"rows"`  // by the volumes' names
}

// A History has the last events. It is a host's observer, and its methods may be called side by side.
type History struct {
	most int
	log  *zap.Logger
	come coming

	mutex   sync.Mutex
	config  json.RawMessage // of the service now
	base    base
	late    map[string]*[]byte      // by the volumes' names: the lines of entries that the base is to have, and hasn't yet
	packs   []*pack                 // all entries
	last    *pack                   // the last one of these, which is filled
	count   int                     // of the entries
	size    int                     // of their lines, in bytes
	fresh   int                     // how many are packed together
	entries []recent                // the last ones
	before  uint64                  // how many there were before these
	rows    map[string]*records.Row // as they are behind the last entry
	plugins plugins
	isCut   bool // the next session says how volumes are, since something may be missing
	file    *file
}

// Open opens a history of at most so many events, over a file, or in memory alone where that is empty. What can't be read of a file is left out, and told
// to the log.
func Open(path string, most int, log *zap.Logger) (*History, error) {
	made := &History{
		most: most, fresh: int(least(mostFresh, uint64(most/4+1))), late: map[string]*[]byte{}, log: log, come: coming{told: make(chan struct{})}, isCut: true,
		base: base{Rows: map[string]*records.Row{}}, rows: map[string]*records.Row{}, plugins: plugins{},
	}
	made.last = newPack(made.fresh, 0, 0)
	made.packs = []*pack{made.last}
	if path != "" {
		if err := made.open(path); err != nil {
			return nil, fmt.Errorf("the history: %w", err)
		}
	}
	made.come.keep = time.AfterFunc(together, made.settle)
	return made, nil
}

// Configure says which CONFIG the shard has from now on.
func (made *History) Configure(config []byte) {
	made.mutex.Lock()
	defer made.mutex.Unlock()
	made.keep(made.come.take()) // by the one of before
	made.config = json.RawMessage(bytes.TrimSpace(config))
}

// Happened has events kept, soon, or once somebody asks. Events that find no place are lost, which is found at the next one of each volume.
func (made *History) Happened(all []host.Happening) { made.come.add(all) }

// Called is nothing to a history.
func (*History) Called(frames.Call, frames.Reply, error, time.Duration) {}

// Committed is nothing to a history.
func (*History) Committed(time.Duration, error) {}

// Close keeps what has come, and gives the file up. Nothing may come any more.
func (made *History) Close() error {
	made.come.keep.Stop()
	made.mutex.Lock()
	defer made.mutex.Unlock()
	made.keep(made.come.take())
	if made.file == nil {
		return nil
	}
	return made.file.close()
}

// settle keeps what has come.
func (made *History) settle() {
	made.mutex.Lock()
	defer made.mutex.Unlock()
	made.keep(made.come.take())
}

// keep keeps batches. The lock is held.
func (made *History) keep(batches [][]host.Happening) {
	for _, batch := range batches {
		for at := range batch {
			made.take(&batch[at])
		}
	}
	if made.file != nil && len(batches) > 0 {
		made.save()
	}
}

// take takes an event in. The lock is held.
func (made *History) take(it *host.Happening) {
	if it.What == host.Began || it.What == host.Lost {
		made.takeWhole(it)
		return
	}
	if !same(made.rows[it.Name], it.Before) {
		made.cut(map[string]*records.Row{it.Name: it.Before})
	}
	last := made.last
	before := len(last.lines)
	last.lines = made.plugins.appendHappening(last.lines, it)
	made.rows[it.Name] = it.Row
	if it.Row == nil {
		delete(made.rows, it.Name)
	}
	made.add(recent{happened: it}, len(last.lines)-before)
}

// takeWhole takes in a session, or a loss.
func (made *History) takeWhole(it *host.Happening) {
	entry := &Entry{}
	made.plugins.keepIn(entry, it)
	if entry.What == session && made.isMissing(it.After) {
		entry.Detail += fmt.Sprintf("; what happened before, up to session %d, isn't all here", it.After)
	}
	entry.Rows = made.begins(it)
	entry.Config = made.config
	line := appendLine(nil, entry)
	if made.file != nil {
		made.file.writeOf(made.last) // what came before
		made.file.write(line)
	}
	made.put(entry, len(line))
}

// put takes in an entry that is there, whose line has so many bytes.
func (made *History) put(entry *Entry, size int) {
	it := recent{entry: entry, isCut: entry.IsCut}
	if !entry.isWhole() {
		entry.IsCut = false // a mark says so
		made.last.lines = appendLine(made.last.lines, entry)
		entry.IsCut = it.isCut
	}
	made.learn(entry, made.rows)
	if made.before == 0 && made.count == 0 && made.base.Config == nil {
		made.base.Config, made.base.Nodes = entry.Config, entry.Nodes
	}
	made.add(it, size)
}

// isMissing says whether another service led, or nothing was kept, in the session after which this process's first one begins.
func (made *History) isMissing(after uint64) bool {
	if count := len(made.entries); count > 0 {
		return made.isCut && made.entries[count-1].made(made.plugins).Session != after
	}
	return made.isCut && after > 0
}

// learn has rows be as they are behind an entry.
func (*History) learn(entry *Entry, rows map[string]*records.Row) {
	for name, row := range entry.Rows {
		rows[name] = row
		if row == nil {
			delete(rows, name)
		}
	}
	if entry.Name == "" || entry.IsCut {
		return
	}
	if entry.Row == nil {
		delete(rows, entry.Name)
		return
	}
	rows[entry.Name] = entry.Row
}

// begins holds what a session began with against what the entries say. A volume that is otherwise, since something is missing, begins anew: its earlier
// entries are no part of a schedule any more (cut). The first session of a process is such. It gives what the session changed.
func (made *History) begins(it *host.Happening) map[string]*records.Row {
	present := make(map[string]*records.Row, len(it.Rows))
	for _, row := range it.Rows {
		present[row.Name] = row
	}
	if made.isCut {
		cut := map[string]*records.Row{}
		for name, row := range present {
			if !same(made.rows[name], row) {
				cut[name] = row
			}
		}
		if len(cut) > 0 {
			made.log.Warn("the history has not all that happened to some volumes", zap.Int("volumes", len(cut)))
			made.cut(cut)
		}
	}
	made.isCut = false
	changed := map[string]*records.Row{}
	for name, row := range made.rows {
		if !same(row, present[name]) {
			changed[name] = present[name]
		}
	}
	for name, row := range present {
		if made.rows[name] == nil {
			changed[name] = row
		}
	}
	return changed
}

// cut leaves the entries of volumes out of schedules, in which these rows are what they begin with.
func (made *History) cut(begin map[string]*records.Row) {
	for _, it := range made.packs {
		it.cut(begin)
	}
	for at := range made.entries {
		it := &made.entries[at]
		if _, isCut := begin[it.name()]; isCut {
			it.isCut = true
		}
		if it.entry != nil {
			for name := range begin {
				delete(it.entry.Rows, name)
			}
		}
	}
	for name, row := range begin {
		delete(made.late, name)
		made.base.Rows[name] = row
		if row == nil {
			delete(made.base.Rows, name)
		}
	}
	if made.file != nil {
		made.file.isStale = true
	}
}

// same says whether two rows say the same.
func same(some, other *records.Row) bool {
	if some == other || some == nil || other == nil {
		return some == other
	}
	return reflect.DeepEqual(some, other)
}

// Count says how many events there are, and how many were lost since this process began.
func (made *History) Count() (kept int, lost uint64) {
	made.mutex.Lock()
	defer made.mutex.Unlock()
	made.keep(made.come.take())
	return made.count, made.come.losses()
}

// Last gives the last entries, at most so many, of a volume or of all, and sessions and losses with both; and behind a count of entries, which is handed
// in again to get what came since.
func (made *History) Last(name string, most int, behind uint64) (last []Entry, count uint64, more <-chan struct{}) {
	made.mutex.Lock()
	defer made.mutex.Unlock()
	came, more := made.come.more()
	made.keep(came)
	count = made.before + uint64(made.count)
	if count > behind {
		last = made.backwards(name, most, int(least(count-behind, uint64(made.count))))
	}
	for i, j := 0, len(last)-1; i < j; i, j = i+1, j-1 {
		last[i], last[j] = last[j], last[i]
	}
	return last, count, more
}

func least(all ...uint64) uint64 {
	found := all[0]
	for _, it := range all {
		if it < found {
			found = it
		}
	}
	return found
}
