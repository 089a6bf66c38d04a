package host

import (
	"context"
	"crypto/rand"
	"encoding/json"
	"errors"
	"fmt"
	"reflect"
	"strings"
	"time"

	"tufayon/service/frames"
	"tufayon/service/numbers"
	"tufayon/service/plugin"
	"tufayon/service/records"
	"tufayon/service/store"
)

// library is the library's orchestrator, as plugin.Orchestrator has it.
type library interface {
	Create(name string, required, limit uint64, capabilities []frames.Capability) (plugin.Outcome, error)
	Use(name, node, target string, capability frames.Capability, readonly bool) (plugin.Outcome, error)
	Stop(name, node, target string) (plugin.Outcome, error)
	Delete(name string) (plugin.Outcome, error)
	Timeout(name string) (plugin.Outcome, error)
	Lose(node string) (plugin.Outcome, error)
	Deliver(came []byte) (plugin.Outcome, error)
	Changes() ([]store.Change, error)
	Free()
}

// core is the library's orchestrator over its store. The goroutine that made it makes all its calls.
type core struct {
	store   store.Store
	nodes   []string // those that it lists
	library library
	session uint64
	after   uint64                  // the session that the store had before the present one, 0 where it had none
	rows    map[uint64]*records.Row // by their keys; what was asked since the last commit is in them
	names   map[string]uint64       // the rows' keys
	counts  counts                  // of the rows
	changes []store.Change          // what was asked since the last commit
	peers   *peers                  // likewise: what is kept beside the record
	token   string                  // of this opening of the store
	clock   func() time.Time        // by which sessions begin; nil for none

	committed func(took time.Duration, err error) // is told each commit; nil for nobody
}

func newCore(kept store.Store, clock func() time.Time) (*core, error) {
	token := make([]byte, 16)
	if _, err := rand.Read(token); err != nil {
		return nil, err
	}
	return &core{store: kept, token: string(token), clock: clock}, nil
}

// counts are how many rows there are of some sorts.
type counts struct {
	wanted    int // something is wanted of the volume
	gone      int // the volume is gone, and nothing is wanted: the next session forgets the name
	onLastTry int // one timeout more, as a session that begins tells it, undoes the use
}

// add counts a row that came, or with -1 one that went.
func (counts *counts) add(row *records.Row, count int) {
	switch {
	case row == nil:
	case row.Goal != records.None:
		counts.wanted += count
		if row.Goal == records.ToUse && row.Tries >= lastTry {
			counts.onLastTry += count
		}
	case row.Exists == records.No:
		counts.gone += count
	}
}

// configOf is CONFIG's JSON, of which only the nodes' ids count to an orchestrator.
func configOf(nodes []string) []byte {
	type node struct {
		ID    string `json:"id"`
		Slots int    `json:"slots"`
	}
	config := struct {
		Greatest int    `json:"greatest"`
		Nodes    []node `json:"nodes"`
	}{1, []node{}}
	for _, id := range nodes {
		config.Nodes = append(config.Nodes, node{id, 1})
	}
	bytes, _ := json.Marshal(config) // texts and numbers always can be
	return bytes
}

// isRefusal says whether a session that didn't begin left everything as it was: else the store failed, or has no record.
func isRefusal(err error) bool {
	return errors.Is(err, plugin.NodeInUse) || errors.Is(err, plugin.BadName) || errors.Is(err, plugin.NoMemory) || errors.Is(err, numbers.ErrSpent)
}

// begin begins the next session with these nodes, and commits it. It forgets the names of volumes that are gone. Where it fails with isRefusal, nothing
// is changed.
func (core *core) begin(ctx context.Context, nodes []string) error {
	parts, err := core.store.Load(ctx)
	if err == nil && core.peers == nil {
		err = core.loadPeers(ctx, parts)
	}
	if err != nil {
		return err
	}
	after, err := sessionOf(parts)
	if err != nil {
		return err
	}
	before, err := core.before(parts)
	if err != nil {
		return err
	}
	made, err := plugin.MakeOrchestrator(configOf(nodes), store.Record(before), 0)
	if errors.Is(err, plugin.NodeInUse) {
		err = fmt.Errorf("%w: %s: list it again, or first stop all volumes there, or declare it lost", err, strings.Join(leftOut(parts, nodes), ", "))
	}
	if err != nil {
		return fmt.Errorf("a session of %d nodes: %w", len(nodes), err)
	}
	changes, err := made.Changes()
	if err == nil {
		err = core.list(parts, nodes, changes)
	}
	if err == nil {
		core.changes = changes
		err = core.commit(ctx)
	}
	if err != nil {
		made.Free()
		return fmt.Errorf("the session's commit: %w", err)
	}
	core.free()
	core.library, core.nodes, core.changes, core.after = made, nodes, nil, after
	core.rows, core.names, core.counts = map[uint64]*records.Row{}, map[string]uint64{}, counts{}
	for _, part := range parts {
		if _, err := core.take(store.Change{Key: part.Key, Value: part.Value}); err != nil {
			return err
		}
	}
	return core.takeAll(changes)
}

// leftOut are the nodes of a record that has these parts at which a volume may be attached, and that aren't among these nodes. The library has read it.
func leftOut(parts []store.Part, nodes []string) (left []string) {
	var listed []string
	isUsed := map[string]bool{}
	for _, part := range parts {
		if part.Key == records.HeadKey {
			listed, _ = records.OrchestratorNodes(part.Value)
		} else if row, err := records.ReadRow(part.Value); err == nil {
			for _, at := range row.At {
				isUsed[at.Node] = isUsed[at.Node] || at.Attached != records.No
			}
		}
	}
	for _, node := range nodes {
		delete(isUsed, node)
	}
	for _, node := range listed {
		if isUsed[node] {
			left = append(left, node)
		}
	}
	return left
}

// sessionOf is the session of a record that has these parts, 0 where there are none.
func sessionOf(parts []store.Part) (uint64, error) {
	if len(parts) == 0 {
		return 0, nil
	}
	session, err := records.OrchestratorSession(parts[0].Value)
	if err != nil {
		return 0, fmt.Errorf("%w: its head: %v", plugin.BadRecord, err)
	}
	return session, nil
}

// before is a record of these parts of which the next session is that of the clock, in seconds since 1970, if it isn't a later one: so copies of a store
// begin other sessions. Without a clock it is the next one.
func (core *core) before(parts []store.Part) ([]store.Part, error) {
	if core.clock == nil {
		return parts, nil
	}
	var head []byte
	if len(parts) > 0 {
		head = parts[0].Value
	}
	seconds := core.clock().Unix()
	if seconds < 0 {
		seconds = 0
	}
	head, err := records.OrchestratorBefore(head, uint64(seconds))
	if err != nil {
		return nil, fmt.Errorf("%w: its head: %v", plugin.BadRecord, err)
	}
	before := []store.Part{{Key: records.HeadKey, Value: head}}
	if len(parts) > 0 {
		before = append(before, parts[1:]...)
	}
	return before, nil
}

// loadPeers reads what is kept beside the record.
func (core *core) loadPeers(ctx context.Context, parts []store.Part) error {
	sides, err := store.SidesOf(ctx, core.store)
	if err == nil {
		core.peers, err = readPeers(sides, parts)
	}
	return err
}

// list notes in which session these nodes are listed, if a record that has these parts lists others.
func (core *core) list(parts []store.Part, nodes []string, changes []store.Change) error {
	core.peers.changed[listName] = true // a record with sides has it
	if len(parts) > 0 {
		listed, err := records.OrchestratorNodes(parts[0].Value)
		if err != nil || reflect.DeepEqual(append([]string{}, listed...), append([]string{}, nodes...)) {
			return err
		}
	}
	for _, change := range changes {
		if change.Key == records.HeadKey {
			session, err := records.OrchestratorSession(change.Value)
			core.peers.lists(session)
			return err
		}
	}
	return nil
}

// take takes over what a part says: the row, if it is one.
func (core *core) take(change store.Change) (*records.Row, error) {
	if change.Out {
		core.counts.add(core.rows[change.Key], -1)
		delete(core.rows, change.Key)
		return nil, nil
	}
	if change.Key == records.HeadKey {
		session, err := records.OrchestratorSession(change.Value)
		core.session = session
		return nil, err
	}
	row, err := records.ReadRow(change.Value)
	if err != nil {
		return nil, fmt.Errorf("row %d: %w", change.Key, err)
	}
	core.counts.add(core.rows[change.Key], -1)
	core.counts.add(&row, 1)
	core.rows[change.Key], core.names[row.Name] = &row, change.Key
	return &row, nil
}

// takeAll takes over the changes of a session that began: rows may have other keys then, and names may be gone.
func (core *core) takeAll(changes []store.Change) error {
	for _, change := range changes {
		if _, err := core.take(change); err != nil {
			return err
		}
	}
	core.names = make(map[string]uint64, len(core.rows))
	for key, row := range core.rows {
		core.names[row.Name] = key
	}
	return nil
}

// note takes over what the last call of the library changed, which is to be committed with all else: the row, if it changed one.
func (core *core) note() (*records.Row, error) {
	changes, err := core.library.Changes()
	if err != nil {
		return nil, err
	}
	core.changes = append(core.changes, changes...)
	var row *records.Row
	for _, change := range changes {
		if row, err = core.take(change); err != nil {
			return nil, err
		}
	}
	return row, nil
}

// noteLoss takes over that the library has lost a node. Its changes are the whole record. Where it fails, the library is another one than what is kept.
func (core *core) noteLoss(node string) error {
	changes, err := core.library.Changes()
	if err != nil {
		return fmt.Errorf("what the loss of %s changed: %w", node, err)
	}
	core.changes = append(core.changes, changes...)
	var left []string
	for _, id := range core.nodes {
		if id != node {
			left = append(left, id)
		}
	}
	core.nodes = left
	err = core.takeAll(changes)
	core.peers.loses(node, core.session)
	return err
}

// mostChanges is after how many changes and sides a commit is made, whoever waits: a transaction of etcd takes 120, and more goes in pieces, one by one.
const mostChanges = 108

// isFull says whether there are so many since the last commit.
func (core *core) isFull() bool {
	sides := len(core.peers.changed)
	if len(core.changes)+sides < mostChanges {
		return false
	}
	keys := make(map[uint64]bool, len(core.changes))
	for _, it := range core.changes {
		keys[it.Key] = true
	}
	return len(keys)+sides >= mostChanges
}

// commit commits what was asked since the last commit.
func (core *core) commit(ctx context.Context) error {
	changes, sides := core.changes, core.peers.sides()
	core.changes, core.peers.changed = nil, map[string]bool{}
	if len(changes)+len(sides) == 0 {
		return nil
	}
	began := time.Now()
	err := store.CommitWith(ctx, core.store, sides, changes)
	if core.committed != nil {
		core.committed(time.Since(began), err)
	}
	return err
}

// row is the row of a name, nil where there is none.
func (core *core) row(name string) *records.Row { return core.rows[core.names[name]] } // no row has the key 0

func (core *core) free() {
	if core.library != nil {
		core.library.Free()
		core.library = nil
	}
}
