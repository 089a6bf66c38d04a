// Package recovering makes the store of an orchestrator that lost its own, of what the stores of its plugins have: docs/DRIVER.md, "A recovery".
package recovering

import (
	"context"
	"errors"
	"fmt"
	"runtime"
	"sort"

	"tufayon/service/host"
	"tufayon/service/plugin"
	"tufayon/service/records"
	"tufayon/service/store"
)

// ErrNotNew says that the store that is to be made has parts.
var ErrNotNew = errors.New("store not new")

// A Recovery says of what an orchestrator's store is made. All stores are open, and nothing else has them.
type Recovery struct {
	Config     []byte // CONFIG's JSON
	Known      uint64 // the greatest session that is known of the lost orchestrator, 0 where none is
	New        store.Store
	Controller store.Store
	Nodes      []store.Store // a node without a store here is lost
}

// A Recovered tells what was made.
type Recovered struct {
	Lost    []string // the nodes with an attachment whose stores weren't given, by their bytes
	Session uint64   // that all plugins have heard of now
	Volumes int
	Wanted  []string // the names of the volumes of which something is wanted, by their bytes
}

// Run reads and judges all stores, and changes none where something is refused. Then it raises the session in the nodes' stores, in the controller's,
// and makes the new one, by one commit each. After a failure in between it is run again.
func (recovery *Recovery) Run(ctx context.Context) (Recovered, error) {
	runtime.LockOSThread() // the library's thread
	defer runtime.UnlockOSThread()
	planned, err := recovery.plan(ctx)
	if err != nil {
		return Recovered{}, err
	}
	return planned.told, planned.carryOut(ctx)
}

// A plan is what is to be done, known before anything is changed.
type plan struct {
	stores []change // the nodes', and then the controller's
	made   store.Store
	sides  []store.Side
	parts  []store.Change
	told   Recovered
}

// A change is what a plugin's store is given.
type change struct {
	store   store.Store
	anew    bool
	changes []store.Change
}

func (plan *plan) carryOut(ctx context.Context) error {
	for _, it := range plan.stores {
		if err := it.store.Commit(ctx, it.anew, it.changes); err != nil {
			return err
		}
	}
	// First the sides: without parts the store counts as new.
	if err := store.CommitWith(ctx, plan.made, plan.sides, nil); err != nil {
		return err
	}
	return plan.made.Commit(ctx, false, plan.parts)
}

// isNew fails where a store that is to be made has parts, or where something of another one lies beside it: it could never be opened.
func isNew(ctx context.Context, made store.Store) error {
	parts, err := made.Load(ctx)
	if err == nil && len(parts) > 0 {
		err = ErrNotNew
	}
	if err == nil {
		_, err = store.SidesOf(ctx, made)
	}
	return err
}

func (recovery *Recovery) plan(ctx context.Context) (*plan, error) {
	if err := isNew(ctx, recovery.New); err != nil {
		return nil, err
	}
	given := &given{}
	defer given.free()
	if err := given.read(ctx, recovery); err != nil {
		return nil, err
	}
	session, err := plugin.RecoverySession(recovery.Known, given.controller.plugin, given.plugins())
	if err != nil {
		return nil, err
	}
	made, place, err := plugin.RecoverOrchestrator(recovery.Config, session, given.controller.plugin, given.plugins())
	if err != nil {
		return nil, given.judged(err, place, recovery.Config)
	}
	defer made.Free()
	planned := &plan{made: recovery.New}
	if planned.parts, err = made.Changes(); err != nil {
		return nil, err
	}
	if planned.stores, err = given.raise(session); err != nil {
		return nil, err
	}
	return planned, planned.tell(given, session)
}

// tell reads what was made, and which nodes are lost.
func (plan *plan) tell(given *given, session uint64) error {
	plan.told = Recovered{Session: session}
	lost, listed := map[string]bool{}, []string(nil)
	for _, part := range plan.parts {
		if part.Key == records.HeadKey {
			nodes, err := records.OrchestratorNodes(part.Value)
			if err != nil {
				return err
			}
			listed = nodes
			continue
		}
		row, err := records.ReadRow(part.Value)
		if err != nil {
			return fmt.Errorf("row %d: %w", part.Key, err)
		}
		plan.told.Volumes++
		if row.Goal != records.None {
			plan.told.Wanted = append(plan.told.Wanted, row.Name)
		}
		for _, at := range row.At {
			if !given.has(at.Node) {
				lost[at.Node] = true
			}
		}
	}
	plan.told.Lost = namesOf(lost)
	sort.Strings(plan.told.Wanted)
	for _, id := range listed {
		if !given.has(id) {
			lost[id] = true
		}
	}
	plan.sides = host.RecoveredSides(session, given.ids(), namesOf(lost))
	return nil
}

func namesOf(of map[string]bool) []string {
	var names []string
	for name := range of {
		names = append(names, name)
	}
	sort.Strings(names)
	return names
}
