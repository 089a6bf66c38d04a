package plugin

// #include "tufayon.h"
import "C"
import (
	"runtime"

	"tufayon/service/numbers"
)

// Raise raises the session in the plugin, where it is later than the greatest that came: what was sent in an earlier one is stale from then on. Changes
// are what the store has to be given; nothing where the session isn't later.
func (plugin *Plugin) Raise(session uint64) error {
	ending := C.tufayon_raise(plugin.handle, C.uint64_t(session))
	runtime.KeepAlive(plugin)
	if ending != C.TUFAYON_DONE {
		return Ending(ending)
	}
	return nil
}

// handlesOf are the handles of plugins in a row, as C takes them: they are put back once C is done, since a handle is used in one place.
func handlesOf(plugins []*Plugin) (handles []C.tufayon_plugin, putBack func()) {
	handles = make([]C.tufayon_plugin, len(plugins), len(plugins)+1)
	for at, it := range plugins {
		handles[at] = *it.handle
	}
	return handles[:cap(handles)], func() {
		for at, it := range plugins {
			*it.handle = handles[at]
		}
	}
}

// RecoverySession is the session of a recovery of what these plugins keep, where this one is the greatest that is known of the lost orchestrator, or 0.
func RecoverySession(known uint64, controller *Plugin, nodes []*Plugin) (uint64, error) {
	handles, putBack := handlesOf(nodes)
	defer putBack()
	var session C.uint64_t
	ending := C.tufayon_recovery_session(C.uint64_t(known), controller.handle, &handles[0], C.size_t(len(nodes)), &session)
	switch ending {
	case C.TUFAYON_DONE:
		return uint64(session), nil
	case C.TUFAYON_REFUSED:
		return 0, numbers.ErrSpent
	}
	return 0, Ending(ending)
}

// RecoverOrchestrator makes the orchestrator with the nodes of a configuration, the JSON of a CONFIG file, of what these plugins keep, after its own store
// was lost. They are raised to the session then, and their stores are given that, before the new store is given Changes, which are its whole record. The
// orchestrator is in the session after this one. Of SameNode, Disagrees and BadRow place is where that is, counted from 1: among the nodes, or the
// controller's live volumes.
func RecoverOrchestrator(config []byte, session uint64, controller *Plugin, nodes []*Plugin) (made *Orchestrator, place uint64, err error) {
	handles, putBack := handlesOf(nodes)
	defer putBack()
	made = &Orchestrator{held: nothing(), frame: make([]byte, C.TUFAYON_FRAME_ROOM)}
	var at C.uint64_t
	ending := C.tufayon_orchestrator_recovered(in(config), C.size_t(len(config)), C.uint64_t(session), controller.handle, &handles[0], C.size_t(len(nodes)),
		made.handle, &at)
	switch ending {
	case C.TUFAYON_DONE:
		return made, 0, nil
	case C.TUFAYON_REFUSED:
		return nil, 0, numbers.ErrSpent
	}
	return nil, uint64(at), Ending(ending)
}
