package plugin

// #include "tufayon.h"
import "C"
import (
	"tufayon/service/frames"
	"tufayon/service/numbers"
)

// An Orchestrator decides which calls are made. One thread makes all its calls.
type Orchestrator struct {
	held
	frame   []byte // room for one, and what a call leaves there
	written C.size_t
	fault   C.uint32_t
}

// An Outcome is what came of what an orchestrator was asked, or of a frame that came.
type Outcome struct {
	IsMet, IsIgnored bool   // it was so already; it was no reply to an open call
	Refusal          uint32 // the refusal's number, or 0
	Frame            []byte // what is to be sent once the changes are committed, if it has bytes
}

// MakeOrchestrator makes the orchestrator of a configuration, the JSON of a CONFIG file, and of a whole record, or a new one where the record has
// no bytes. It begins the next session, or this one, where that is later, with the configuration's nodes, and forgets names: Changes are what the store
// has to be given before any frame is sent. NodeInUse says that the configuration leaves out a node of the record where a volume may be attached.
func MakeOrchestrator(config, record []byte, session uint64) (*Orchestrator, error) {
	made := &Orchestrator{held: nothing(), frame: make([]byte, C.TUFAYON_FRAME_ROOM)}
	ending := C.tufayon_orchestrator_open(in(config), C.size_t(len(config)), in(record), C.size_t(len(record)), C.uint64_t(session), made.handle)
	switch ending {
	case C.TUFAYON_DONE:
		return made, nil
	case C.TUFAYON_REFUSED:
		return nil, numbers.ErrSpent
	}
	return nil, Ending(ending)
}

// given is a text as C takes it: where its bytes are, and how many.
func given(text string) (*C.uint8_t, C.size_t) { return in([]byte(text)), C.size_t(len(text)) }

// asked tells what came of a call, by its ending.
func (made *Orchestrator) asked(ending C.uint32_t) (Outcome, error) {
	switch ending {
	case C.TUFAYON_DONE:
		return Outcome{Frame: append([]byte(nil), made.frame[:made.written]...)}, nil
	case C.TUFAYON_MET:
		return Outcome{IsMet: true}, nil
	case C.TUFAYON_IGNORED:
		return Outcome{IsIgnored: true}, nil
	case C.TUFAYON_REFUSED:
		return Outcome{Refusal: uint32(made.fault)}, nil
	}
	return Outcome{}, Ending(ending)
}

// Create asks that the volume of a name is created.
func (made *Orchestrator) Create(name string, required, limit uint64, capabilities []frames.Capability) (Outcome, error) {
	spelled, err := frames.EncodeCapabilities(capabilities)
	if err != nil {
		return Outcome{}, err
	}
	bytes, size := given(name)
	ending := C.tufayon_create(made.handle, bytes, size, C.uint64_t(required), C.uint64_t(limit), in(spelled), C.size_t(len(spelled)),
		in(made.frame), C.size_t(len(made.frame)), &made.written, &made.fault)
	return made.asked(ending)
}

// Use asks that it is published at a target of a node.
func (made *Orchestrator) Use(name, node, target string, capability frames.Capability, readonly bool) (Outcome, error) {
	spelled, err := frames.EncodeCapabilities([]frames.Capability{capability})
	if err != nil {
		return Outcome{}, err
	}
	bytes, size := given(name)
	nodeBytes, nodeSize := given(node)
	targetBytes, targetSize := given(target)
	ending := C.tufayon_use(made.handle, bytes, size, nodeBytes, nodeSize, targetBytes, targetSize, in(spelled), C.size_t(len(spelled)), C.bool(readonly),
		in(made.frame), C.size_t(len(made.frame)), &made.written, &made.fault)
	return made.asked(ending)
}

// Stop asks that it is used there no more.
func (made *Orchestrator) Stop(name, node, target string) (Outcome, error) {
	bytes, size := given(name)
	nodeBytes, nodeSize := given(node)
	targetBytes, targetSize := given(target)
	ending := C.tufayon_stop(made.handle, bytes, size, nodeBytes, nodeSize, targetBytes, targetSize,
		in(made.frame), C.size_t(len(made.frame)), &made.written, &made.fault)
	return made.asked(ending)
}

// Delete asks that it is deleted.
func (made *Orchestrator) Delete(name string) (Outcome, error) {
	bytes, size := given(name)
	ending := C.tufayon_delete(made.handle, bytes, size, in(made.frame), C.size_t(len(made.frame)), &made.written, &made.fault)
	return made.asked(ending)
}

// Timeout says that its open call timed out, or that something was wanted of it when the orchestrator was made.
func (made *Orchestrator) Timeout(name string) (Outcome, error) {
	bytes, size := given(name)
	ending := C.tufayon_timeout(made.handle, bytes, size, in(made.frame), C.size_t(len(made.frame)), &made.written, &made.fault)
	return made.asked(ending)
}

// Lose says that the node is lost: who says so promises that its machine is off for good, and that its store never comes back; an emptied store is a
// lost node. A session begins without it, in which what was wanted goes on by timeouts; Changes are the whole record.
func (made *Orchestrator) Lose(node string) (Outcome, error) {
	bytes, size := given(node)
	made.written = 0
	ending := C.tufayon_orchestrator_lose(made.handle, bytes, size, &made.fault)
	return made.asked(ending)
}

// Deliver hands it the frame that bytes begin with. OlderStore says that it tells of an open call that it was stale: the store is an older one.
func (made *Orchestrator) Deliver(came []byte) (Outcome, error) {
	var used C.size_t
	ending := C.tufayon_deliver(made.handle, in(came), C.size_t(len(came)), &used, in(made.frame), C.size_t(len(made.frame)), &made.written, &made.fault)
	return made.asked(ending)
}
