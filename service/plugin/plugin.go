// Package plugin calls the proved plugins, and the orchestrator, of include/tufayon.h.
package plugin

// #include "tufayon.h"
import "C"
import (
	"fmt"
	"runtime"

	"tufayon/service/store"
)

// An Ending is how a call of the library ended, where it wasn't done. It changed nothing then.
type Ending uint32

// The endings that a caller tells apart.
const (
	NoMemory       Ending = C.TUFAYON_NO_MEMORY
	BadName        Ending = C.TUFAYON_BAD_NAME
	BadRecord      Ending = C.TUFAYON_BAD_RECORD
	Short          Ending = C.TUFAYON_SHORT
	BadFrame       Ending = C.TUFAYON_BAD_FRAME
	EarlierSession Ending = C.TUFAYON_EARLIER_SESSION
	NodeInUse      Ending = C.TUFAYON_NODE_IN_USE
	OlderStore     Ending = C.TUFAYON_OLDER_STORE
	SameNode       Ending = C.TUFAYON_SAME_NODE
	NotLater       Ending = C.TUFAYON_NOT_LATER
	Disagrees      Ending = C.TUFAYON_DISAGREES
	BadRow         Ending = C.TUFAYON_BAD_ROW
)

func (ending Ending) Error() string {
	switch ending {
	case NoMemory:
		return "memory"
	case BadName:
		return "config refused"
	case BadRecord:
		return "record fault"
	case EarlierSession:
		return "store of an earlier session"
	case NodeInUse:
		return "node in use"
	case OlderStore:
		return "older store"
	case NotLater:
		return "numbers spent"
	case SameNode, Disagrees, BadRow:
		return "stores disagree"
	}
	return fmt.Sprintf("ending %d", uint32(ending))
}

// Is says that a refused allocation is what it is to those who don't know the library.
func (ending Ending) Is(target error) bool { return ending == NoMemory && target == store.ErrMemory }

// A Maker says which plugin is made: a controller, or a node.
type Maker struct {
	IsController bool
	Name         []byte // a controller's configuration, the JSON of a CONFIG file, or a node's id
	Session      uint64 // that of a node's joining, the same each time: a new record gets it, any other one is checked by it
}

// held is what the library made. The thread that made it makes all its calls: who has one is locked to its thread (runtime.LockOSThread).
type held struct {
	handle *C.tufayon_plugin
	room   []byte // for a reply, or the value of a change, for which it grows
}

func nothing() held {
	return held{handle: new(C.tufayon_plugin), room: make([]byte, C.TUFAYON_REPLY_ROOM)}
}

// A Plugin is a controller or a node. One thread makes all its calls.
type Plugin struct {
	held
}

// Bytes that C reads: some lie there even where there are none.
func in(bytes []byte) *C.uint8_t {
	if len(bytes) == 0 {
		bytes = []byte{0}
	}
	return (*C.uint8_t)(&bytes[0])
}

// Make makes the plugin of a whole record, or a new one where the record has no bytes. Then Changes are what the store has to be given before
// anything is answered; where renewed is set, in place of all that it has.
func (maker Maker) Make(record []byte) (plugin *Plugin, renewed bool, err error) {
	plugin = &Plugin{nothing()}
	name, nameSize := in(maker.Name), C.size_t(len(maker.Name))
	bytes, size := in(record), C.size_t(len(record))
	var ending C.uint32_t
	switch {
	case maker.IsController && size == 0:
		ending = C.tufayon_controller_new(name, nameSize, plugin.handle)
	case maker.IsController:
		ending = C.tufayon_controller_from_record(name, nameSize, bytes, size, plugin.handle)
	case size == 0:
		ending = C.tufayon_node_joined(name, nameSize, C.uint64_t(maker.Session), plugin.handle)
	default:
		ending = C.tufayon_node_joined_from_record(name, nameSize, C.uint64_t(maker.Session), bytes, size, plugin.handle)
	}
	if ending != C.TUFAYON_DONE && ending != C.TUFAYON_RENEWED {
		return nil, false, Ending(ending)
	}
	return plugin, ending == C.TUFAYON_RENEWED, nil
}

// Check fails where no plugin can be made, whatever its record: it makes a new one, which is freed.
func (maker Maker) Check() error {
	runtime.LockOSThread()
	defer runtime.UnlockOSThread()
	plugin, _, err := maker.Make(nil)
	if err == nil {
		plugin.Free()
	}
	return err
}

// Answer answers one whole frame. The reply has no bytes where the frame is a reply, or another plugin's.
func (plugin *Plugin) Answer(frame []byte) ([]byte, error) {
	var used, written C.size_t
	ending := C.tufayon_answer(plugin.handle, in(frame), C.size_t(len(frame)), &used, in(plugin.room), C.size_t(len(plugin.room)), &written)
	if ending != C.TUFAYON_DONE {
		return nil, Ending(ending)
	}
	return append([]byte(nil), plugin.room[:written]...), nil
}

// Changes are those of the last answered frame, of the last that an orchestrator was asked, or of making what there is.
func (it *held) Changes() ([]store.Change, error) {
	var changes []store.Change
	for {
		var key C.uint64_t
		var size C.size_t
		ending := C.tufayon_changed(it.handle, C.size_t(len(changes)), &key, in(it.room), C.size_t(len(it.room)), &size)
		switch ending {
		case C.TUFAYON_DONE:
			changes = append(changes, store.Change{Key: uint64(key), Value: append([]byte(nil), it.room[:size]...)})
		case C.TUFAYON_TAKE_OUT:
			changes = append(changes, store.Change{Key: uint64(key), Out: true})
		case C.TUFAYON_NO_ROOM:
			it.room = make([]byte, size)
		case C.TUFAYON_NO_MORE:
			return changes, nil
		default:
			return nil, Ending(ending)
		}
	}
}

// Free frees what there is. It is used no more.
func (it *held) Free() {
	C.tufayon_free(it.handle)
	runtime.KeepAlive(it)
}
