package serving

import (
	"context"
	"fmt"
	"testing"

	"google.golang.org/grpc/codes"

	"tufayon/service/frames"
	"tufayon/service/numbers"
	"tufayon/service/store"
)

// siding is a store that has sides too.
type siding struct {
	*memory
	sides map[string][]byte
	outs  int // that were taken out with the last commit
}

func (siding *siding) Sides(context.Context) (map[string][]byte, error) {
	siding.mutex.Lock()
	defer siding.mutex.Unlock()
	sides := map[string][]byte{}
	for name, value := range siding.sides {
		sides[name] = value
	}
	return sides, nil
}

func (siding *siding) CommitWith(ctx context.Context, sides []store.Side, changes []store.Change) error {
	if err := siding.memory.Commit(ctx, false, changes); err != nil {
		return err
	}
	siding.mutex.Lock()
	defer siding.mutex.Unlock()
	siding.outs = 0
	for _, it := range sides {
		if delete(siding.sides, it.Name); it.Out {
			siding.outs++
		} else {
			siding.sides[it.Name] = it.Value
		}
	}
	return nil
}

// serves serves over a store, until the test ends, or the core is closed.
func (siding *siding) serves(t *testing.T, numbering Numbering) *Core {
	t.Helper()
	core, err := Open(context.Background(), Config{Make: making(100, &faults{}), Store: siding, Numbering: numbering})
	if err != nil {
		t.Fatal(err)
	}
	t.Cleanup(core.Close)
	return core
}

// stagedIn has a volume staged in a mode.
func stagedIn(volume uint64, mode uint8) Request {
	return Request{Node: "n1", Body: frames.NodeStageVolume{ID: volume, Capability: frames.Capability{Mode: mode}}}
}

// Another call of a number is refused by the next process too, and nothing is done for it; a repeat of the same gets its reply.
func TestLast(t *testing.T) {
	kept, deed := &siding{memory: newMemory(), sides: map[string][]byte{}}, done()
	core := kept.serves(t, byMetadata)
	wants(t, core, numbered(1, 1), stagedIn(1, 1), codes.OK)
	wants(t, core, numbered(1, 2), stagedIn(2, 1), codes.OK)
	core.Close()
	for process := 0; process < 2; process++ {
		core = kept.serves(t, byMetadata)
		for volume := uint64(1); volume <= 2; volume++ {
			wants(t, core, numbered(1, volume), stagedIn(volume, 5).by(deed), codes.FailedPrecondition)
			wants(t, core, numbered(1, volume), stagedIn(volume, 1), codes.OK)
		}
		core.Close()
	}
	if len(kept.sides) != 2 || deed.times() != 0 {
		t.Errorf("kept beside the record are %d, and %d were done", len(kept.sides), deed.times())
	}
	// What a driver of before kept, or somebody else, says nothing of a call.
	kept.sides = map[string][]byte{"last/0000000000000001": []byte("short"), "last/2": kept.sides["last/0000000000000002"], "other": nil}
	core = kept.serves(t, byMetadata)
	wants(t, core, numbered(1, 1), stagedIn(1, 5), codes.OK)
	wants(t, core, numbered(1, 2), stagedIn(2, 5), codes.OK)
}

// By arrival no number comes twice, and nothing is kept.
func TestLastByArrival(t *testing.T) {
	kept := &siding{memory: newMemory(), sides: map[string][]byte{}}
	core := kept.serves(t, func(latest uint64) (numbers.Source, error) { return numbers.NewArrival(latest) })
	wants(t, core, context.Background(), stagedIn(1, 1), codes.OK)
	wants(t, core, context.Background(), unstage(1), codes.OK)
	if len(kept.sides) != 0 {
		t.Errorf("kept beside the record are %d", len(kept.sides))
	}
}

// What is kept of volumes whose rows have gone goes too, some with each commit, whether that was in this process or before.
func TestLate(t *testing.T) {
	kept := &siding{memory: newMemory(), sides: map[string][]byte{}}
	const gone, room = 2 * mostChanges, mostChanges - 2 // beside a call's row and its side
	for volume := uint64(10); volume < 10+gone; volume++ {
		kept.sides[lastName(volume)] = last{}.value()
	}
	core := kept.serves(t, byMetadata)
	for call, left := range []int{2 + gone - room, 2 + gone - 2*room, 1, 1} { // the first one changes the head too
		wants(t, core, numbered(1, uint64(call+1)), stagedIn(1, 1), codes.OK)
		if len(kept.sides) != left {
			t.Errorf("after call %d %d are kept, not %d", call, len(kept.sides), left)
		}
	}
	full := newGroup()
	for at := 0; !full.isFull(); at++ {
		full.addSide(store.Side{Name: fmt.Sprint(at)})
	}
	for volume := uint64(10); volume < 10+gone; volume++ {
		core.late[volume] = true
	}
	if core.addLate(full); full.late != mostLate || len(core.late) != gone-mostLate {
		t.Errorf("with a full group go %d, and %d are left", full.late, len(core.late))
	}
	core.late = map[uint64]bool{}
	group := newGroup()
	group.add([]store.Change{{Key: 1, Out: true}, {Key: 2, Out: true}, {Key: 2, Value: []byte{1}}})
	core.forgetLast(group)
	if fmt.Sprint(core.late) != "map[1:true]" {
		t.Errorf("late are %v", core.late)
	}
	wants(t, core, numbered(1, 5), stagedIn(1, 1), codes.OK) // it has a row again
	if len(kept.sides) != 1 || len(core.late) != 0 {
		t.Errorf("%d are kept, and late are %v", len(kept.sides), core.late)
	}
}

// One side of a name is in a commit, the last that was put.
func TestSidesOfAGroup(t *testing.T) {
	it := newGroup()
	for at := byte(0); !it.isFull(); at++ {
		it.addSide(store.Side{Name: fmt.Sprint(at), Value: []byte{at}})
		it.addSide(store.Side{Name: "a", Value: []byte{at}})
	}
	if len(it.sides) != mostChanges || it.sides[1].Value[0] != mostChanges-2 {
		t.Errorf("it has %d sides, %v", len(it.sides), it.sides[1])
	}
}
