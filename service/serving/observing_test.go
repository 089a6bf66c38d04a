package serving

import (
	"context"
	"errors"
	"fmt"
	"strings"
	"sync"
	"testing"
	"time"

	"google.golang.org/grpc/codes"

	"tufayon/service/frames"
	"tufayon/service/store"
)

// hearing is an observer that notes what it is told.
type hearing struct {
	mutex sync.Mutex
	said  []string
}

func (it *hearing) note(words ...any) {
	it.mutex.Lock()
	defer it.mutex.Unlock()
	it.said = append(it.said, fmt.Sprint(words...))
}

func (it *hearing) Committed(_ time.Duration, err error) { it.note("committed ", err) }
func (it *hearing) Acted(kind frames.Kind, _ time.Duration, err error) {
	it.note("acted ", kind, " ", err)
}
func (it *hearing) Repeated(kind frames.Kind) { it.note("repeated ", kind) }

// What an observer is told of a call, of its repeat, of a deed that fails and of a commit that fails; and what is counted.
func TestObserver(t *testing.T) {
	kept, deed, told := newMemory(), newDeed(), &hearing{}
	core, err := Open(context.Background(), Config{Make: making(10, &faults{}), Store: kept, Numbering: byMetadata, Observer: told})
	if err != nil {
		t.Fatal(err)
	}
	defer core.Close()
	close(deed.goOn)
	wants(t, core, numbered(3, 1), stage(1).by(deed), codes.OK)
	wants(t, core, numbered(3, 1), stage(1).by(deed), codes.OK)
	if counts := core.Counts(); counts.Rows != 1 || counts.Session != 3 || counts.Calls != 0 || counts.Committing != 0 {
		t.Errorf("%+v", counts)
	}
	kept.fault = store.ErrDevice
	wants(t, core, numbered(3, 2), stage(2), codes.Unavailable)
	told.mutex.Lock()
	defer told.mutex.Unlock()
	want := "committed <nil>; acted NodeStageVolume <nil>; repeated NodeStageVolume; committed <nil>; committed " + store.ErrDevice.Error()
	if said := strings.Join(told.said, "; "); said != want {
		t.Errorf("it is told %s", said)
	}
	if !errors.Is(core.Err(), store.ErrDevice) {
		t.Errorf("it ended by %v", core.Err())
	}
}

// slowNotes are notes of which a commit waits.
type slowNotes struct {
	beside
	goesOn chan struct{}
}

func (notes slowNotes) Commit(ctx context.Context, changes []store.Note) error {
	<-notes.goesOn
	return notes.beside.Commit(ctx, changes)
}

// A commit of notes is counted as one that is under way too, by which one that hangs is found.
func TestNotesHang(t *testing.T) {
	kept := newMemory()
	notes := slowNotes{beside{kept}, make(chan struct{})}
	core, err := Open(context.Background(), Config{Make: making(10, &faults{}), Store: kept, Notes: opened(notes), Numbering: byMetadata})
	if err != nil {
		t.Fatal(err)
	}
	defer core.Close()
	staged := carry(core, numbered(1, 1), stage(1))
	for until := time.Now().Add(time.Second); core.Counts().Committing == 0; time.Sleep(time.Millisecond) {
		if time.Now().After(until) {
			t.Error("it isn't counted")
			break
		}
	}
	close(notes.goesOn)
	wantsError(t, staged, codes.OK)
	if counts := core.Counts(); counts.Committing != 0 {
		t.Errorf("%+v", counts)
	}
}
