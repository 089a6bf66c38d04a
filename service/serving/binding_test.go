package serving

import (
	"context"
	"errors"
	"fmt"
	"testing"
	"time"

	"google.golang.org/grpc/codes"
	"google.golang.org/grpc/status"

	"tufayon/service/frames"
	"tufayon/service/identities"
	"tufayon/service/store"
)

// keeping is a store that keeps texts too.
type keeping struct {
	*memory
	texts map[string]string
}

func (keeping *keeping) Texts(context.Context) ([]store.Text, error) {
	keeping.mutex.Lock()
	defer keeping.mutex.Unlock()
	var texts []store.Text
	for key, value := range keeping.texts {
		texts = append(texts, store.Text{Key: key, Value: value})
	}
	return texts, nil
}

func (keeping *keeping) CommitBoth(ctx context.Context, changes []store.Change, texts []store.Text, _ []store.Side) error {
	if err := keeping.memory.Commit(ctx, false, changes); err != nil {
		return err
	}
	keeping.mutex.Lock()
	defer keeping.mutex.Unlock()
	for _, it := range texts {
		if delete(keeping.texts, it.Key); !it.Out {
			keeping.texts[it.Key] = it.Value
		}
	}
	return nil
}

func openKeeping(t *testing.T, kept *keeping) *Core {
	t.Helper()
	core, err := Open(context.Background(), Config{Make: making(10, &faults{}), Store: kept, Notes: opened(beside{kept.memory}), Numbering: byMetadata, Texts: true})
	if err != nil {
		t.Fatal(err)
	}
	t.Cleanup(core.Close)
	return core
}

// bound is a request about a volume of a text.
func bound(text string, kinds ...frames.Kind) Request {
	return Request{Node: "n1", Kind: kinds[0], Key: text, Bind: func(view View) (Bound, error) {
		volume, there := view.Table().ID(text)
		its := Bound{}
		if !there {
			volume = view.Table().Most() + 1
			its.Texts = []store.Text{identities.Put(volume, text)}
		}
		for _, kind := range kinds {
			if kind == frames.NodeStageVolumeKind {
				its.Bodies = append(its.Bodies, frames.NodeStageVolume{ID: volume, Capability: frames.Capability{Mode: 1}})
			} else {
				its.Bodies = append(its.Bodies, frames.NodeUnstageVolume{ID: volume})
			}
		}
		return its, nil
	}}
}

// A request is bound when the plugin is asked, and what is kept of it is there with its row, in one commit.
func TestBind(t *testing.T) {
	kept := &keeping{newMemory(), map[string]string{}}
	core := openKeeping(t, kept)
	wanted := func(want string) {
		t.Helper()
		if found := fmt.Sprint(kept.texts); found != want {
			t.Errorf("the texts are %s, not %s", found, want)
		}
	}
	wanted("map[upstream:1]")
	before := kept.count()
	for at, text := range []string{"a", "b", "a"} {
		if _, err := core.Carry(numbered(1, uint64(2*at+2)), bound(text, frames.NodeStageVolumeKind)); err != nil {
			t.Fatal(err)
		}
	}
	wanted("map[upstream:1 volume/0000000000000001:a volume/0000000000000002:b]")
	if commits := kept.count() - before; commits != 3 {
		t.Errorf("%d commits", commits)
	}
	if !kept.has(1) || !kept.has(2) || kept.has(3) {
		t.Errorf("the rows are %s", kept.text())
	}
	core.Close()
	core = openKeeping(t, kept)
	deed := done()
	undo := bound("b", frames.NodeUnstageVolumeKind).by(deed)
	undo.Always = true
	if _, err := core.Carry(numbered(1, 8), undo); err != nil || kept.has(2) || deed.times() != 1 {
		t.Errorf("undone: %v, %d times", err, deed.times())
	}
	// What isn't there passes to be undone, also where the plugin isn't asked, and a duplicate does; what is stale doesn't.
	none := Request{Kind: frames.NodeUnstageVolumeKind, Key: "c", Always: true, Bind: func(View) (Bound, error) { return Bound{}, nil }}.by(deed)
	for at, it := range []struct {
		call    uint64
		request Request
		times   int
		status  codes.Code
	}{{9, none, 2, codes.OK}, {8, undo, 3, codes.OK}, {7, undo, 3, codes.Aborted}, {10, undo, 4, codes.OK}} {
		answer, err := core.Carry(numbered(1, it.call), it.request)
		if err != nil || codes.Code(answer.Reply.Status) != it.status || deed.times() != it.times {
			t.Errorf("case %d: %v, %v, %d times", at, answer.Reply, err, deed.times())
		}
	}
}

// Of several calls the last has the number that came, and those before it lower ones: all are committed at once, and the first refusal is the answer.
func TestSteps(t *testing.T) {
	kept := &keeping{newMemory(), map[string]string{}}
	core, deed := openKeeping(t, kept), done()
	both := bound("a", frames.NodeStageVolumeKind, frames.NodeUnstageVolumeKind).by(deed)
	before := kept.count()
	answer, err := core.Carry(numbered(1, 2), both)
	if err != nil || answer.Reply.Kind != frames.NodeUnstageVolumeKind || answer.Reply.Number.Call != 2 || kept.count()-before != 1 || deed.times() != 1 {
		t.Errorf("%+v, %v, %d commits", answer, err, kept.count()-before)
	}
	if answer, err = core.Carry(numbered(1, 2), both); err != nil || codes.Code(answer.Reply.Status) != codes.Aborted || answer.Reply.Number.Call != 2 {
		t.Errorf("again: %+v, %v", answer, err)
	}
	if _, err = core.Carry(numbered(2, 0), both); status.Code(err) != codes.FailedPrecondition {
		t.Errorf("without a number before: %v", err)
	}
	undo := both
	undo.Kind, undo.Always = frames.NodeUnstageVolumeKind, true
	if answer, err = core.Carry(numbered(2, 2), undo); err != nil || answer.Reply.Status != 0 || deed.times() != 2 {
		t.Errorf("undone: %+v, %v, %d times", answer, err, deed.times())
	}
}

// What a deed told is kept before there is an answer, or refused; an error of a deed is given as the request says.
func TestKeep(t *testing.T) {
	kept := &keeping{newMemory(), map[string]string{}}
	core, fault := openKeeping(t, kept), status.Error(codes.DataLoss, "its own")
	request := bound("a", frames.NodeStageVolumeKind).by(done())
	request.Keep = func(_ View, known Known, gave any) ([]store.Text, error) {
		return []store.Text{identities.Put(known.Volume+10, gave.(string))}, nil
	}
	if _, err := core.Carry(numbered(1, 2), request); err != nil || kept.texts["volume/000000000000000b"] != "1" {
		t.Errorf("kept: %v, %v", kept.texts, err)
	}
	request.Keep = func(View, Known, any) ([]store.Text, error) { return nil, fault }
	if _, err := core.Carry(numbered(1, 4), request); !errors.Is(err, fault) {
		t.Errorf("refused: %v", err)
	}
	request.Act = func(context.Context, Known) (any, error) { return nil, fault }
	if _, err := core.Carry(numbered(1, 6), request); status.Code(err) != codes.Unavailable {
		t.Errorf("failed: %v", err)
	}
	request.Failed = func(err error) error { return err }
	if _, err := core.Carry(numbered(1, 8), request); !errors.Is(err, fault) {
		t.Errorf("failed: %v", err)
	}
}

// Long texts that no row has any more don't stay until the next start.
func TestLongTexts(t *testing.T) {
	kept := &keeping{newMemory(), map[string]string{}}
	core := openKeeping(t, kept)
	for at := 1; at <= 2*leastLong; at++ {
		its := fmt.Sprintf("/%0300d", at)
		request := bound("a", frames.NodeStageVolumeKind)
		bind := request.Bind
		request.Bind = func(view View) (Bound, error) {
			bound, err := bind(view)
			bound.Texts = append(bound.Texts, identities.Shorten(its, 255).Kept...)
			return bound, err
		}
		if _, err := core.Carry(numbered(1, uint64(at)), request); err != nil {
			t.Fatal(err)
		}
		if last := identities.Shorten(its, 255).Kept[0]; kept.texts[last.Key] != its || len(kept.texts) > leastLong+2 {
			t.Fatalf("after %d texts there are %d, with %q", at, len(kept.texts), kept.texts[last.Key])
		}
	}
}

// A request with another key waits for that too.
func TestAlso(t *testing.T) {
	core, slow, quick := openKeeping(t, &keeping{newMemory(), map[string]string{}}), newDeed(), done()
	first := carry(core, numbered(1, 2), bound("a", frames.NodeStageVolumeKind).by(slow))
	<-slow.begun
	request := bound("b", frames.NodeStageVolumeKind).by(quick)
	request.Also = func() string { return "a" }
	second := carry(core, numbered(1, 4), request)
	select {
	case err := <-second:
		t.Errorf("it doesn't wait: %v", err)
	case <-time.After(50 * time.Millisecond):
	}
	var taken bool
	if err := core.Look(context.Background(), func(view View) { taken = view.IsTaken("a") && view.IsTaken("b") && !view.IsTaken("c") }); err != nil || !taken {
		t.Errorf("taken: %v, %v", taken, err)
	}
	close(slow.goOn)
	wantsError(t, first, codes.OK)
	wantsError(t, second, codes.OK)
	request.Also = func() string { return "" }
	if _, err := core.Carry(numbered(1, 6), request); err != nil {
		t.Error(err)
	}
}

// The plugin is made anew of what is asked by then; where that is refused memory it goes on as it is.
func TestRemake(t *testing.T) {
	kept := &keeping{newMemory(), map[string]string{}}
	core := openKeeping(t, kept)
	made := 0
	request := bound("a", frames.NodeStageVolumeKind)
	bind := request.Bind
	fault := store.ErrMemory
	request.Bind = func(view View) (Bound, error) {
		its, err := bind(view)
		its.Make = func(record []byte) (Plugin, bool, error) {
			if made++; fault != nil {
				return nil, false, fault
			}
			return making(10, &faults{})(record)
		}
		return its, err
	}
	if _, err := core.Carry(numbered(1, 2), request); status.Code(err) != codes.ResourceExhausted {
		t.Errorf("without memory: %v", err)
	}
	fault = nil
	for call := uint64(2); call < 5; call++ {
		if _, err := core.Carry(numbered(1, call), request); err != nil {
			t.Error(err)
		}
	}
	if answer, err := core.Carry(numbered(1, 3), bound("a", frames.NodeStageVolumeKind)); err != nil || codes.Code(answer.Reply.Status) != codes.Aborted || made != 4 {
		t.Errorf("it forgot: %+v, %v, made %d times", answer, err, made)
	}
}
