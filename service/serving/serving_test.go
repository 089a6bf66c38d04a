package serving

import (
	"context"
	"errors"
	"fmt"
	"sync"
	"testing"
	"time"

	"google.golang.org/grpc/codes"
	"google.golang.org/grpc/status"

	"tufayon/service/frames"
	"tufayon/service/numbers"
	"tufayon/service/store"
)

// A commit that fails gives no reply and ends the core; another over the store goes on as if the call had never come.
func TestCommitFails(t *testing.T) {
	kept := newMemory()
	core := open(t, kept, 10, &faults{})
	kept.fault = store.ErrDevice
	wants(t, core, numbered(1, 1), stage(1), codes.Unavailable)
	<-core.Done()
	if !errors.Is(core.Err(), store.ErrDevice) {
		t.Errorf("it ended by %v", core.Err())
	}
	wants(t, core, numbered(1, 1), stage(1), codes.Unavailable)
	kept.fault = nil
	wants(t, open(t, kept, 10, &faults{}), numbered(1, 1), stage(1), codes.OK)
}

// Who has the store no more ends at once, with what is being done.
func TestLost(t *testing.T) {
	kept, deed := newMemory(), newDeed()
	core := open(t, kept, 10, &faults{})
	under := carry(core, numbered(1, 1), stage(1).by(deed))
	<-deed.begun
	close(kept.lost)
	wantsError(t, under, codes.Unavailable)
	<-core.Done()
	if !errors.Is(core.Err(), store.ErrLost) {
		t.Errorf("it ended by %v", core.Err())
	}
}

// carry has a call made beside this one.
func carry(core *Core, ctx context.Context, request Request) <-chan error {
	ended := make(chan error, 1)
	go func() {
		_, err := core.Carry(ctx, request)
		ended <- err
	}()
	return ended
}

func wantsError(t *testing.T, ended <-chan error, want codes.Code) {
	t.Helper()
	if err := <-ended; status.Code(err) != want {
		t.Errorf("it ended by %v, not %v", err, want)
	}
}

// What does something is in the store before it is done, and stays there where that fails; the repeat does it again, by the same number or another
// one, and once it was done a duplicate doesn't.
func TestDoing(t *testing.T) {
	kept, deed := newMemory(), newDeed()
	core := open(t, kept, 10, &faults{})
	ended := carry(core, numbered(1, 1), stage(1).by(deed))
	<-deed.begun
	if !kept.has(1) {
		t.Error("it is done before it is committed")
	}
	deed.goOn <- errors.New("the disk burns")
	if err := <-ended; status.Code(err) != codes.Unavailable || status.Convert(err).Message() != "the disk burns" {
		t.Errorf("it ended by %v", err)
	}
	if !kept.has(1) {
		t.Error("the store let go of what may be there")
	}
	close(deed.goOn)
	for _, call := range []uint64{1, 1, 2, 2} {
		answer := wants(t, core, numbered(1, call), stage(1).by(deed), codes.OK)
		if answer.Acted != "1" {
			t.Errorf("it gave %q", answer.Acted)
		}
	}
	if deed.times() != 3 {
		t.Errorf("it was done %d times", deed.times())
	}
	wants(t, core, numbered(1, 1), stage(1).by(deed), codes.Aborted)
	core.Close()
	wants(t, open(t, kept, 10, &faults{}), numbered(1, 2), stage(1).by(deed), codes.OK) // another process doesn't know that it was done
	if deed.times() != 4 {
		t.Errorf("it was done %d times", deed.times())
	}
}

// By arrival too a call's number is told to who sees the call: one whose deed failed has one, and one that was refused before has none.
func TestNumberTold(t *testing.T) {
	config := Config{Make: making(10, &faults{}), Store: newMemory(), Numbering: func(latest uint64) (numbers.Source, error) { return numbers.NewArrival(latest) }}
	core, err := Open(context.Background(), config)
	if err != nil {
		t.Fatal(err)
	}
	defer core.Close()
	fails := func(context.Context, Known) (any, error) { return nil, errors.New("it fails") }
	for at, it := range []struct {
		request Request
		number  string
	}{
		{stage(1), "1.1"}, {stage(2), "1.2"}, {Request{Node: "n1", Body: stage(3).Body, Act: fails}, "1.3"},
		{Request{Bind: func(View) (Bound, error) { return Bound{}, errMemory }, Kind: frames.NodeStageVolumeKind}, ""},
	} {
		ctx, number := numbers.Telling(context.Background())
		core.Carry(ctx, it.request)
		if got := number(); got != it.number {
			t.Errorf("call %d has %q, not %q", at, got, it.number)
		}
	}
}

// What undoes something is in the store only once it is undone; where that fails nothing is changed, not even the session.
func TestUndoing(t *testing.T) {
	kept, deed := newMemory(), newDeed()
	core := open(t, kept, 10, &faults{})
	wants(t, core, numbered(1, 1), stage(1), codes.OK)
	before := kept.text()
	ended := carry(core, numbered(2, 1), unstage(1).by(deed))
	<-deed.begun
	if kept.text() != before {
		t.Error("the store lets go of what is there")
	}
	deed.goOn <- errors.New("it is busy")
	wantsError(t, ended, codes.Unavailable)
	if kept.text() != before {
		t.Errorf("the store has %s, not %s", kept.text(), before)
	}
	wants(t, core, numbered(1, 2), stage(2), codes.OK) // no session began
	close(deed.goOn)
	wants(t, core, numbered(2, 1), unstage(1).by(deed), codes.OK)
	wants(t, core, numbered(2, 1), unstage(1).by(deed), codes.OK)
	if kept.has(1) || deed.times() != 2 {
		t.Errorf("it is there: %v, and was undone %d times", kept.has(1), deed.times())
	}
	wants(t, core, numbered(1, 9), unstage(2).by(deed), codes.Aborted)
	wants(t, core, numbered(2, 2), unstage(7).by(deed), codes.OK) // nobody has it
	if deed.times() != 2 {
		t.Errorf("it was undone %d times", deed.times())
	}
}

// A session that begins while something is undone makes the call stale: the store still has the thing.
func TestSessionBegins(t *testing.T) {
	kept, deed := newMemory(), newDeed()
	core := open(t, kept, 10, &faults{})
	wants(t, core, numbered(1, 1), stage(1), codes.OK)
	answers := make(chan Answer, 1)
	go func() {
		answer, _ := core.Carry(numbered(1, 2), unstage(1).by(deed))
		answers <- answer
	}()
	<-deed.begun
	wants(t, core, numbered(2, 1), stage(2), codes.OK)
	close(deed.goOn)
	if answer := <-answers; answer.Reply.Status != uint8(codes.Aborted) || !kept.has(1) {
		t.Errorf("its reply is %+v, and the store has it: %v", answer.Reply, kept.has(1))
	}
}

// Who gave up finds it done by a repeat that came meanwhile, and it isn't done twice; other calls, and those after another one, do it.
func TestJoining(t *testing.T) {
	core, deed := open(t, newMemory(), 10, &faults{}), newDeed()
	ctx, giveUp := context.WithCancel(numbered(1, 1))
	first := carry(core, ctx, stage(1).by(deed))
	<-deed.begun
	giveUp()
	like, other := stage(1).by(deed), stage(1).by(deed)
	other.Like = "with other flags"
	repeats := []<-chan error{}
	for call, request := range map[uint64]Request{1: like, 2: like, 3: like} {
		repeats = append(repeats, carry(core, numbered(1, call), request))
	}
	for waiting(core, key{volume: 1}) < 3 {
		time.Sleep(time.Millisecond)
	}
	close(deed.goOn)
	wantsError(t, first, codes.OK)
	for _, it := range repeats {
		<-it // by their order some may be stale
	}
	if deed.times() != 1 {
		t.Errorf("it was done %d times", deed.times())
	}
	wants(t, core, numbered(1, 4), other, codes.OK)
	wants(t, core, numbered(1, 5), like, codes.OK)
	if deed.times() != 3 {
		t.Errorf("it was done %d times", deed.times())
	}
}

// What was joined doesn't count where another deed came between, also one that failed.
func TestJoiningAfterFailing(t *testing.T) {
	core, deed, failing := open(t, newMemory(), 10, &faults{}), newDeed(), newDeed()
	first := carry(core, numbered(1, 1), stage(1).by(deed))
	<-deed.begun
	other := stage(1).by(failing)
	other.Like = "with other flags"
	second := carry(core, numbered(1, 2), other)
	for waiting(core, key{volume: 1}) < 1 {
		time.Sleep(time.Millisecond)
	}
	again := carry(core, numbered(1, 3), stage(1).by(deed))
	for waiting(core, key{volume: 1}) < 2 {
		time.Sleep(time.Millisecond)
	}
	close(deed.goOn)
	<-failing.begun
	failing.goOn <- errors.New("no such flags")
	wantsError(t, first, codes.OK)
	wantsError(t, second, codes.Unavailable)
	wantsError(t, again, codes.OK)
	if deed.times() != 2 {
		t.Errorf("it was done %d times", deed.times())
	}
}

func TestJoiningAfterUndoing(t *testing.T) {
	core, deed, undo := open(t, newMemory(), 10, &faults{}), newDeed(), done()
	first := carry(core, numbered(1, 1), stage(1).by(deed))
	<-deed.begun
	undone := carry(core, numbered(1, 2), unstage(1).by(undo))
	for waiting(core, key{volume: 1}) < 1 {
		time.Sleep(time.Millisecond)
	}
	again := carry(core, numbered(1, 3), stage(1).by(deed))
	for waiting(core, key{volume: 1}) < 2 {
		time.Sleep(time.Millisecond)
	}
	close(deed.goOn)
	for _, it := range []<-chan error{first, undone, again} {
		wantsError(t, it, codes.OK)
	}
	if deed.times() != 2 || undo.times() != 1 {
		t.Errorf("it was done %d times, and undone %d times", deed.times(), undo.times())
	}
}

// waiting is how many calls wait for a key.
func waiting(core *Core, key key) int {
	core.turns.mutex.Lock()
	defer core.turns.mutex.Unlock()
	return len(core.turns.queues[key])
}

// A slow deed holds up no other volume; the next call of its own volume isn't asked before it ended.
func TestSideBySide(t *testing.T) {
	const count = 1000
	kept, slow, quick := newMemory(), newDeed(), done()
	core := open(t, kept, count+1, &faults{})
	first := carry(core, numbered(1, 1), stage(1).by(slow))
	<-slow.begun
	next := carry(core, numbered(1, 2), unstage(1).by(quick))
	var group sync.WaitGroup
	for volume := uint64(2); volume < count+2; volume++ {
		group.Add(1)
		go func(volume uint64) {
			defer group.Done()
			wants(t, core, numbered(1, volume+1), stage(volume), codes.OK)
		}(volume)
	}
	group.Wait()
	if !kept.has(1) || !kept.has(count+1) || quick.times() != 0 {
		t.Error("the slow one isn't there, or another one, or what came after it was done before it ended")
	}
	close(slow.goOn)
	wantsError(t, first, codes.OK)
	wantsError(t, next, codes.OK)
	if kept.has(1) {
		t.Error("it is there still")
	}
}

// The last room is taken as soon as it is claimed, and free again only once what had it is undone.
func TestLastRoom(t *testing.T) {
	core, does, undoes := open(t, newMemory(), 1, &faults{}), newDeed(), newDeed()
	first := carry(core, numbered(1, 1), stage(1).by(does))
	<-does.begun
	wants(t, core, numbered(1, 2), stage(2), codes.ResourceExhausted)
	does.goOn <- errors.New("the disk burns")
	wantsError(t, first, codes.Unavailable)
	wants(t, core, numbered(1, 3), stage(2), codes.ResourceExhausted)
	second := carry(core, numbered(1, 4), unstage(1).by(undoes))
	<-undoes.begun
	wants(t, core, numbered(1, 5), stage(2), codes.ResourceExhausted)
	close(undoes.goOn)
	wantsError(t, second, codes.OK)
	wants(t, core, numbered(1, 6), stage(2), codes.OK)
}

// A volume that is made is acted on under its name, and then under its id.
func TestMaking(t *testing.T) {
	core, deed, undo := open(t, newMemory(), 10, &faults{}), newDeed(), done()
	first := carry(core, numbered(1, 1), create("abc").by(deed))
	<-deed.begun
	removed := carry(core, numbered(1, 2), Request{Body: frames.DeleteVolume{ID: 3}}.by(undo))
	for waiting(core, key{volume: 3}) < 1 {
		time.Sleep(time.Millisecond)
	}
	if undo.times() != 0 {
		t.Error("it is deleted while it is made")
	}
	close(deed.goOn)
	wantsError(t, first, codes.OK)
	wantsError(t, removed, codes.OK)
	if undo.times() != 1 {
		t.Errorf("it was deleted %d times", undo.times())
	}
}

// A volume that is asked for while the one of its name is deleted is made anew, once that is over; where it couldn't be deleted, it is the same one.
func TestMakingWhileDeleted(t *testing.T) {
	for _, fault := range []error{nil, errors.New("it is busy")} {
		kept, deed, undo := newMemory(), done(), newDeed()
		core, err := Open(context.Background(), Config{
			Make: making(10, &faults{}), Store: kept, Numbering: func(latest uint64) (numbers.Source, error) { return numbers.NewArrival(latest) },
		})
		if err != nil {
			t.Fatal(err)
		}
		defer core.Close()
		ctx := context.Background()
		wants(t, core, ctx, create("abc").by(deed), codes.OK)
		removed := carry(core, ctx, Request{Body: frames.DeleteVolume{ID: 3}}.by(undo))
		<-undo.begun
		made := make(chan Answer)
		go func() { made <- wants(t, core, ctx, create("abc").by(deed), codes.OK) }()
		for waiting(core, key{volume: 3}) < 1 {
			time.Sleep(time.Millisecond)
		}
		undo.goOn <- fault
		want, code := uint64(13), codes.OK
		if fault != nil {
			want, code = 3, codes.Unavailable
		}
		wantsError(t, removed, code)
		if answer := <-made; answer.Reply.Volume != want || answer.Acted != fmt.Sprint(want) || !kept.has(want) || deed.times() != 2 {
			t.Errorf("%v: volume %d, made as %v by deed %d; the store has it: %v", fault, answer.Reply.Volume, answer.Acted, deed.times(), kept.has(want))
		}
		for _, volume := range []uint64{3, 13} {
			if core.turns.isTaken(key{volume: volume}) {
				t.Errorf("the turn of volume %d is taken still", volume)
			}
		}
	}
}

// A call whose caller gave up before its turn isn't carried out.
func TestGivenUp(t *testing.T) {
	kept, slow := newMemory(), newDeed()
	core := open(t, kept, 10, &faults{})
	first := carry(core, numbered(1, 1), stage(1).by(slow))
	<-slow.begun
	short, cancel := context.WithTimeout(numbered(1, 2), 10*time.Millisecond)
	defer cancel()
	wants(t, core, short, unstage(1), codes.DeadlineExceeded)
	if queue := waiting(core, key{volume: 1}); queue != 0 {
		t.Errorf("%d wait", queue)
	}
	close(slow.goOn)
	wantsError(t, first, codes.OK)
	if !kept.has(1) {
		t.Error("it was carried out")
	}
	gone, cancelled := context.WithCancel(numbered(1, 3))
	cancelled()
	wants(t, core, gone, unstage(1), codes.Canceled)
	// What is being undone is undone to its end, whoever waits for it.
	undoing := newDeed()
	leaving, leave := context.WithCancel(numbered(1, 4))
	last := carry(core, leaving, unstage(1).by(undoing))
	<-undoing.begun
	leave()
	close(undoing.goOn)
	wantsError(t, last, codes.OK)
	if kept.has(1) {
		t.Error("it is there still")
	}
}

// There are so many calls at most.
func TestLimit(t *testing.T) {
	slow := newDeed()
	core, err := Open(context.Background(), Config{Make: making(10, &faults{}), Store: newMemory(), Numbering: byMetadata, Calls: 2})
	if err != nil {
		t.Fatal(err)
	}
	t.Cleanup(core.Close)
	first := carry(core, numbered(1, 1), stage(1).by(slow))
	<-slow.begun
	second := carry(core, numbered(1, 2), stage(1).by(slow))
	for waiting(core, key{volume: 1}) < 1 {
		time.Sleep(time.Millisecond)
	}
	_, err = core.Carry(numbered(1, 3), stage(3))
	if status.Code(err) != codes.ResourceExhausted || status.Convert(err).Message() != "calls" {
		t.Errorf("the third: %v", err)
	}
	close(slow.goOn)
	wantsError(t, first, codes.OK)
	wantsError(t, second, codes.OK)
	wants(t, core, numbered(1, 3), stage(3), codes.OK)
}

// What is done anew comes above the limit, since nobody called, and lets nobody else in above it.
func TestLimitAnew(t *testing.T) {
	slow := newDeed()
	core, err := Open(context.Background(), Config{Make: making(10, &faults{}), Store: newMemory(), Numbering: byMetadata, Calls: 1})
	if err != nil {
		t.Fatal(err)
	}
	t.Cleanup(core.Close)
	first := carry(core, numbered(1, 1), stage(1).by(slow))
	<-slow.begun
	begun, goesOn, anew := make(chan struct{}), make(chan struct{}), make(chan error, 1)
	go func() {
		_, err := core.Anew(2, func(Known, func(Known, Request) error) error {
			close(begun)
			<-goesOn
			return nil
		})
		anew <- err
	}()
	<-begun
	wants(t, core, numbered(1, 3), stage(3), codes.ResourceExhausted)
	close(goesOn)
	close(slow.goOn)
	wantsError(t, first, codes.OK)
	if err := <-anew; err != nil {
		t.Errorf("anew: %v", err)
	}
	wants(t, core, numbered(1, 3), stage(3), codes.OK)
}

// What waits behind a deed that the end ends isn't begun any more: it would be killed at once.
func TestEndBehind(t *testing.T) {
	kept, slow, behind := newMemory(), newDeed(), newDeed()
	core := open(t, kept, 10, &faults{})
	first := carry(core, numbered(1, 1), stage(1).by(slow))
	<-slow.begun
	second := carry(core, numbered(1, 2), unstage(1).by(behind))
	for waiting(core, key{volume: 1}) < 1 {
		time.Sleep(time.Millisecond)
	}
	core.Close()
	wantsError(t, first, codes.Unavailable)
	wantsError(t, second, codes.Unavailable)
	if behind.times() != 0 || !kept.has(1) {
		t.Errorf("it was begun %d times, and is in the store: %v", behind.times(), kept.has(1))
	}
}

// An end waits for what is under way, for a while, and then ends it: no reply is given, and the store has what may be there.
func TestEnd(t *testing.T) {
	kept, slow := newMemory(), newDeed()
	core := open(t, kept, 10, &faults{})
	first := carry(core, numbered(1, 1), stage(1).by(slow))
	<-slow.begun
	ctx, cancel := context.WithTimeout(context.Background(), 10*time.Millisecond)
	defer cancel()
	core.Finish(ctx)
	wants(t, core, numbered(1, 2), stage(2), codes.Unavailable)
	core.Close()
	wantsError(t, first, codes.Unavailable)
	if !kept.has(1) || core.Err() != nil {
		t.Errorf("the store has it: %v, and it ended by %v", kept.has(1), core.Err())
	}
}

// A path is in the notes before its row, and goes once the volume isn't staged any more.
func TestPaths(t *testing.T) {
	kept := newMemory()
	core := open(t, kept, 10, &faults{})
	wants(t, core, numbered(1, 1), stage(1), codes.OK)
	wants(t, core, numbered(1, 2), stage(2), codes.OK)
	known, err := core.Known(context.Background(), 1)
	if err != nil || known.Staging != "/s/1" || known.Session != 1 || known.Row == nil {
		t.Errorf("it is known as %+v, %v", known, err)
	}
	wants(t, core, numbered(1, 3), unstage(1), codes.OK)
	if known, err := core.Known(context.Background(), 1); err != nil || known.Staging != "" {
		t.Errorf("it is known as %+v, %v", known, err)
	}
	core.Close()
	if notes := fmt.Sprint(kept.notes); notes != "map[2:/s/2]" {
		t.Errorf("the notes are %s", notes)
	}
	kept.notes[7] = "/s/7" // of a process that was killed before the row came
	again := open(t, kept, 10, &faults{})
	if known, err := again.Known(context.Background(), 7); err != nil || known.Staging != "" {
		t.Errorf("it is known as %+v, %v", known, err)
	}
	if known, err := again.Known(context.Background(), 2); err != nil || known.Staging != "/s/2" {
		t.Errorf("it is known as %+v, %v", known, err)
	}
	kept.fault = store.ErrNotes
	wants(t, again, numbered(1, 5), stage(5), codes.Unavailable)
	if kept.has(5) {
		t.Error("the row is there, and its note isn't")
	}
}

// A refusal of Judge changes nothing, and is told as it is.
func TestJudged(t *testing.T) {
	kept, deed := newMemory(), done()
	core := open(t, kept, 10, &faults{})
	wants(t, core, numbered(1, 1), stage(1), codes.OK)
	before := kept.text()
	for _, request := range []Request{stage(1), unstage(1), stage(2)} {
		request = request.by(deed)
		request.Judge = func(known Known) error {
			if known.Number != (frames.Number{Session: 1, Call: 2}) || known.Session != 1 || (known.Row != nil) != (known.Volume == 1) {
				t.Errorf("it is judged by %+v", known)
			}
			return status.Error(codes.FailedPrecondition, "no")
		}
		wants(t, core, numbered(1, 2), request, codes.FailedPrecondition)
	}
	if kept.text() != before || deed.times() != 0 {
		t.Errorf("the store has %s, and %d deeds were done", kept.text(), deed.times())
	}
}
