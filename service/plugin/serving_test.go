package plugin_test

import (
	"context"
	"encoding/binary"
	"errors"
	"fmt"
	"runtime"
	"sort"
	"sync"
	"testing"

	"google.golang.org/grpc/codes"
	"google.golang.org/grpc/metadata"
	"google.golang.org/grpc/status"

	"tufayon/service/frames"
	"tufayon/service/numbers"
	"tufayon/service/plugin"
	"tufayon/service/serving"
	"tufayon/service/store"
)

// memory is a store that outlives its cores.
type memory struct {
	parts map[uint64][]byte
	sides map[string][]byte
	lost  chan struct{}
}

func newMemory() *memory {
	return &memory{parts: map[uint64][]byte{}, sides: map[string][]byte{}, lost: make(chan struct{})}
}

func (kept *memory) Sides(context.Context) (map[string][]byte, error) { return kept.sides, nil }

func (kept *memory) CommitWith(ctx context.Context, sides []store.Side, changes []store.Change) error {
	for _, side := range sides {
		if delete(kept.sides, side.Name); !side.Out {
			kept.sides[side.Name] = side.Value
		}
	}
	return kept.Commit(ctx, false, changes)
}

func (kept *memory) Load(context.Context) ([]store.Part, error) {
	var parts []store.Part
	for key, value := range kept.parts {
		parts = append(parts, store.Part{Key: key, Value: value})
	}
	sort.Slice(parts, func(i, j int) bool { return parts[i].Key < parts[j].Key })
	return parts, nil
}

func (kept *memory) Commit(_ context.Context, _ bool, changes []store.Change) error {
	for _, change := range changes {
		if change.Out {
			delete(kept.parts, change.Key)
		} else {
			kept.parts[change.Key] = change.Value
		}
	}
	return nil
}

func (kept *memory) Lost() <-chan struct{} { return kept.lost }
func (kept *memory) Close() error          { return nil }

var (
	controller = plugin.Maker{IsController: true, Name: []byte(`{"greatest":1000,"nodes":[{"id":"n1","slots":1},{"id":"n2","slots":9}]}`)}
	node       = plugin.Maker{Name: []byte("n1")}
	joined     = plugin.Maker{Name: []byte("n1"), Session: 5}
	block      = frames.Capability{Mode: 1}
)

func open(maker plugin.Maker, kept store.Store) (*serving.Core, error) {
	return serving.Open(context.Background(), configOf(maker, kept, false))
}

func configOf(maker plugin.Maker, kept store.Store, mustBegin bool) serving.Config {
	return serving.Config{
		Store:     kept,
		MustBegin: mustBegin,
		Numbering: func(uint64) (numbers.Source, error) { return numbers.Metadata{MostAbove: 1000000}, nil },
		Make: func(record []byte) (serving.Plugin, bool, error) {
			made, renewed, err := maker.Make(record)
			if err != nil {
				return nil, false, err
			}
			return made, renewed, nil
		},
	}
}

func opened(t *testing.T, maker plugin.Maker, kept store.Store) *serving.Core {
	t.Helper()
	core, err := open(maker, kept)
	if err != nil {
		t.Fatal(err)
	}
	t.Cleanup(core.Close)
	return core
}

// wants fails unless a call ends with this status, its own or the reply's.
func wants(t *testing.T, core *serving.Core, session, call uint64, request serving.Request, want codes.Code) serving.Answer {
	t.Helper()
	number := numbers.Text(frames.Number{Session: session, Call: call})
	answer, err := core.Carry(metadata.NewIncomingContext(context.Background(), metadata.Pairs(numbers.Key, number)), request)
	code := status.Code(err)
	if err == nil {
		code = codes.Code(answer.Reply.Status)
	}
	if code != want {
		t.Errorf("%s: %v (%v, %s), not %v", request.Body.Kind(), code, err, answer.Reply.Detail, want)
	}
	return answer
}

// By arrival what undoes is done by a number that no later process gives: its session is in the record before.
func TestUndoneByArrival(t *testing.T) {
	ctx, config := context.Background(), configOf(controller, newMemory(), false)
	config.Numbering = func(latest uint64) (numbers.Source, error) { return numbers.NewArrival(latest) }
	begin := func() *serving.Core {
		core, err := serving.Open(ctx, config)
		if err != nil {
			t.Fatal(err)
		}
		return core
	}
	core := begin()
	if _, err := core.Carry(ctx, create("v")); err != nil {
		t.Fatal(err)
	}
	core.Close()
	var told []frames.Number
	remove := serving.Request{Body: frames.DeleteVolume{ID: 1}}
	remove.Act = func(_ context.Context, known serving.Known) (any, error) {
		told = append(told, known.Number)
		return nil, errors.New("no")
	}
	for turn := 0; turn < 2; turn++ {
		core := begin()
		if _, err := core.Carry(ctx, remove); status.Code(err) != codes.Unavailable {
			t.Errorf("it is undone: %v", err)
		}
		core.Close()
	}
	if len(told) != 2 || told[1].Session <= told[0].Session {
		t.Errorf("the numbers are %v", told)
	}
}

// firsts is a store that notes which sides were to be first.
type firsts struct {
	*memory
	first map[string]bool
}

func (kept *firsts) CommitWith(ctx context.Context, sides []store.Side, changes []store.Change) error {
	for _, side := range sides {
		kept.first[side.Name] = side.First
	}
	return kept.memory.CommitWith(ctx, sides, changes)
}

// What is known of a session that begins is kept before the record has it.
func TestBegunComesFirst(t *testing.T) {
	for _, maker := range []plugin.Maker{controller, node} {
		kept := &firsts{newMemory(), map[string]bool{}}
		core := opened(t, maker, kept)
		if _, err := core.Begin(context.Background(), numbers.Opening{Session: 7, Token: "a"}); err != nil || !kept.first["begun"] {
			t.Errorf("%v, %v", kept.first, err)
		}
	}
}

func create(name string) serving.Request {
	return serving.Request{Body: frames.CreateVolume{Name: name, Required: 10, Capabilities: []frames.Capability{block}}}
}

func attach(volume uint64, at string) serving.Request {
	return serving.Request{Body: frames.ControllerPublishVolume{ID: volume, Node: at, Capability: block}}
}

func detach(volume uint64, at string) serving.Request {
	return serving.Request{Body: frames.ControllerUnpublishVolume{ID: volume, Node: at}}
}

var stage = serving.Request{Node: "n1", Body: frames.NodeStageVolume{ID: 1, Capability: block}}

// A copy tells of each call that undoes something what the plugin would: while a detach is under way, or failed, its node is full and the volume is
// attached; what the plugin refuses isn't undone.
func TestUndoing(t *testing.T) {
	core := opened(t, controller, newMemory())
	wants(t, core, 1, 1, create("v"), codes.OK)
	wants(t, core, 1, 2, create("w"), codes.OK)
	wants(t, core, 1, 3, attach(1, "n1"), codes.OK)
	wants(t, core, 1, 4, attach(2, "n1"), codes.ResourceExhausted)
	begun, goOn, ran := make(chan struct{}), make(chan error), 0
	undoing := detach(1, "n1")
	undoing.Act = func(context.Context, serving.Known) (any, error) {
		ran++
		close(begun)
		return nil, <-goOn
	}
	var group sync.WaitGroup
	for turn, fault := range []error{errors.New("it is busy"), nil} {
		begun = make(chan struct{})
		group.Add(1)
		want := codes.Unavailable
		if fault == nil {
			want = codes.OK
		}
		go func() {
			defer group.Done()
			wants(t, core, 2, uint64(turn), undoing, want)
		}()
		<-begun
		wants(t, core, 1, uint64(5+turn), attach(2, "n1"), codes.ResourceExhausted)
		goOn <- fault
		group.Wait()
	}
	wants(t, core, 2, 7, attach(2, "n1"), codes.OK)
	removing := serving.Request{Body: frames.DeleteVolume{ID: 2}, Act: undoing.Act}
	wants(t, core, 2, 8, removing, codes.FailedPrecondition)
	wants(t, core, 1, 9, removing, codes.Aborted)
	if ran != 2 {
		t.Errorf("%d were undone", ran)
	}
}

// Of what is full, each name is made once, whatever comes at once.
func TestAtOnce(t *testing.T) {
	const count = 100
	kept := newMemory()
	core := opened(t, controller, kept)
	var group sync.WaitGroup
	for at := uint64(1); at <= count; at++ {
		group.Add(1)
		go func(at uint64) {
			defer group.Done()
			wants(t, core, 1, at, create(fmt.Sprint("v", at)), codes.OK)
		}(at)
	}
	group.Wait()
	if len(kept.parts) != count+1 {
		t.Errorf("the store has %d parts", len(kept.parts))
	}
	core.Close()
	again := opened(t, controller, kept)
	if answer := wants(t, again, 1, count+1, create("another"), codes.OK); answer.Reply.Volume != count+1 {
		t.Errorf("the next volume is %d", answer.Reply.Volume)
	}
}

// A node that joins with a session finds calls of earlier ones stale, also once a deed failed, and when it is opened again.
func TestJoined(t *testing.T) {
	kept := newMemory()
	core := opened(t, joined, kept)
	wants(t, core, 4, 9, stage, codes.Aborted)
	if len(kept.parts) != 1 {
		t.Errorf("the store has %d parts", len(kept.parts))
	}
	failing := stage
	failing.Act = func(context.Context, serving.Known) (any, error) { return nil, errors.New("the disk burns") }
	wants(t, core, 6, 1, failing, codes.Unavailable)
	wants(t, core, 4, 9, stage, codes.Aborted)
	wants(t, core, 6, 2, stage, codes.OK)
	core.Close()
	for _, maker := range []plugin.Maker{joined, node} { // the store's session is above 0 too
		again := opened(t, maker, kept)
		wants(t, again, 4, 9, stage, codes.Aborted)
		again.Close()
	}
}

// The store of an earlier session than that of the joining, a lost node's, is refused, and stays as it is.
func TestEarlierSession(t *testing.T) {
	kept := newMemory()
	core := opened(t, node, kept)
	wants(t, core, 4, 1, stage, codes.OK)
	core.Close()
	before := fmt.Sprint(kept.parts)
	if _, err := open(joined, kept); !errors.Is(err, plugin.EarlierSession) {
		t.Errorf("it is opened, or refused otherwise: %v", err)
	}
	if after := fmt.Sprint(kept.parts); after != before {
		t.Errorf("the store has %s, not %s", after, before)
	}
}

func TestEndings(t *testing.T) {
	if !errors.Is(fmt.Errorf("the plugin: %w", plugin.NoMemory), store.ErrMemory) || errors.Is(plugin.BadFrame, store.ErrMemory) {
		t.Error("a refused allocation isn't what it is to others")
	}
}

// begins has a session begin, and wants that it is refused by this text, or not.
func begins(t *testing.T, core *serving.Core, opening numbers.Opening, want string) frames.Number {
	t.Helper()
	heard, err := core.Begin(context.Background(), opening)
	if said := status.Convert(err).Message(); said != want {
		t.Errorf("%+v: %q, not %q", opening, said, want)
	}
	return heard
}

func number(session, call uint64) frames.Number { return frames.Number{Session: session, Call: call} }

// A session begins by what the plugin has heard: no call of an earlier one passes then, and no call of one that wasn't begun.
func TestBegin(t *testing.T) {
	kept := newMemory()
	core := opened(t, controller, kept)
	begins(t, core, numbers.Opening{Session: 4, Token: "a"}, "")
	wants(t, core, 3, 9, create("v"), codes.Aborted)
	wants(t, core, 5, 1, create("v"), codes.FailedPrecondition)
	wants(t, core, 4, 1, create("v"), codes.OK)
	wants(t, core, 4, 2, attach(1, "n1"), codes.OK)
	for _, it := range []struct {
		opening numbers.Opening
		want    string
	}{
		{numbers.Opening{Session: 4, Token: "a"}, ""}, // a repeat
		{numbers.Opening{Session: 4, Token: "b", Sent: number(4, 2)}, "later"},
		{numbers.Opening{Session: 3, Token: "a", Sent: number(4, 2)}, "later"},
		{numbers.Opening{Session: 5, Token: "b", Sent: number(4, 1), Heard: number(4, 1)}, "later"},
		{numbers.Opening{Session: 5, Token: "b", Sent: number(4, 3), Heard: number(4, 3)}, "earlier"},
		{numbers.Opening{Session: 5, Token: "b", IsNew: true}, "earlier"},
		{numbers.Opening{Session: 1 << 40, Token: "b", Sent: number(4, 2)}, "session"},
	} {
		begins(t, core, it.opening, it.want)
		wants(t, core, 4, 2, attach(1, "n1"), codes.OK) // nothing is changed
	}
	if heard := begins(t, core, numbers.Opening{Session: 5, Token: "b", Sent: number(4, 3), Heard: number(4, 2), List: 5}, ""); heard != number(4, 2) {
		t.Errorf("it has heard %v", heard)
	}
	wants(t, core, 4, 3, detach(1, "n1"), codes.Aborted)
	core.Close()
	core = opened(t, controller, kept)
	wants(t, core, 4, 3, detach(1, "n1"), codes.Aborted) // that is in the record
	begins(t, core, numbers.Opening{Session: 6, Token: "c", Sent: number(4, 1), Heard: number(4, 1), List: 5}, "later")
	begins(t, core, numbers.Opening{Session: 6, Token: "c", Sent: number(5, 0), Heard: number(5, 0), List: 4}, "later")
	begins(t, core, numbers.Opening{Session: 6, Token: "c", IsUnknown: true, List: 5}, "")
	wants(t, core, 6, 1, detach(1, "n1"), codes.OK)
	core.Close()
	head := kept.parts[0] // its session is raised otherwise: what was begun counts no more
	binary.BigEndian.PutUint64(head[len(head)-8:], 9)
	core = opened(t, controller, kept)
	begins(t, core, numbers.Opening{Session: 9, Token: "d"}, "later")
	begins(t, core, numbers.Opening{Session: 10, Token: "d", IsUnknown: true}, "")
}

// At a node no row is lost or made by that where something is staged, also of a node that is full; one that joined has heard of no call.
func TestBeginAtNode(t *testing.T) {
	kept := newMemory()
	core := opened(t, joined, kept)
	begins(t, core, numbers.Opening{Session: 5, Token: "a", IsNew: true, Heard: number(5, 0)}, "")
	staging := func(volume uint64) serving.Request {
		return serving.Request{Node: "n1", Body: frames.NodeStageVolume{ID: volume, Capability: block}}
	}
	wants(t, core, 5, 1, staging(1), codes.OK)
	wants(t, core, 5, 2, serving.Request{Node: "n1", Body: frames.NodePublishVolume{ID: 1, Target: "/", Capability: block}}, codes.OK)
	for volume := uint64(2); volume <= 4096; volume++ {
		wants(t, core, 5, 1+volume, staging(volume), codes.OK)
	}
	rows := len(kept.parts)
	begins(t, core, numbers.Opening{Session: 6, Token: "b", Sent: number(5, 4097), Heard: number(5, 4097)}, "")
	if len(kept.parts) != rows {
		t.Errorf("%d parts, and then %d", rows, len(kept.parts))
	}
	wants(t, core, 5, 4098, stage, codes.Aborted)
	wants(t, core, 6, 1, serving.Request{Node: "n1", Body: frames.NodeUnpublishVolume{ID: 1, Target: "/"}}, codes.OK)
	empty := opened(t, node, newMemory())
	begins(t, empty, numbers.Opening{Session: 1, Token: "a"}, "")
	begins(t, empty, numbers.Opening{Session: 2, Token: "a", Sent: number(1, 0), Heard: number(1, 0)}, "")
	wants(t, empty, 2, 1, stage, codes.OK)
}

// raised raises a session in a plugin's store, as a recovery does.
func raised(t *testing.T, maker plugin.Maker, kept store.Store, session uint64) {
	t.Helper()
	runtime.LockOSThread()
	defer runtime.UnlockOSThread()
	parts, _ := kept.Load(context.Background())
	made, _, err := maker.Make(store.Record(parts))
	if err != nil {
		t.Fatal(err)
	}
	defer made.Free()
	if err := made.Raise(session); err != nil {
		t.Fatal(err)
	}
	changes, err := made.Changes()
	if err == nil {
		err = kept.Commit(context.Background(), false, changes)
	}
	if err != nil {
		t.Fatal(err)
	}
}

// An orchestrator that was recovered begins its session at a plugin that was raised, and not at one whose store is of before, nor at a lost node that lives.
func TestBeginRecovered(t *testing.T) {
	of := func(maker plugin.Maker, raises bool) *serving.Core {
		kept := newMemory()
		core := opened(t, maker, kept)
		begins(t, core, numbers.Opening{Session: 1, Token: "a", List: 1}, "")
		wants(t, core, 1, 1, stage, codes.OK)
		core.Close()
		if raises {
			raised(t, maker, kept, 9)
		}
		return opened(t, maker, kept)
	}
	given := numbers.Opening{Session: 10, Token: "r", Sent: number(9, 0), Heard: number(9, 0), List: 9}
	lost := numbers.Opening{Session: 10, Token: "r", Heard: number(9, 0), IsNew: true, List: 9}
	begins(t, of(node, true), lost, "earlier")
	begins(t, of(node, false), lost, "earlier")
	begins(t, of(node, false), given, "earlier")
	core := of(node, true)
	wants(t, core, 1, 2, stage, codes.Aborted)
	begins(t, core, given, "")
	wants(t, core, 10, 1, stage, codes.OK)
	begins(t, opened(t, plugin.Maker{Name: []byte("n1"), Session: 9}, newMemory()), lost, "") // it joined with the recovery's session
}

// Where a service alone begins sessions, nothing is taken before the first one, also over an empty store.
func TestMustBegin(t *testing.T) {
	core, err := serving.Open(context.Background(), configOf(node, newMemory(), true))
	if err != nil {
		t.Fatal(err)
	}
	defer core.Close()
	wants(t, core, 1, 1, stage, codes.FailedPrecondition)
	begins(t, core, numbers.Opening{Session: 1, Token: "a"}, "")
	wants(t, core, 1, 1, stage, codes.OK)
}
