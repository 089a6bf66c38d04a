package serving

import (
	"context"
	"encoding/binary"
	"errors"
	"fmt"
	"sort"
	"sync"
	"testing"

	"google.golang.org/grpc/codes"
	"google.golang.org/grpc/metadata"
	"google.golang.org/grpc/status"

	"tufayon/service/frames"
	"tufayon/service/numbers"
	"tufayon/service/store"
)

// fake is a plugin as far as a core can tell: each volume's row has whether it is there, the last call that passed the fence, and its kind. Of the real
// one it has the fence, and that what a volume's undoing comes to hangs on its row alone. There is room for so many volumes.
type fake struct {
	rows    map[uint64]fakeRow
	session uint64
	changes []store.Change
	room    int
	fault   *faults
}

type fakeRow struct {
	there  bool
	number frames.Number
	kind   frames.Kind
	status uint8
}

// faults are those of all fakes of a test, each once.
type faults struct {
	mutex           sync.Mutex
	answer, changes error
}

func (faults *faults) take(of *error) error {
	faults.mutex.Lock()
	defer faults.mutex.Unlock()
	fault := *of
	*of = nil
	return fault
}

// row is a value as records.IsStaged reads it: the version, whether it is there, and the rest.
func (row fakeRow) value() []byte {
	value := []byte{3, 0, byte(row.kind), row.status}
	if row.there {
		value[1] = 1
	}
	value = binary.BigEndian.AppendUint64(value, row.number.Session)
	return binary.BigEndian.AppendUint64(value, row.number.Call)
}

func rowOf(value []byte) fakeRow {
	number := frames.Number{Session: binary.BigEndian.Uint64(value[4:]), Call: binary.BigEndian.Uint64(value[12:])}
	return fakeRow{there: value[1] == 1, kind: frames.Kind(value[2]), status: value[3], number: number}
}

func headOf(session uint64) []byte {
	return binary.BigEndian.AppendUint64([]byte{3, 1, 0}, session)
}

// making makes fakes, of a record that begins with its version and the number of parts.
func making(room int, faults *faults) Make {
	return func(record []byte) (Plugin, bool, error) {
		made := &fake{rows: map[uint64]fakeRow{}, room: room, fault: faults}
		if len(record) == 0 {
			made.changes = []store.Change{{Key: 0, Value: headOf(0)}}
			return made, false, nil
		}
		for rest := record[5:]; len(rest) > 0; {
			key, size := binary.BigEndian.Uint64(rest), binary.BigEndian.Uint32(rest[8:])
			value := rest[12 : 12+size]
			if rest = rest[12+size:]; key == 0 {
				made.session = binary.BigEndian.Uint64(value[3:])
			} else {
				made.rows[key] = rowOf(value)
			}
		}
		return made, false, nil
	}
}

func (fake *fake) there() int {
	count := 0
	for _, row := range fake.rows {
		if row.there {
			count++
		}
	}
	return count
}

// idOf is the length of a name, as good an id as any, or where that volume was deleted, ten more.
func (fake *fake) idOf(name string) uint64 {
	volume := uint64(len(name))
	for row, known := fake.rows[volume]; known && !row.there; row, known = fake.rows[volume] {
		volume += 10
	}
	return volume
}

func (fake *fake) Answer(frame []byte) ([]byte, error) {
	if err := fake.fault.take(&fake.fault.answer); err != nil {
		return nil, err
	}
	call, err := frames.DecodeCall(frame)
	if err != nil {
		return nil, err
	}
	fake.changes = nil
	reply := frames.Reply{Number: call.Number, Node: call.Node, Kind: call.Kind()}
	volume := call.Volume()
	if create, is := call.Body.(frames.CreateVolume); is {
		volume = fake.idOf(create.Name)
		reply.Volume = volume
	}
	row, known := fake.rows[volume]
	switch {
	case call.Number.Session < fake.session || known && call.Number.IsBefore(row.number):
		reply.Status, reply.Detail, reply.Volume = uint8(codes.Aborted), "stale", 0
		return reply.Encode()
	case known && call.Number == row.number:
		reply.Kind, reply.Status, reply.Volume = row.kind, row.status, 0
		if row.kind == frames.CreateVolumeKind && row.status == 0 {
			reply.Volume = volume
		}
		return reply.Encode()
	}
	if call.Number.Session > fake.session {
		fake.session = call.Number.Session
		fake.changes = append(fake.changes, store.Change{Key: 0, Value: headOf(fake.session)})
	}
	if undoes(call.Kind()) {
		if !known {
			return reply.Encode()
		}
		row.there = false
	} else if !row.there && fake.there() >= fake.room {
		reply.Status, reply.Detail, reply.Volume = uint8(codes.ResourceExhausted), "slots", 0
	} else {
		row.there = true
	}
	row.number, row.kind, row.status = call.Number, call.Kind(), reply.Status
	fake.rows[volume] = row
	fake.changes = append(fake.changes, store.Change{Key: volume, Value: row.value()})
	return reply.Encode()
}

func (fake *fake) Changes() ([]store.Change, error) {
	if err := fake.fault.take(&fake.fault.changes); err != nil {
		return nil, err
	}
	return fake.changes, nil
}

func (fake *fake) Free() {}

// memory is a store, and the notes, that outlive their cores, and may fail or be slow.
type memory struct {
	mutex   sync.Mutex
	parts   map[uint64][]byte
	notes   map[uint64]string
	commits int
	fault   error
	hold    chan struct{} // a commit waits until it is closed, where there is one
	lost    chan struct{}
}

func newMemory() *memory {
	return &memory{parts: map[uint64][]byte{}, notes: map[uint64]string{}, lost: make(chan struct{})}
}

func (kept *memory) Load(context.Context) ([]store.Part, error) {
	kept.mutex.Lock()
	defer kept.mutex.Unlock()
	var parts []store.Part
	for key, value := range kept.parts {
		parts = append(parts, store.Part{Key: key, Value: value})
	}
	sort.Slice(parts, func(i, j int) bool { return parts[i].Key < parts[j].Key })
	return parts, nil
}

func (kept *memory) Commit(_ context.Context, _ bool, changes []store.Change) error {
	kept.mutex.Lock()
	hold := kept.hold
	kept.mutex.Unlock()
	if hold != nil {
		<-hold
	}
	kept.mutex.Lock()
	defer kept.mutex.Unlock()
	if kept.fault != nil {
		return kept.fault
	}
	kept.commits++
	for _, change := range changes {
		if change.Out {
			delete(kept.parts, change.Key)
		} else {
			kept.parts[change.Key] = change.Value
		}
	}
	return nil
}

func (kept *memory) Lost() <-chan struct{} { return kept.lost }
func (kept *memory) Close() error          { return nil }

// has says whether a volume is there by the store.
func (kept *memory) has(volume uint64) bool {
	kept.mutex.Lock()
	defer kept.mutex.Unlock()
	row := kept.parts[volume]
	return row != nil && rowOf(row).there
}

func (kept *memory) text() string {
	kept.mutex.Lock()
	defer kept.mutex.Unlock()
	return fmt.Sprint(kept.parts, kept.notes)
}

func (kept *memory) count() int {
	kept.mutex.Lock()
	defer kept.mutex.Unlock()
	return kept.commits
}

// beside are its notes.
type beside struct{ *memory }

func (notes beside) Load(context.Context) (map[uint64]string, error) {
	notes.mutex.Lock()
	defer notes.mutex.Unlock()
	paths := map[uint64]string{}
	for volume, path := range notes.notes {
		paths[volume] = path
	}
	return paths, nil
}

func (notes beside) Commit(_ context.Context, changes []store.Note) error {
	notes.mutex.Lock()
	defer notes.mutex.Unlock()
	if errors.Is(notes.fault, store.ErrNotes) {
		return notes.fault
	}
	for _, change := range changes {
		if change.Out {
			delete(notes.notes, change.Volume)
		} else {
			notes.notes[change.Volume] = change.Path
		}
	}
	return nil
}

func opened(notes Notes) func(context.Context) (Notes, error) {
	return func(context.Context) (Notes, error) { return notes, nil }
}

func byMetadata(uint64) (numbers.Source, error) { return numbers.Metadata{}, nil }

func open(t *testing.T, kept *memory, room int, faults *faults) *Core {
	t.Helper()
	core, err := Open(context.Background(), Config{Make: making(room, faults), Store: kept, Notes: opened(beside{kept}), Numbering: byMetadata})
	if err != nil {
		t.Fatal(err)
	}
	t.Cleanup(core.Close)
	return core
}

func numbered(session, call uint64) context.Context {
	number := frames.Number{Session: session, Call: call}
	return metadata.NewIncomingContext(context.Background(), metadata.Pairs(numbers.Key, numbers.Text(number)))
}

func stage(volume uint64) Request {
	return Request{Node: "n1", Body: frames.NodeStageVolume{ID: volume, Capability: frames.Capability{Mode: 1}}, Staging: fmt.Sprint("/s/", volume)}
}

func unstage(volume uint64) Request {
	return Request{Node: "n1", Body: frames.NodeUnstageVolume{ID: volume}, Staging: fmt.Sprint("/s/", volume)}
}

func create(name string) Request {
	return Request{Body: frames.CreateVolume{Name: name, Required: 10, Capabilities: []frames.Capability{{Mode: 1}}}}
}

// wants fails unless a call ends with this status, its own or the reply's.
func wants(t *testing.T, core *Core, ctx context.Context, request Request, want codes.Code) Answer {
	t.Helper()
	answer, err := core.Carry(ctx, request)
	code := status.Code(err)
	if err == nil {
		code = codes.Code(answer.Reply.Status)
	}
	if code != want {
		t.Errorf("%s of %d: %v (%v), not %v", request.Body.Kind(), request.Body.Volume(), code, err, want)
	}
	return answer
}

// A deed is an Act that a test holds up, and has fail.
type deed struct {
	mutex sync.Mutex
	ran   int
	begun chan struct{} // gets one each time that it begins
	goOn  chan error    // what it then ends with; closed: nil
}

func newDeed() *deed { return &deed{begun: make(chan struct{}, 100), goOn: make(chan error)} }

// done is a deed that is done at once.
func done() *deed {
	deed := newDeed()
	close(deed.goOn)
	return deed
}

func (deed *deed) act(ctx context.Context, known Known) (any, error) {
	deed.mutex.Lock()
	deed.ran++
	deed.mutex.Unlock()
	deed.begun <- struct{}{}
	select {
	case err := <-deed.goOn:
		return fmt.Sprint(known.Volume), err
	case <-ctx.Done():
		return nil, ctx.Err()
	}
}

func (deed *deed) times() int {
	deed.mutex.Lock()
	defer deed.mutex.Unlock()
	return deed.ran
}

// by has the request done by a deed.
func (request Request) by(deed *deed) Request {
	request.Act = deed.act
	return request
}
