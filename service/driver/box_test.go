package driver

import (
	"context"
	"encoding/hex"
	"path/filepath"
	"strings"
	"sync"
	"testing"

	"google.golang.org/grpc"
	"google.golang.org/grpc/codes"
	"google.golang.org/grpc/health/grpc_health_v1"
	"google.golang.org/grpc/metadata"
	"google.golang.org/grpc/status"

	"tufayon/service/frames"
	"tufayon/service/hooks"
	"tufayon/service/limiting"
	"tufayon/service/numbers"
	"tufayon/service/serving"
	"tufayon/service/wire"
)

// Rows by docs/RECORDS.md: volume 1 in mode 5, attached to n1 and n2; and volume 1 staged and published at /t, last by call 2.7.
const (
	attached = "03 01 0176 000000000000000a 01 00 05 02 026e31 00 05 00 026e32 00 05 01 0000000000000001 0000000000000004 83 00 0000000000000000 00"
	staged   = "03 01 01 00 05 01 022f74 00 0000000000000002 0000000000000007 87 00 0000000000000000 00"
)

var blockHow = &wire.VolumeCapability{
	AccessType: &wire.VolumeCapability_Block{Block: &wire.VolumeCapability_BlockVolume{}},
	AccessMode: &wire.VolumeCapability_AccessMode{Mode: wire.VolumeCapability_AccessMode_MULTI_NODE_MULTI_WRITER},
}

// core is one that judges, acts and replies OK, unless a reply is given.
type core struct {
	mutex   sync.Mutex
	known   serving.Known
	reply   *frames.Reply
	source  numbers.Source // metadata where there is none
	carried []frames.Body
	opened  numbers.Opening
	refuses error
	done    chan struct{}
}

func (core *core) numbers() numbers.Source {
	if core.source == nil {
		return numbers.Metadata{}
	}
	return core.source
}

func (core *core) Admit(ctx context.Context) error { return core.numbers().Admit(ctx) }
func (core *core) Done() <-chan struct{}           { return core.done }

func (core *core) Begin(_ context.Context, opening numbers.Opening) (frames.Number, error) {
	core.opened = opening
	return frames.Number{Session: 7, Call: 9}, core.refuses
}

func (core *core) Confirm(context.Context, frames.Number) error { return core.refuses }

func (core *core) Known(context.Context, uint64) (serving.Known, error) { return core.known, nil }

func (core *core) Carry(ctx context.Context, request serving.Request) (serving.Answer, error) {
	core.mutex.Lock()
	defer core.mutex.Unlock()
	known := core.known
	known.Volume = request.Body.Volume()
	number, err := core.numbers().Number(ctx, numbers.Of{Kind: request.Body.Kind()})
	if err != nil {
		return serving.Answer{}, err
	}
	known.Number = number
	if err := request.Judge(known); err != nil {
		return serving.Answer{}, err
	}
	core.carried = append(core.carried, request.Body)
	if core.reply != nil {
		return serving.Answer{Reply: *core.reply}, nil
	}
	acted, err := request.Act(ctx, known)
	if err != nil {
		return serving.Answer{}, status.Error(codes.Unavailable, err.Error())
	}
	return serving.Answer{Reply: frames.Reply{Number: number, Kind: request.Body.Kind()}, Row: known.Row, Acted: acted}, nil
}

// told are hooks that keep what they are told, and answer or fail.
type told struct {
	deeds  []hooks.Deed
	answer hooks.Answer
	fault  error
	refuse error
	then   func() // once a deed is told; nil for nothing
}

func (told *told) Judge(hooks.Deed) error { return told.refuse }

func (told *told) Do(_ context.Context, deed hooks.Deed) (hooks.Answer, error) {
	told.deeds = append(told.deeds, deed)
	if told.then != nil {
		told.then()
	}
	return told.answer, told.fault
}

// A box is a server of all services, and a client.
type box struct {
	*testing.T
	core    *core
	told    *told
	backend *Backend
	client  *grpc.ClientConn
}

func newBox(t *testing.T) *box {
	t.Helper()
	box := &box{T: t, core: &core{done: make(chan struct{})}, told: &told{}, backend: NewBackend()}
	server := NewServer(box.backend, limiting.New(), "a test")
	RegisterPlugin(server, box.backend)
	RegisterIdentity(server, box.backend, "a.example", "1.2.3")
	RegisterController(server, box.backend, box.told)
	RegisterNode(server, box.backend, NodeOptions{ID: "n1", Hooks: box.told})
	socket := filepath.Join(t.TempDir(), "d", "s")
	listener, err := Listen(socket)
	if err != nil {
		t.Fatal(err)
	}
	go server.Serve(listener)
	t.Cleanup(server.Stop)
	if box.client, err = grpc.Dial("unix://"+socket, grpc.WithInsecure()); err != nil {
		t.Fatal(err)
	}
	t.Cleanup(func() { box.client.Close() })
	return box
}

func (box *box) row(text string) {
	box.Helper()
	row, err := hex.DecodeString(strings.ReplaceAll(text, " ", ""))
	if err != nil {
		box.Fatal(err)
	}
	box.core.known.Row = row
}

// by is the context of a call of this number.
func by(number string) context.Context {
	return metadata.AppendToOutgoingContext(context.Background(), numbers.Key, number)
}

func (box *box) wants(err error, code codes.Code, text string) {
	box.Helper()
	if status.Code(err) != code || err != nil && status.Convert(err).Message() != text {
		box.Errorf("%v, not %v %q", err, code, text)
	}
}

func (box *box) isReady() (probe bool, health grpc_health_v1.HealthCheckResponse_ServingStatus) {
	box.Helper()
	probed, err := wire.NewIdentityClient(box.client).Probe(context.Background(), &wire.ProbeRequest{})
	if err != nil {
		box.Fatal(err)
	}
	checked, err := grpc_health_v1.NewHealthClient(box.client).Check(context.Background(), &grpc_health_v1.HealthCheckRequest{})
	if err != nil {
		box.Fatal(err)
	}
	return probed.GetReady().GetValue(), checked.GetStatus()
}
