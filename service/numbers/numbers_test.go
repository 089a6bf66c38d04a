package numbers

import (
	"context"
	"errors"
	"math"
	"testing"

	"google.golang.org/grpc/codes"
	"google.golang.org/grpc/metadata"
	"google.golang.org/grpc/status"

	"tufayon/service/frames"
)

// By arrival each number is above the one before, and a session begins where a row is wanted and one may be kept of a volume that is gone.
func TestArrival(t *testing.T) {
	const (
		create, remove, attach, detach     = frames.CreateVolumeKind, frames.DeleteVolumeKind, frames.ControllerPublishVolumeKind, frames.ControllerUnpublishVolumeKind
		stage, unstage, publish, unpublish = frames.NodeStageVolumeKind, frames.NodeUnstageVolumeKind, frames.NodePublishVolumeKind, frames.NodeUnpublishVolumeKind
	)
	for name, calls := range map[string][]struct {
		kind   frames.Kind
		hasRow bool
		begins bool
	}{
		"creates alone":          {{create, false, false}, {create, false, false}, {attach, true, false}, {detach, true, false}, {create, false, false}},
		"a create after deletes": {{create, false, false}, {remove, true, false}, {remove, true, false}, {create, false, true}, {create, false, false}},
		"other volumes' calls":   {{remove, true, false}, {attach, true, false}, {detach, true, false}, {create, false, true}},
		"stages alone":           {{stage, false, false}, {stage, false, false}, {stage, true, false}, {publish, true, false}, {unpublish, true, false}},
		"a stage after unstages": {{stage, false, false}, {unstage, true, false}, {unstage, true, false}, {stage, true, false}, {stage, false, true}},
		"unknown ids":            {{unstage, false, false}, {unstage, false, true}, {publish, false, true}, {unpublish, false, true}, {stage, false, true}, {stage, false, false}},
	} {
		source, err := NewArrival(6)
		if err != nil {
			t.Fatal(err)
		}
		last := frames.Number{Session: 7}
		for at, call := range calls {
			number, err := source.Number(context.Background(), Of{Kind: call.kind, HasRow: call.hasRow})
			if err != nil || !last.IsBefore(number) || number.Session != last.Session && number.Call != 1 {
				t.Fatalf("%s: call %d has %+v after %+v, %v", name, at, number, last, err)
			}
			if begins := number.Session != last.Session; begins != call.begins {
				t.Errorf("%s: a session begins at call %d: %v", name, at, begins)
			}
			last = number
		}
	}
}

// In the last session all goes on until another one has to begin.
func TestSpent(t *testing.T) {
	if _, err := NewArrival(math.MaxUint64); !errors.Is(err, ErrSpent) {
		t.Errorf("after the last session: %v", err)
	}
	source, err := NewArrival(math.MaxUint64 - 1)
	if err != nil {
		t.Fatal(err)
	}
	for at, want := range []codes.Code{codes.OK, codes.OK, codes.ResourceExhausted, codes.ResourceExhausted} {
		kind := []frames.Kind{frames.CreateVolumeKind, frames.DeleteVolumeKind, frames.CreateVolumeKind, frames.CreateVolumeKind}[at]
		if _, err := source.Number(context.Background(), Of{Kind: kind, HasRow: at == 1}); status.Code(err) != want {
			t.Errorf("call %d: %v", at, err)
		}
	}
}

// By metadata a session may be so far above the latest one, and no further.
func TestMetadata(t *testing.T) {
	for _, it := range []struct {
		most, latest uint64
		number       string
		want         codes.Code
	}{
		{10, 5, "15.1", codes.OK},
		{10, 5, "16.1", codes.FailedPrecondition},
		{0, 5, "16.1", codes.OK},
		{10, math.MaxUint64, "1.1", codes.OK},
		{10, 5, "1", codes.FailedPrecondition},
	} {
		ctx := metadata.NewIncomingContext(context.Background(), metadata.Pairs(Key, it.number))
		_, err := Metadata{MostAbove: it.most}.Number(ctx, Of{Kind: frames.CreateVolumeKind, Latest: it.latest})
		if status.Code(err) != it.want {
			t.Errorf("%+v: %v", it, err)
		}
	}
}
