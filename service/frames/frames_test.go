package frames

import (
	"encoding/hex"
	"errors"
	"reflect"
	"strings"
	"testing"
)

func bytesOf(t *testing.T, text string) []byte {
	t.Helper()
	frame, err := hex.DecodeString(strings.ReplaceAll(text, " ", ""))
	if err != nil {
		t.Fatal(err)
	}
	return frame
}

var block = Capability{Mode: 1}

// The frames that docs/FRAMES.md spells out, and one of each other kind, by its table.
var calls = []struct {
	call  Call
	frame string
}{
	{Call{Number{1, 2}, "", DeleteVolume{1}}, "0000001b 01 02 0000000000000001 0000000000000002 00 0000000000000001"},
	{Call{Number{1, 1}, "", CreateVolume{"v", 10, 0, []Capability{block}}},
		"00000028 01 01 0000000000000001 0000000000000001 00 0176 000000000000000a 0000000000000000 01 00 01"},
	{Call{Number{1, 1}, "", CreateVolume{"v", 10, 0, []Capability{{Mode: 6}}}},
		"00000028 02 01 0000000000000001 0000000000000001 00 0176 000000000000000a 0000000000000000 01 00 06"},
	{Call{Number{1, 3}, "", ControllerPublishVolume{1, "n1", Capability{true, "ext4", 5}, true}},
		"00000026 01 03 0000000000000001 0000000000000003 00 0000000000000001 026e31 01 0465787434 05 01"},
	{Call{Number{1, 4}, "", ControllerUnpublishVolume{1, "n1"}}, "0000001e 01 04 0000000000000001 0000000000000004 00 0000000000000001 026e31"},
	{Call{Number{1, 5}, "n1", NodeStageVolume{1, block}}, "00000020 01 05 0000000000000001 0000000000000005 01 026e31 0000000000000001 00 01"},
	{Call{Number{1, 6}, "n1", NodeUnstageVolume{1}}, "0000001e 01 06 0000000000000001 0000000000000006 01 026e31 0000000000000001"},
	{Call{Number{1, 7}, "n1", NodePublishVolume{1, "/a", Capability{true, "", 7}, false}},
		"00000025 02 07 0000000000000001 0000000000000007 01 026e31 0000000000000001 022f61 01 00 07 00"},
	{Call{Number{1, 8}, "n1", NodeUnpublishVolume{1, "/a"}}, "00000021 01 08 0000000000000001 0000000000000008 01 026e31 0000000000000001 022f61"},
}

func TestCalls(t *testing.T) {
	for _, it := range calls {
		want := bytesOf(t, it.frame)
		if frame, err := it.call.Encode(); err != nil || !reflect.DeepEqual(frame, want) {
			t.Errorf("%+v: %x, %v, not %x", it.call, frame, err, want)
		}
		if call, err := DecodeCall(want); err != nil || !reflect.DeepEqual(call, it.call) {
			t.Errorf("%x: %+v, %v, not %+v", want, call, err, it.call)
		}
		for cut := range want {
			if _, err := DecodeCall(want[:cut]); !errors.Is(err, ErrFrame) {
				t.Errorf("the first %d bytes of %x: %v", cut, want, err)
			}
		}
	}
}

func TestReplies(t *testing.T) {
	for _, it := range []struct {
		reply Reply
		frame string
	}{
		{Reply{Number: Number{1, 2}, Kind: DeleteVolumeKind}, "0000001d 01 82 0000000000000001 0000000000000002 00 00 0000000000000000 00"},
		{Reply{Number: Number{1, 1}, Kind: CreateVolumeKind, Volume: 1}, "0000001d 01 81 0000000000000001 0000000000000001 00 00 0000000000000001 00"},
		{Reply{Number{2, 1}, "n1", NodeStageVolumeKind, 10, 0, "stale"},
			"00000025 01 85 0000000000000002 0000000000000001 01 026e31 0a 0000000000000000 05 7374616c65"},
	} {
		want := bytesOf(t, it.frame)
		if frame, err := it.reply.Encode(); err != nil || !reflect.DeepEqual(frame, want) {
			t.Errorf("%+v: %x, %v, not %x", it.reply, frame, err, want)
		}
		if reply, err := DecodeReply(want); err != nil || reply != it.reply {
			t.Errorf("%x: %+v, %v, not %+v", want, reply, err, it.reply)
		}
		if _, err := DecodeCall(want); !errors.Is(err, ErrFrame) {
			t.Errorf("%x as a call: %v", want, err)
		}
	}
}

// What is outside a frame's limits is written by none.
func TestLimits(t *testing.T) {
	long := strings.Repeat("x", 256)
	for _, body := range []Body{
		DeleteVolume{0},
		CreateVolume{"", 10, 0, nil},
		CreateVolume{long[:129], 10, 0, nil},
		CreateVolume{"\xff", 10, 0, nil},
		CreateVolume{"v", 10, 0, make([]Capability, 9)},
		CreateVolume{"v", 10, 0, []Capability{{Mode: 8}}},
		ControllerPublishVolume{1, long, block, false},
		ControllerPublishVolume{1, "n1", Capability{true, long[:129], 1}, false},
		NodePublishVolume{1, "", block, false},
	} {
		if frame, err := (Call{Number{1, 1}, "n1", body}).Encode(); !errors.Is(err, ErrLimit) {
			t.Errorf("%+v: %x, %v", body, frame, err)
		}
	}
	for _, reply := range []Reply{
		{Kind: CreateVolumeKind},
		{Kind: DeleteVolumeKind, Volume: 1},
		{Kind: DeleteVolumeKind, Status: 17},
		{Kind: DeleteVolumeKind, Status: 3, Detail: long},
	} {
		if frame, err := reply.Encode(); !errors.Is(err, ErrLimit) {
			t.Errorf("%+v: %x, %v", reply, frame, err)
		}
	}
}
