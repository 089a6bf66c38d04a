package upstream_test

import (
	"context"
	"encoding/binary"
	"fmt"
	"reflect"
	"strings"
	"testing"

	"github.com/golang/protobuf/proto"
	"google.golang.org/grpc"
	"google.golang.org/grpc/codes"

	"tufayon/service/carrying/carryingtest"
	"tufayon/service/identities"
	"tufayon/service/store"
	"tufayon/service/upstream"
	"tufayon/service/upstream/upstreamtest"
	"tufayon/service/wire"
)

// The upstream's ids: kept with the record; one for two names, or one that changes, is an error that names both; one that is free again is taken again.
func TestIds(t *testing.T) {
	box, ctx := newBox(t, upstream.Options{}), soon(t)
	ids := map[string]string{"a": "same", "b": "same", "c": "c"}
	box.behind.ID = func(name string) string { return ids[name] }
	box.start()
	if id := box.made(ctx, "a"); id != "same" {
		t.Errorf("its id is %q", id)
	}
	_, err := box.ask(ctx, createCall, creates("b"))
	box.wants(err, codes.Internal, `the upstream: it has one id, "same", for "a" and for "b"`)
	box.made(ctx, "c")
	box.restart()
	box.does(ctx, attachCall, attaches("same", "n1", writer))
	box.does(ctx, attachCall, attaches("c", "n1", writer))
	box.behind.Has("other", "")
	box.does(ctx, detachCall, detaches("c", "n1"))
	delete(ids, "c")
	ids["c"] = "other"
	box.behind.Forget("c")
	_, err = box.ask(ctx, createCall, creates("c"))
	box.wants(err, codes.Internal, `the upstream: the id of "c" was "c", and is "other"`)
	box.does(ctx, detachCall, detaches("same", "n1"))
	box.does(ctx, deleteCall, deletes("same"))
	if id := box.made(ctx, "b"); id != "same" {
		t.Errorf("its id is %q", id)
	}
	box.does(ctx, attachCall, attaches("same", "n2", writer))
	box.attached("same", "n2")
	ids["d"] = ""
	_, err = box.ask(ctx, createCall, creates("d"))
	box.wants(err, codes.Internal, `the upstream: it gave "d" an id of 0 bytes`)
}

// With numbers a late attachment of a volume that was deleted doesn't have it taken up anew.
func TestAdoptLate(t *testing.T) {
	box, ctx := newBox(t, upstream.Options{Adopt: true}), soon(t)
	box.metadata = true
	box.start()
	id := box.made(numbered(ctx, "1.2"), "v")
	box.does(numbered(ctx, "1.6"), detachCall, detaches(id, "n1"))
	box.does(numbered(ctx, "1.8"), deleteCall, deletes(id))
	box.refuses(numbered(ctx, "1.4"), codes.Aborted, "stale", attachCall, attaches(id, "n1", writer))
	box.refuses(numbered(ctx, "1.10"), codes.NotFound, "volume", attachCall, attaches(id, "n1", writer))
	box.attached(id)
}

// Volumes that were there before are taken up by their first attachment, where that is asked for; what undoes something of them passes in any case.
func TestAdopt(t *testing.T) {
	ctx := soon(t)
	plain := newBox(t, upstream.Options{}).start()
	plain.behind.Has("old", "old")
	plain.refuses(ctx, codes.NotFound, "volume", attachCall, attaches("old", "n1", writer))
	plain.does(ctx, detachCall, detaches("old", "n1"))
	plain.does(ctx, deleteCall, deletes("old"))
	for _, isNumbered := range []bool{false, true} {
		box, count := newBox(t, upstream.Options{Adopt: true}), 0
		box.metadata = isNumbered
		next := func() context.Context {
			if count += 2; isNumbered {
				return numbered(ctx, fmt.Sprint("1.", count))
			}
			return ctx
		}
		long := strings.Repeat("l", 200)
		for _, id := range []string{"old", long} {
			box.behind.Has(id, "")
		}
		box.start()
		for _, id := range []string{"old", long} {
			box.does(next(), attachCall, attaches(id, "n1", writer))
			box.refuses(next(), codes.FailedPrecondition, "n1", attachCall, attaches(id, "n2", writer))
			box.refuses(next(), codes.InvalidArgument, "capability", attachCall, attaches(id, "n2", writers))
			box.restart()
			box.refuses(next(), codes.FailedPrecondition, "n1", attachCall, attaches(id, "n2", writer))
			box.does(next(), detachCall, detaches(id, "n1"))
			box.does(next(), attachCall, attaches(id, "n2", writer))
			box.attached(id, "n2")
			box.does(next(), detachCall, detaches(id, "n2"))
			box.does(next(), deleteCall, deletes(id))
		}
	}
}

// Where no node is named a volume is detached from all, by arrival.
func TestAllNodes(t *testing.T) {
	box, ctx := newBox(t, upstream.Options{}).start(), soon(t)
	id := box.made(ctx, "v", writers, writer)
	for at := 1; at <= 3; at++ {
		box.does(ctx, attachCall, attaches(id, fmt.Sprint("n", at), writers))
	}
	box.does(ctx, detachCall, detaches(id, ""))
	box.attached(id)
	box.does(ctx, attachCall, attaches(id, "n4", writer))
	if told := box.behind.Told(detachCall); len(told) != 1 {
		t.Errorf("the upstream was told %d times", len(told))
	}
	box.does(ctx, detachCall, detaches(id, ""))
	box.does(ctx, detachCall, detaches(id, ""))
	box.attached(id)
}

// What the ledger has no room for is mapped, and the upstream gets it as it came; two that differ stay two.
func TestFits(t *testing.T) {
	box, ctx := newBox(t, upstream.Options{}).start(), soon(t)
	made := 0
	box.behind.ID = func(string) string { made++; return fmt.Sprint("id ", made) }
	long := strings.Repeat("x", 4096)
	for _, name := range []string{long, long[1:] + "y", "sha256:abc", "adopted:abc", "a\x00b"} {
		request := creates(name)
		request.CapacityRange = nil
		box.does(ctx, createCall, request)
		request.CapacityRange = &wire.CapacityRange{}
		box.does(ctx, createCall, request)
	}
	if found := len(box.behind.Attached()); found != 5 {
		t.Errorf("there are %d volumes", found)
	}
	many := creates("many")
	for at := 0; at < 9; at++ {
		it := in(writer)
		it.GetMount().MountFlags = []string{fmt.Sprint(at)}
		many.VolumeCapabilities = append(many.VolumeCapabilities, it)
	}
	box.does(ctx, createCall, many) // to the ledger they are one
	for at := 0; at < 8; at++ {
		it := in(writer)
		it.GetMount().FsType = fmt.Sprint("fs", at)
		many.VolumeCapabilities = append(many.VolumeCapabilities, it)
	}
	box.refuses(ctx, codes.InvalidArgument, "volume_capabilities", createCall, many)
	odd := in(writer)
	odd.GetMount().FsType = strings.Repeat("f", 129)
	request := creates("odd")
	request.VolumeCapabilities = []*wire.VolumeCapability{odd}
	box.does(ctx, createCall, request)
	publish := attaches(fmt.Sprint("id ", made), long, writer)
	publish.VolumeCapability = odd
	box.does(ctx, attachCall, publish)
}

// What is refused, since the ledger has no room for it, or CSI none.
func TestNoRoom(t *testing.T) {
	box, ctx := newBox(t, upstream.Options{}).start(), soon(t)
	long := strings.Repeat("x", 4096)
	for _, it := range []struct {
		text, method string
		message      proto.Message
	}{
		{"name", createCall, creates(long + "x")}, {"name", createCall, creates("")},
		{"capacity", createCall, &wire.CreateVolumeRequest{Name: "c", CapacityRange: &wire.CapacityRange{RequiredBytes: -1}}},
		{"capabilities", createCall, &wire.CreateVolumeRequest{Name: "c"}},
		{"access_type", createCall, &wire.CreateVolumeRequest{Name: "c", VolumeCapabilities: []*wire.VolumeCapability{{}}}},
		{"access_mode", createCall, creates("c", 8)}, {"access_mode", createCall, creates("c", 0)},
		{"volume_id", deleteCall, deletes("")}, {"volume_id", deleteCall, deletes(long + "x")},
		{"node_id", attachCall, attaches("v", "", writer)}, {"node_id", attachCall, attaches("v", long+"x", writer)},
		{"volume_capability", attachCall, &wire.ControllerPublishVolumeRequest{VolumeId: "v", NodeId: "n1"}},
		{"volume_id", detachCall, detaches("", "n1")}, {"node_id", detachCall, detaches("v", long+"x")},
	} {
		box.refuses(ctx, codes.InvalidArgument, it.text, it.method, it.message)
	}
}

// Nodes are added when they are first named; an idle one gives way where there are 64, and where none is idle the call is refused.
func TestNodes(t *testing.T) {
	box, ctx := newBox(t, upstream.Options{}), soon(t)
	box.config = `{"greatest":1099511627776,"nodes":[{"id":"fixed","slots":1}]}`
	box.start()
	id := box.made(ctx, "v")
	for at := 0; at < 70; at++ {
		node := fmt.Sprint("n<", at)
		box.does(ctx, attachCall, attaches(id, node, writer))
		box.does(ctx, detachCall, detaches(id, node))
	}
	var others []string
	for at := 0; at < 63; at++ {
		others = append(others, box.made(ctx, fmt.Sprint("w", at)))
		box.does(ctx, attachCall, attaches(others[at], fmt.Sprint("m", at), writer))
	}
	box.refuses(ctx, codes.ResourceExhausted, "nodes", attachCall, attaches(id, "one more", writer))
	box.restart() // what is attached counts then too
	box.refuses(ctx, codes.ResourceExhausted, "nodes", attachCall, attaches(id, "one more", writer))
	box.does(ctx, attachCall, attaches(box.made(ctx, "y"), "m1", writer))
	box.does(ctx, detachCall, detaches(others[0], "m0"))
	box.does(ctx, attachCall, attaches(id, "one more", writer))
	box.refuses(ctx, codes.ResourceExhausted, "nodes", attachCall, attaches(others[0], "m0", writer))
	box.does(ctx, detachCall, detaches(id, "one more"))
	box.does(ctx, attachCall, attaches(id, "fixed", writer))
	box.refuses(ctx, codes.ResourceExhausted, "slots", attachCall, attaches(box.made(ctx, "x"), "fixed", writer))
}

// What is attached to a node that is gone for good may be attached elsewhere, and nothing more is attached to that node.
func TestLost(t *testing.T) {
	box, ctx := newBox(t, upstream.Options{}).start(), soon(t)
	first, second, other := box.made(ctx, "a"), box.made(ctx, "b"), box.made(ctx, "c")
	box.does(ctx, attachCall, attaches(first, "n1", writer))
	box.does(ctx, attachCall, attaches(second, "n1", writer))
	box.does(ctx, attachCall, attaches(other, "n2", writer))
	box.end()
	box.options.Lost = []string{"n1", "never named"}
	box.start()
	if told := box.behind.Told(detachCall); len(told) > 0 {
		t.Errorf("the upstream was told of it: %+v", told)
	}
	box.refuses(ctx, codes.FailedPrecondition, "lost: n1", attachCall, attaches(first, "n1", writer))
	box.refuses(ctx, codes.FailedPrecondition, "n2", attachCall, attaches(other, "n3", writer))
	box.does(ctx, detachCall, detaches(first, "n1")) // as the platform says, once it knows
	box.does(ctx, attachCall, attaches(first, "n3", writer))
	box.attached(first, "n3")
}

// What the upstream can't tell the ledger does: the nodes at which its volumes are attached.
func TestListing(t *testing.T) {
	for _, it := range []struct{ lists, hasNodes bool }{{false, false}, {true, false}, {true, true}} {
		box, ctx := newBox(t, upstream.Options{}), soon(t)
		box.behind.Lists, box.behind.HasNodes = it.lists, it.hasNodes
		box.start()
		told, err := wire.NewControllerClient(box.client).ControllerGetCapabilities(ctx, &wire.ControllerGetCapabilitiesRequest{})
		if err != nil || len(told.GetCapabilities()) != 5 {
			t.Errorf("the capabilities are %v, %v", told, err)
		}
		want := map[string][]string{box.made(ctx, "v0"): nil}
		for at := 1; at < 3; at++ {
			id, node := box.made(ctx, fmt.Sprint("v", at)), strings.Repeat(fmt.Sprint("n", at), 200)
			want[id] = []string{node}
			box.does(ctx, attachCall, attaches(id, node, writer))
		}
		found := box.listed(ctx)
		if it.hasNodes {
			continue // it is the upstream's own
		}
		if !reflect.DeepEqual(found, want) {
			t.Errorf("%+v: listed are %v, not %v", it, found, want)
		}
		for id, nodes := range want {
			var got wire.ControllerGetVolumeResponse
			response, err := box.ask(ctx, "/csi.v1.Controller/ControllerGetVolume", &wire.ControllerGetVolumeRequest{VolumeId: id})
			if err != nil || proto.Unmarshal(response.Message, &got) != nil || !reflect.DeepEqual(got.GetStatus().GetPublishedNodeIds(), nodes) {
				t.Errorf("%+v: %s is %v, %v", it, id, got, err)
			}
		}
		_, err = box.ask(ctx, "/csi.v1.Controller/ControllerGetVolume", &wire.ControllerGetVolumeRequest{VolumeId: "x"})
		box.wants(err, codes.NotFound, "volume")
		for _, id := range []string{"", strings.Repeat("x", 4097)} {
			_, err = box.ask(ctx, "/csi.v1.Controller/ControllerGetVolume", &wire.ControllerGetVolumeRequest{VolumeId: id})
			box.wants(err, codes.InvalidArgument, "volume_id")
		}
		if !it.lists {
			_, err = box.ask(ctx, "/csi.v1.Controller/ListVolumes", &wire.ListVolumesRequest{StartingToken: "x"})
			box.wants(err, codes.Aborted, "starting_token")
		}
	}
}

// listed are the volumes with their nodes, page by page.
func (box *box) listed(ctx context.Context) map[string][]string {
	box.Helper()
	found, token := map[string][]string{}, ""
	for pages := 0; pages < 5; pages++ {
		var listed wire.ListVolumesResponse
		response, err := box.ask(ctx, "/csi.v1.Controller/ListVolumes", &wire.ListVolumesRequest{MaxEntries: 2, StartingToken: token})
		if err == nil {
			err = proto.Unmarshal(response.Message, &listed)
		}
		if err != nil {
			box.Fatal(err)
		}
		for _, it := range listed.GetEntries() {
			found[it.GetVolume().GetVolumeId()] = it.GetStatus().GetPublishedNodeIds()
			if box.behind.Lists && it.GetVolume().GetCapacityBytes() != 7 {
				box.Errorf("the upstream's entry is %v", it)
			}
		}
		if token = listed.GetNextToken(); token == "" {
			break
		}
	}
	return found
}

// Any other call passes unread, also one of a service that nobody here knows; what isn't ready says so by itself.
func TestOthers(t *testing.T) {
	box, ctx := newBox(t, upstream.Options{}).start(), soon(t)
	for _, method := range []string{
		"/csi.v1.Controller/ControllerExpandVolume", "/csi.v1.Controller/CreateSnapshot", "/csi.v1.GroupController/CreateVolumeGroupSnapshot",
		"/csi.v1.Node/NodeGetVolumeStats", "/grpc.health.v1.Health/Check", "/csi.v1.Identity/Probe", "/csi.v1.Identity/GetPluginInfo", "/any.Service/Any",
		"/csi.v1.Controller/ValidateVolumeCapabilities",
	} {
		box.does(ctx, method, creates("anything"))
	}
}

// The upstream's socket is reached without the proxy that the environment has.
func TestProxy(t *testing.T) {
	if carryingtest.HasProxy(t) {
		newBox(t, upstream.Options{}).start().does(soon(t), "/csi.v1.Identity/Probe", creates("anything"))
	}
}

// A list of the ledger's comes in pages that clients take, however long the ids are, each volume once.
func TestLongList(t *testing.T) {
	box, ctx := newBox(t, upstream.Options{}), soon(t)
	var ids []store.Text
	for volume := uint64(2); volume <= 1200; volume++ {
		ids = append(ids, identities.Put(volume, fmt.Sprint(volume, strings.Repeat("x", 4000))))
	}
	full(t, box.folder+"/ledger.db", ids...)
	box.start()
	found, request, usual := map[string]bool{}, &wire.ListVolumesRequest{}, grpc.MaxCallRecvMsgSize(4<<20)
	for {
		var listed wire.ListVolumesResponse
		_, response, err := upstreamtest.Call(ctx, box.client, "/csi.v1.Controller/ListVolumes", request, "", usual)
		if err == nil {
			err = proto.Unmarshal(response.Message, &listed)
		}
		if err != nil {
			t.Fatal(err)
		}
		for _, it := range listed.GetEntries() {
			found[it.GetVolume().GetVolumeId()] = true
		}
		if request.StartingToken = listed.GetNextToken(); request.StartingToken == "" {
			break
		}
	}
	if len(found) != 1200 {
		t.Errorf("there are %d volumes", len(found))
	}
}

// full is a ledger of 4,096 volumes, by docs/RECORDS.md: each made by call N of session 1, in mount ext4 and mode 1. Of the first there is an id, and of
// others these.
func full(t *testing.T, path string, ids ...store.Text) {
	t.Helper()
	kept, err := store.OpenKeeper(context.Background(), path)
	if err != nil {
		t.Fatal(err)
	}
	number := func(value []byte, it uint64) []byte { return binary.BigEndian.AppendUint64(value, it) }
	changes := []store.Change{{Key: 0, Value: number(number([]byte{3, 0}, 4097), 1)}}
	for id := uint64(1); id <= 4096; id++ {
		name := fmt.Sprint("v", id)
		row := append([]byte{3, 1, byte(len(name))}, name...)
		row = append(number(row, 10), "\x01\x01\x04ext4\x01\x00"...)
		row = append(number(number(row, 1), id), 0x81, 0)
		changes = append(changes, store.Change{Key: id, Value: append(number(row, id), 0)})
	}
	if err := kept.CommitBoth(context.Background(), changes, append(ids, identities.Mark(), identities.Put(1, "kept")), nil); err != nil {
		t.Fatal(err)
	}
	kept.Close()
}

// Where the ledger is full of volumes of which the upstream never gave an id, these are given up, by arrival; those that it has stay.
func TestUnmade(t *testing.T) {
	box, ctx := newBox(t, upstream.Options{}), soon(t)
	full(t, box.folder+"/ledger.db")
	box.behind.Has("kept", "v1")
	box.start()
	box.does(ctx, attachCall, attaches("kept", "n1", writer))
	box.made(ctx, "one more")
	box.made(ctx, "v4096")
	box.refuses(ctx, codes.FailedPrecondition, "n1", attachCall, attaches("kept", "n2", writer))
}
