package driver

import (
	"context"
	"errors"
	"strings"
	"testing"

	"google.golang.org/grpc/codes"
	"google.golang.org/grpc/status"

	"tufayon/service/frames"
	"tufayon/service/hooks"
	"tufayon/service/numbers"
	"tufayon/service/serving"
	"tufayon/service/wire"
)

// Where no node is named, a volume is detached from all by arrival; by metadata one number is one call.
func TestFromAll(t *testing.T) {
	arrival, err := numbers.NewArrival(1)
	if err != nil {
		t.Fatal(err)
	}
	for _, it := range []struct {
		source numbers.Source
		ctx    context.Context
		code   codes.Code
		nodes  string
	}{{numbers.Metadata{}, by("1.1"), codes.InvalidArgument, ""}, {arrival, context.Background(), codes.OK, "n1v n2v"}} {
		box := newBox(t)
		box.core.source = it.source
		box.backend.Serve(box.core)
		box.row(attached)
		_, err := wire.NewControllerClient(box.client).ControllerUnpublishVolume(it.ctx, &wire.ControllerUnpublishVolumeRequest{
			VolumeId: "1", Secrets: map[string]string{"k": "v"},
		})
		if status.Code(err) != it.code {
			t.Errorf("%T: %v", it.source, err)
		}
		var nodes []string
		for _, deed := range box.told.deeds {
			nodes = append(nodes, deed.Node+deed.Private.Secrets["k"])
		}
		if came := strings.Join(nodes, " "); came != it.nodes {
			t.Errorf("%T: detached from %s", it.source, came)
		}
	}
}

// What was attached while one detach waited is detached too.
func TestFromAllAgain(t *testing.T) {
	arrival, err := numbers.NewArrival(1)
	if err != nil {
		t.Fatal(err)
	}
	box := newBox(t)
	box.core.source = arrival
	box.backend.Serve(box.core)
	box.row(attached)
	box.told.then = func() {
		box.row(strings.Replace(attached, "02 026e31", "03 026e33 00 05 00 026e31", 1))
	}
	if _, err := wire.NewControllerClient(box.client).ControllerUnpublishVolume(
		context.Background(), &wire.ControllerUnpublishVolumeRequest{VolumeId: "1"},
	); err != nil {
		t.Error(err)
	}
	var nodes []string
	for _, deed := range box.told.deeds {
		nodes = append(nodes, deed.Node)
	}
	if came := strings.Join(nodes, " "); came != "n1 n2 n3" {
		t.Errorf("detached from %s", came)
	}
}

// What is published at one path by two spellings of it stays until the last of them is undone.
func TestSpellings(t *testing.T) {
	for _, it := range []struct {
		targets string
		deeds   int
	}{{"02 022f74 00 032f742f 00", 0}, {"02 022f74 00 032f7475 00", 1}, {"01 022f74 00", 1}} {
		box := newBox(t)
		box.backend.Serve(box.core)
		box.row(strings.Replace(staged, "01 022f74 00", it.targets, 1))
		_, err := wire.NewNodeClient(box.client).NodeUnpublishVolume(by("3.1"), &wire.NodeUnpublishVolumeRequest{VolumeId: "1", TargetPath: "/t"})
		if err != nil || len(box.told.deeds) != it.deeds {
			t.Errorf("of %s: %v, %+v", it.targets, err, box.told.deeds)
		}
	}
}

// Where nothing is to be done, nothing is asked to be.
func TestNothingToDo(t *testing.T) {
	request := asking(nil, frames.DeleteVolume{ID: 1}, hooks.Deed{Call: "DeleteVolume"}, always)
	if request.Act != nil || request.Judge(serving.Known{}) != nil {
		t.Errorf("%+v", request)
	}
}

// What is undone is only what the ledger has; what is done is done in any case.
func TestLedgerOnly(t *testing.T) {
	box := newBox(t)
	box.backend.Serve(box.core)
	controller, node := wire.NewControllerClient(box.client), wire.NewNodeClient(box.client)
	sent := map[string]uint64{"NodeUnpublishVolume": 1, "NodeUnstageVolume": 2, "ControllerUnpublishVolume": 3, "DeleteVolume": 4}
	undo := func(target, node1 string) (calls string) {
		t.Helper()
		box.told.deeds = nil
		for _, call := range []func() error{
			func() error {
				_, err := node.NodeUnpublishVolume(by("3.1"), &wire.NodeUnpublishVolumeRequest{VolumeId: "1", TargetPath: target})
				return err
			},
			func() error {
				_, err := node.NodeUnstageVolume(by("3.2"), &wire.NodeUnstageVolumeRequest{VolumeId: "1", StagingTargetPath: "/s"})
				return err
			},
			func() error {
				_, err := controller.ControllerUnpublishVolume(by("3.3"), &wire.ControllerUnpublishVolumeRequest{VolumeId: "1", NodeId: node1})
				return err
			},
			func() error {
				_, err := controller.DeleteVolume(by("3.4"), &wire.DeleteVolumeRequest{VolumeId: "1"})
				return err
			},
		} {
			_ = call() // fails where the row is of the other plugin
		}
		for _, deed := range box.told.deeds {
			calls += deed.Call + deed.Target + deed.Node + deed.Staging + " "
			if deed.Number != (frames.Number{Session: 3, Call: sent[deed.Call]}) {
				t.Errorf("%s has the number %v", deed.Call, deed.Number)
			}
		}
		return calls
	}
	if calls := undo("/t", "n1"); calls != "" {
		t.Errorf("without a row: %s", calls)
	}
	box.core.known.Staging = "/s"
	box.row(staged)
	if calls := undo("/t", "n1"); !strings.HasPrefix(calls, "NodeUnpublishVolume/t/s NodeUnstageVolume/s ") {
		t.Errorf("of a node's row: %s", calls)
	}
	if calls := undo("/u", "n1"); !strings.HasPrefix(calls, "NodeUnstageVolume/s ") {
		t.Errorf("of another target: %s", calls)
	}
	box.row("03 00 00 0000000000000002 0000000000000008 86 00 0000000000000000 00")
	if calls := undo("/t", "n1"); strings.Contains(calls, "Node") {
		t.Errorf("of what isn't staged: %s", calls)
	}
	box.row(attached)
	if calls := undo("/t", "n2"); !strings.HasSuffix(calls, "ControllerUnpublishVolumen2/s DeleteVolume/s ") {
		t.Errorf("of a controller's row: %s", calls)
	}
	if calls := undo("/t", "n3"); strings.Contains(calls, "ControllerUnpublish") {
		t.Errorf("of another node: %s", calls)
	}
}

// By arrival the plugin isn't asked to undo what a volume without a row has; by metadata it keeps each call.
func TestUnknown(t *testing.T) {
	arrival, err := numbers.NewArrival(1)
	if err != nil {
		t.Fatal(err)
	}
	for _, it := range []struct {
		source numbers.Source
		ctx    context.Context
		row    string
		want   int
	}{{arrival, context.Background(), "", 0}, {arrival, context.Background(), staged, 2}, {numbers.Metadata{}, by("3.1"), "", 2}} {
		box := newBox(t)
		box.core.source = it.source
		box.backend.Serve(box.core)
		if it.row != "" {
			box.row(it.row)
		}
		node := wire.NewNodeClient(box.client)
		_, err := node.NodeUnpublishVolume(it.ctx, &wire.NodeUnpublishVolumeRequest{VolumeId: "1", TargetPath: "/t"})
		box.wants(err, codes.OK, "")
		_, err = node.NodeUnstageVolume(it.ctx, &wire.NodeUnstageVolumeRequest{VolumeId: "1", StagingTargetPath: "/s"})
		box.wants(err, codes.OK, "")
		if len(box.core.carried) != it.want {
			t.Errorf("%T, row %q: %d calls are carried", it.source, it.row, len(box.core.carried))
		}
	}
}

// A late call gets to the plugin, which refuses it by its number, whatever its path; another one is refused for its path, or by its hooks.
func TestLate(t *testing.T) {
	box := newBox(t)
	box.backend.Serve(box.core)
	box.row(staged) // by 2.7
	box.core.known.Session, box.core.known.Staging = 3, "/s"
	node := wire.NewNodeClient(box.client)
	stage := func(number, path string) error {
		_, err := node.NodeStageVolume(by(number), &wire.NodeStageVolumeRequest{VolumeId: "1", StagingTargetPath: path, VolumeCapability: blockHow})
		return err
	}
	box.wants(stage("3.1", "/s"), codes.OK, "")
	box.wants(stage("3.1", "/o"), codes.FailedPrecondition, "staged otherwise")
	box.told.refuse = hooks.ErrBlock
	box.wants(stage("3.1", "/s"), codes.FailedPrecondition, "no device")
	box.told.refuse = hooks.ErrFlags
	box.wants(stage("3.1", "/s"), codes.InvalidArgument, "mount_flags")
	box.core.reply = &frames.Reply{Kind: frames.NodeStageVolumeKind, Status: 10, Detail: "stale"}
	for _, number := range []string{"2.6", "2.9", "1.1"} {
		box.wants(stage(number, "/o"), codes.Aborted, "stale")
	}
	box.core.known.Session = 2
	box.wants(stage("2.6", "/o"), codes.Aborted, "stale")
	box.core.reply = nil
	box.wants(stage("2.7", "/o"), codes.FailedPrecondition, "staged otherwise") // a duplicate would act there
}

// Hooks are told what is private, and their answers go into the responses; a failure tells none of it.
func TestPrivate(t *testing.T) {
	box := newBox(t)
	box.backend.Serve(box.core)
	box.row(attached)
	controller, node := wire.NewControllerClient(box.client), wire.NewNodeClient(box.client)
	secrets, context1, context2 := map[string]string{"key": "s3cret"}, map[string]string{"v": "1"}, map[string]string{"p": "2"}
	how := &wire.VolumeCapability{
		AccessType: &wire.VolumeCapability_Mount{Mount: &wire.VolumeCapability_MountVolume{FsType: "ext4", MountFlags: []string{"noatime"}}},
		AccessMode: blockHow.AccessMode,
	}
	box.told.answer = hooks.Answer{VolumeContext: context1, PublishContext: context2}
	created, err := controller.CreateVolume(by("1.1"), &wire.CreateVolumeRequest{
		Name: "v", VolumeCapabilities: []*wire.VolumeCapability{how}, Parameters: map[string]string{"pool": "fast"}, Secrets: secrets,
	})
	if err != nil || created.GetVolume().GetVolumeContext()["v"] != "1" {
		t.Errorf("%v, %v", created, err)
	}
	attach := &wire.ControllerPublishVolumeRequest{VolumeId: "1", NodeId: "n1", VolumeCapability: how, Secrets: secrets, VolumeContext: context1}
	published, err := controller.ControllerPublishVolume(by("1.2"), attach)
	if err != nil || published.GetPublishContext()["p"] != "2" {
		t.Errorf("%v, %v", published, err)
	}
	box.row(staged)
	_, err = node.NodeStageVolume(by("3.1"), &wire.NodeStageVolumeRequest{
		VolumeId: "1", StagingTargetPath: "/s", VolumeCapability: how, Secrets: secrets, VolumeContext: context1, PublishContext: context2,
	})
	box.wants(err, codes.OK, "")
	box.told.fault = errors.New("s3cret is no key: noatime,\nnot")
	_, err = node.NodePublishVolume(by("3.2"), &wire.NodePublishVolumeRequest{
		VolumeId: "1", StagingTargetPath: "/s", TargetPath: "/t", VolumeCapability: how, Secrets: secrets, VolumeContext: context1, PublishContext: context2,
	})
	box.wants(err, codes.Unavailable, "*** is no key: ***,\nnot")
	for at, want := range []string{"fast", "", "", ""} {
		private := box.told.deeds[at].Private
		if private.Parameters["pool"] != want || private.Secrets["key"] != "s3cret" || strings.Join(private.MountFlags, "") != "noatime" {
			t.Errorf("hook %d is told %+v", at, private)
		}
		if at > 0 && private.VolumeContext["v"] != "1" || at > 1 && private.PublishContext["p"] != "2" {
			t.Errorf("hook %d is told %+v", at, private)
		}
	}
}
