package upstream_test

import (
	"context"
	"fmt"
	"strings"
	"testing"

	"github.com/golang/protobuf/proto"
	"google.golang.org/grpc"
	"google.golang.org/grpc/codes"
	"google.golang.org/grpc/status"

	"tufayon/service/upstream"
	"tufayon/service/upstream/upstreamtest"
	"tufayon/service/wire"
)

const (
	stageCall     = "/csi.v1.Node/NodeStageVolume"
	unstageCall   = "/csi.v1.Node/NodeUnstageVolume"
	publishCall   = "/csi.v1.Node/NodePublishVolume"
	unpublishCall = "/csi.v1.Node/NodeUnpublishVolume"

	single = wire.VolumeCapability_AccessMode_SINGLE_NODE_SINGLE_WRITER
)

func stages(id, path string, mode wire.VolumeCapability_AccessMode_Mode) *wire.NodeStageVolumeRequest {
	return &wire.NodeStageVolumeRequest{VolumeId: id, StagingTargetPath: path, VolumeCapability: in(mode), Secrets: map[string]string{"key": "k"},
		PublishContext: map[string]string{"device": "/dev/x"}}
}

func unstages(id, path string) *wire.NodeUnstageVolumeRequest {
	return &wire.NodeUnstageVolumeRequest{VolumeId: id, StagingTargetPath: path}
}

func publishes(id, path, target string, mode wire.VolumeCapability_AccessMode_Mode) *wire.NodePublishVolumeRequest {
	return &wire.NodePublishVolumeRequest{VolumeId: id, StagingTargetPath: path, TargetPath: target, VolumeCapability: in(mode)}
}

func unpublishes(id, target string) *wire.NodeUnpublishVolumeRequest {
	return &wire.NodeUnpublishVolumeRequest{VolumeId: id, TargetPath: target}
}

// The four calls of a node reach the upstream as they came, once the plugin allows them, under the upstream's ids.
func TestNode(t *testing.T) {
	box, ctx := newBox(t, upstream.Options{Node: "n1"}).start(), soon(t)
	const id = "fs/1"
	box.refuses(ctx, codes.FailedPrecondition, "not staged", publishCall, publishes(id, "/s", "/a", single))
	box.does(ctx, stageCall, stages(id, "/s", single))
	box.does(ctx, stageCall, stages(id, "/s", single))
	box.refuses(ctx, codes.FailedPrecondition, "staged otherwise", stageCall, stages(id, "/other", single))
	box.refuses(ctx, codes.FailedPrecondition, "staged otherwise", publishCall, publishes(id, "/other", "/a", single))
	box.does(ctx, publishCall, publishes(id, "/s", "/a", single))
	box.refuses(ctx, codes.FailedPrecondition, "/a", publishCall, publishes(id, "/s", "/b", single))
	box.refuses(ctx, codes.FailedPrecondition, "/a", unstageCall, unstages(id, "/s"))
	box.restart()
	box.refuses(ctx, codes.FailedPrecondition, "/a", unstageCall, unstages(id, "/s"))
	box.refuses(ctx, codes.FailedPrecondition, "staged otherwise", unstageCall, unstages(id, "/other"))
	box.does(ctx, unpublishCall, unpublishes(id, "/a"))
	box.does(ctx, unstageCall, unstages(id, "/s"))
	box.does(ctx, unstageCall, unstages(id, "/s"))
	box.does(ctx, unpublishCall, unpublishes("nobody's", "/a"))
	box.does(ctx, stageCall, stages(id, "/other", writers))
	long := "/" + strings.Repeat("t", 4000)
	box.does(ctx, publishCall, publishes(id, "/other", long, writers))
	box.does(ctx, publishCall, publishes(id, "/other", long+"u", writers))
	box.refuses(ctx, codes.FailedPrecondition, long, unstageCall, unstages(id, "/other"))
	box.does(ctx, unpublishCall, unpublishes(id, long))
	box.does(ctx, unpublishCall, unpublishes(id, long+"u"))
	box.does(ctx, unstageCall, unstages(id, "/other"))
	for _, it := range []struct {
		text, method string
		message      proto.Message
	}{
		{"volume_id", stageCall, stages("", "/s", single)}, {"staging_target_path", stageCall, stages(id, "", single)},
		{"access_mode", stageCall, stages(id, "/s", 0)}, {"staging_target_path", unstageCall, unstages(id, "")},
		{"target_path", publishCall, publishes(id, "/s", "", single)}, {"target_path", unpublishCall, unpublishes(id, "")},
		{"staging_target_path", stageCall, stages(id, "/"+strings.Repeat("s", 4096), single)},
	} {
		box.refuses(ctx, codes.InvalidArgument, it.text, it.method, it.message)
	}
	box.refuses(ctx, codes.Unimplemented, "the other plugin's: a driver of its own stands before that", createCall, creates("v"))
}

// SINGLE_NODE_WRITER is what platforms call one node: several may use the volume there.
func TestOneNode(t *testing.T) {
	box, ctx := newBox(t, upstream.Options{Node: "n1"}).start(), soon(t)
	box.does(ctx, stageCall, stages("v", "/s", writer))
	for at := 0; at < 16; at++ {
		box.does(ctx, publishCall, publishes("v", "/s", fmt.Sprint("/t", at), writer))
	}
	box.refuses(ctx, codes.ResourceExhausted, "targets", publishCall, publishes("v", "/s", "/one more", writer))
}

// By arrival a publication that the upstream refuses for good is undone at once where its target is new, since a platform calls nothing more of it: else the
// volume couldn't be unstaged any more. One that may be there stays in the ledger, and so does one of who numbers calls.
func TestRefusedPublication(t *testing.T) {
	for _, isNumbered := range []bool{false, true} {
		box, ctx, count := newBox(t, upstream.Options{Node: "n1"}), soon(t), 0
		box.metadata = isNumbered
		box.start()
		next := func() context.Context {
			if count += 2; isNumbered {
				return numbered(ctx, fmt.Sprint("1.", count))
			}
			return ctx
		}
		refused := func(code codes.Code, message proto.Message) {
			t.Helper()
			box.behind.Set(func(method string) upstreamtest.Fault {
				if method == publishCall {
					return upstreamtest.Fault{Fail: status.Error(code, "it can't be mounted")}
				}
				return upstreamtest.Fault{}
			})
			_, err := box.ask(next(), publishCall, message)
			box.wants(err, code, "it can't be mounted")
			box.behind.Set(nil)
		}
		box.does(next(), stageCall, stages("v", "/s", writers))
		for _, code := range []codes.Code{codes.Unavailable, codes.AlreadyExists} {
			refused(code, publishes("v", "/s", "/a", writers))
			box.refuses(next(), codes.FailedPrecondition, "/a", unstageCall, unstages("v", "/s"))
			box.does(next(), unpublishCall, unpublishes("v", "/a"))
		}
		box.does(next(), publishCall, publishes("v", "/s", "/b", writers))
		refused(codes.Internal, publishes("v", "/s", "/b", writers)) // it was there before
		box.refuses(next(), codes.FailedPrecondition, "/b", unstageCall, unstages("v", "/s"))
		box.does(next(), unpublishCall, unpublishes("v", "/b"))
		refused(codes.Internal, publishes("v", "/s", "/c", writers))
		if isNumbered {
			box.refuses(next(), codes.FailedPrecondition, "/c", unstageCall, unstages("v", "/s"))
			box.does(next(), unpublishCall, unpublishes("v", "/c"))
		}
		box.does(next(), unstageCall, unstages("v", "/s"))
		if told := len(box.behind.Told(unpublishCall)); told != 4 {
			t.Errorf("the upstream was told %d times to undo", told)
		}
		if !isNumbered { // of an upstream that stages nothing the volume isn't staged any more either
			refused(codes.Internal, publishes("w", "", "/d", writers))
			box.does(next(), publishCall, publishes("w", "", "/d", single))
		}
	}
}

// By arrival a publication whose first call had no answer is undone too, where a later one is refused for good; but not once the upstream said that it is there.
func TestUnsurePublication(t *testing.T) {
	box, ctx := newBox(t, upstream.Options{Node: "n1"}).start(), soon(t)
	fails := func(codes ...codes.Code) {
		t.Helper()
		for _, code := range codes {
			code := code
			box.behind.Set(func(string) upstreamtest.Fault { return upstreamtest.Fault{Fail: status.Error(code, "no")} })
			_, err := box.ask(ctx, publishCall, publishes("v", "/s", "/a", writers))
			box.wants(err, code, "no")
		}
		box.behind.Set(nil)
	}
	undone := func(want int) {
		t.Helper()
		if told := len(box.behind.Told(unpublishCall)); told != want {
			t.Errorf("the upstream was told %d times to undo, not %d", told, want)
		}
	}
	box.does(ctx, stageCall, stages("v", "/s", writers))
	fails(codes.DeadlineExceeded, codes.Unavailable)
	undone(0)
	box.refuses(ctx, codes.FailedPrecondition, "/a", unstageCall, unstages("v", "/s"))
	box.behind.Set(func(method string) upstreamtest.Fault {
		if method == publishCall {
			return upstreamtest.Fault{Fail: status.Error(codes.Internal, "no")}
		}
		return upstreamtest.Fault{}
	})
	_, err := box.ask(ctx, publishCall, publishes("v", "/s", "/a", writers))
	box.wants(err, codes.Internal, "no")
	box.behind.Set(nil)
	undone(1)
	box.does(ctx, unstageCall, unstages("v", "/s"))
	box.does(ctx, stageCall, stages("v", "/s", writers))
	fails(codes.Unavailable)
	box.does(ctx, publishCall, publishes("v", "/s", "/a", writers))
	fails(codes.Internal)
	undone(1)
	box.refuses(ctx, codes.FailedPrecondition, "/a", unstageCall, unstages("v", "/s"))
}

// A volume whose own call begins a session keeps its id: its row is forgotten then, and made anew.
func TestFirstOfASession(t *testing.T) {
	for _, isNumbered := range []bool{false, true} {
		box, ctx := newBox(t, upstream.Options{Node: "n1"}), soon(t)
		box.metadata = isNumbered
		box.start()
		at := func(number string) context.Context {
			if isNumbered {
				return numbered(ctx, number)
			}
			return ctx
		}
		box.does(at("1.2"), stageCall, stages("v", "/s", single))
		box.does(at("1.4"), unstageCall, unstages("v", "/s"))
		box.restart()
		box.does(at("2.2"), stageCall, stages("v", "/s", single))
		if isNumbered {
			box.refuses(at("2.2"), codes.FailedPrecondition, "number", stageCall, stages("v", "/s", writers)) // another call
		}
		box.does(at("2.4"), publishCall, publishes("v", "/s", "/a", single))
		box.refuses(at("2.6"), codes.FailedPrecondition, "staged otherwise", stageCall, stages("v", "/other", single))
		box.restart()
		box.does(at("2.8"), stageCall, stages("w", "/w", writers)) // another volume has another row
		box.refuses(at("2.10"), codes.FailedPrecondition, "/a", unstageCall, unstages("v", "/s"))
	}
	box, ctx := newBox(t, upstream.Options{Node: "n1"}), soon(t)
	box.metadata = true
	box.start()
	box.does(numbered(ctx, "1.2"), stageCall, stages("v", "/s", single))
	box.does(numbered(ctx, "1.4"), unstageCall, unstages("v", "/s"))
	box.does(numbered(ctx, "2.6"), unstageCall, unstages("v", "/s"))
	box.refuses(numbered(ctx, "2.4"), codes.Aborted, "stale", stageCall, stages("v", "/s", single))
}

// A publication that the plugin refuses stages nothing, of an upstream that stages nothing either.
func TestRefusedUnstaged(t *testing.T) {
	box, ctx := newBox(t, upstream.Options{Node: "n1"}).start(), soon(t)
	box.refuses(ctx, codes.InvalidArgument, "target", publishCall, publishes("v", "", "a", writers))
	box.does(ctx, publishCall, publishes("v", "", "/a", single))
}

// A duplicate of the call by which a volume was unpublished last, where that unstaged it in the ledger, gets the reply that was kept.
func TestLastUnpublicationAgain(t *testing.T) {
	box, ctx := newBox(t, upstream.Options{Node: "n1"}), soon(t)
	box.metadata = true
	box.start()
	box.does(numbered(ctx, "1.2"), publishCall, publishes("v", "", "/a", single))
	for turn := 0; turn < 3; turn++ {
		if turn == 2 {
			box.restart()
		}
		if _, err := box.ask(numbered(ctx, "1.4"), unpublishCall, unpublishes("v", "/a")); err != nil {
			t.Errorf("turn %d: %v", turn, err)
		}
	}
	box.refuses(numbered(ctx, "1.2"), codes.Aborted, "stale", publishCall, publishes("v", "", "/a", single))
}

// A call that is refused for want of a number is seen by those who watch, as any other one of the eight.
func TestWatched(t *testing.T) {
	seen := make(chan codes.Code, 1)
	box, ctx := newBox(t, upstream.Options{Node: "n1"}), soon(t)
	box.metadata = true
	box.watch = func(ctx context.Context, request any, info *grpc.UnaryServerInfo, handle grpc.UnaryHandler) (any, error) {
		response, err := handle(ctx, request)
		seen <- status.Code(err)
		return response, err
	}
	box.start()
	box.refuses(ctx, codes.FailedPrecondition, "number", stageCall, stages("v", "/s", single))
	select {
	case code := <-seen:
		if code != codes.FailedPrecondition {
			t.Errorf("they saw %v", code)
		}
	case <-ctx.Done():
		t.Error("they saw nothing")
	}
}

// An upstream that stages nothing: in the ledger a volume is staged from its first publication to its last one.
func TestUnstaged(t *testing.T) {
	for _, isNumbered := range []bool{false, true} {
		box, ctx, count := newBox(t, upstream.Options{Node: "n1"}), soon(t), 0
		box.metadata = isNumbered
		box.start()
		call := func(method string, message proto.Message) {
			t.Helper()
			its := ctx
			if count += 2; isNumbered {
				its = numbered(ctx, fmt.Sprint("1.", count))
			}
			box.does(its, method, message)
		}
		for round := 0; round < 2; round++ {
			mode := []wire.VolumeCapability_AccessMode_Mode{writers, single}[round] // another one: it isn't staged any more
			call(publishCall, publishes("v", "", "/a", mode))
			if mode == writers {
				call(publishCall, publishes("v", "", "/b", mode))
				box.restart()
				call(unpublishCall, unpublishes("v", "/a"))
				call(publishCall, publishes("v", "", "/b", mode))
				call(unpublishCall, unpublishes("v", "/b"))
			} else {
				call(unpublishCall, unpublishes("v", "/a"))
			}
		}
		call(stageCall, stages("v", "/s", writers))
		call(publishCall, publishes("v", "/s", "/c", writers))
		call(unpublishCall, unpublishes("v", "/c"))
		call(unstageCall, unstages("v", "/s"))
	}
}
