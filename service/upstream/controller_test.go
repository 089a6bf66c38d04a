package upstream_test

import (
	"context"
	"fmt"
	"strings"
	"sync"
	"testing"
	"time"

	"github.com/golang/protobuf/proto"
	"github.com/golang/protobuf/ptypes/wrappers"
	"google.golang.org/grpc/codes"
	"google.golang.org/grpc/metadata"
	"google.golang.org/grpc/status"

	"tufayon/service/passing"
	"tufayon/service/upstream"
	"tufayon/service/upstream/upstreamtest"
)

// The four calls of a controller reach the upstream as they came, and their responses come back as they were given, with what stands beside both.
func TestAsTheyCame(t *testing.T) {
	box, ctx := newBox(t, upstream.Options{}).start(), soon(t)
	ctx = metadata.AppendToOutgoingContext(ctx, "trace", "t1", "bytes-bin", "\x00\xff")
	id := box.made(ctx, "v")
	for method, message := range map[string]proto.Message{attachCall: attaches(id, "n1", writer)} {
		response := box.does(ctx, method, message)
		if got := response.Header.Get("upstream-header"); fmt.Sprint(got) != "["+method+"]" {
			t.Errorf("%s: the header is %v", method, response.Header)
		}
		if got := response.Trailer.Get("upstream-trailer"); fmt.Sprint(got) != "["+method+"]" || len(response.Trailer.Get("tufayon-reply")) != 1 {
			t.Errorf("%s: the trailer is %v", method, response.Trailer)
		}
	}
	box.attached(id, "n1")
	box.does(ctx, attachCall, attaches(id, "n1", writer)) // again, since it is a new call
	box.does(ctx, detachCall, detaches(id, "n1"))
	box.attached(id)
	box.does(ctx, detachCall, detaches(id, "n1"))
	box.does(ctx, deleteCall, deletes(id))
	box.does(ctx, deleteCall, deletes(id))
	box.does(ctx, detachCall, detaches("an id that nobody has", "n1"))
	told := box.behind.Told(attachCall)
	if len(told) != 2 || fmt.Sprint(told[0].Header.Get("trace"), told[0].Header.Get("bytes-bin")) != "[t1] [\x00\xff]" || told[0].Deadline.IsZero() {
		t.Errorf("the upstream was told %+v", told)
	}
}

// What the plugin refuses, the upstream never hears of.
func TestRefused(t *testing.T) {
	box, ctx := newBox(t, upstream.Options{}).start(), soon(t)
	id := box.made(ctx, "v")
	box.refuses(ctx, codes.NotFound, "volume", attachCall, attaches("no such volume", "n1", writer))
	box.refuses(ctx, codes.InvalidArgument, "capability", attachCall, attaches(id, "n1", writers))
	box.does(ctx, attachCall, attaches(id, "n1", writer))
	box.refuses(ctx, codes.FailedPrecondition, "n1", attachCall, attaches(id, "n2", writer))
	box.refuses(ctx, codes.FailedPrecondition, "n1", deleteCall, deletes(id))
	box.refuses(ctx, codes.AlreadyExists, "name", createCall, creates("v", writers))
	box.restart()
	box.refuses(ctx, codes.FailedPrecondition, "n1", attachCall, attaches(id, "n2", writer))
	long := strings.Repeat("n", 300)
	box.does(ctx, detachCall, detaches(id, "n1"))
	box.does(ctx, attachCall, attaches(id, long, writer))
	box.refuses(ctx, codes.FailedPrecondition, long, attachCall, attaches(id, "n2", writer))
	box.refuses(numbered(ctx, "1.1"), codes.FailedPrecondition, "number", detachCall, detaches(id, "n1"))
	for _, method := range []string{"/csi.v1.Node/NodeStageVolume", "/csi.v0.Controller/CreateVolume"} {
		if _, err := box.ask(ctx, method, creates("v")); status.Code(err) != codes.Unimplemented || len(box.behind.Told(method)) > 0 {
			t.Errorf("%s: %v", method, err)
		}
	}
	if _, err := passing.Call(ctx, box.client, createCall, []byte{0x0a}); status.Code(err) != codes.Internal {
		t.Errorf("bytes that are no message: %v", err)
	}
	box.attached(id, long)
}

// A path that an upstream may take for one of the eight calls, and that isn't written as gRPC writes it, doesn't pass by the plugin.
func TestOddPaths(t *testing.T) {
	box, ctx := newBox(t, upstream.Options{}).start(), soon(t)
	id := box.made(ctx, "v")
	box.does(ctx, attachCall, attaches(id, "n1", writer))
	for _, method := range []string{attachCall[1:], attachCall + "?", attachCall + "#", "/csi.v1.Controller/Controller%50ublishVolume", "csi.v0.Controller/CreateVolume",
		"/" + attachCall, "/x/.." + attachCall, "/." + attachCall, attachCall + "/"} {
		box.refuses(ctx, codes.Unimplemented, "no path of a call, /SERVICE/METHOD: one of the eight would pass by the plugin", method, attaches(id, "n2", writer))
	}
	box.attached(id, "n1")
}

// An upstream's error is given back as it is, with its details; the ledger then has what may be there, and the repeat asks again.
func TestFailed(t *testing.T) {
	box, ctx := newBox(t, upstream.Options{}).start(), soon(t)
	id := box.made(ctx, "v", writer)
	told, err := status.New(codes.OutOfRange, "the upstream's \u00e9").WithDetails(&wrappers.StringValue{Value: "more"})
	if err != nil {
		t.Fatal(err)
	}
	for _, it := range []upstreamtest.Fault{{Refuse: told.Err()}, {Fail: told.Err()}} {
		it := it
		box.behind.Fault = func(string) upstreamtest.Fault { return it }
		_, err := box.ask(ctx, attachCall, attaches(id, "n1", writer))
		if !proto.Equal(status.Convert(err).Proto(), told.Proto()) {
			t.Errorf("the error is %v", err)
		}
		if failure, is := err.(*passing.Failure); !is || len(failure.Trailer.Get("upstream-trailer")) != 1 {
			t.Errorf("beside the error stands %+v", err)
		}
		box.behind.Fault = nil
		box.refuses(ctx, codes.FailedPrecondition, "n1", attachCall, attaches(id, "n2", writer)) // it may be there
		box.does(ctx, attachCall, attaches(id, "n1", writer))
		box.behind.Fault = func(string) upstreamtest.Fault { return it }
		if _, err := box.ask(ctx, detachCall, detaches(id, "n1")); status.Code(err) != codes.OutOfRange {
			t.Errorf("the error is %v", err)
		}
		box.behind.Fault = nil
		box.refuses(ctx, codes.FailedPrecondition, "n1", attachCall, attaches(id, "n2", writer)) // it is there still
		box.does(ctx, detachCall, detaches(id, "n1"))
	}
	box.behind.Die()
	if _, err := box.ask(ctx, attachCall, attaches(id, "n1", writer)); status.Code(err) != codes.Unavailable {
		t.Errorf("without an upstream: %v", err)
	}
	box.behind.Restart()
	box.refuses(ctx, codes.FailedPrecondition, "n1", attachCall, attaches(id, "n2", writer))
	for status.Code(err) != codes.OK || err == nil {
		if _, err = box.ask(ctx, attachCall, attaches(id, "n1", writer)); err == nil || ctx.Err() != nil {
			break
		}
		time.Sleep(20 * time.Millisecond)
	}
	box.attached(id, "n1")
}

// A caller gives up; what was begun upstream is waited for. The repeat joins it, and gets its response; what would undo it waits for it.
func TestWaitedFor(t *testing.T) {
	box, ctx := newBox(t, upstream.Options{}).start(), soon(t)
	id := box.made(ctx, "v")
	begun, goesOn, once := make(chan struct{}), make(chan struct{}), sync.Once{}
	box.behind.Fault = func(method string) upstreamtest.Fault {
		if method == attachCall {
			once.Do(func() { close(begun) })
			<-goesOn
		}
		return upstreamtest.Fault{}
	}
	caller, givesUp := context.WithCancel(ctx)
	request, err := proto.Marshal(attaches(id, "n1", writer))
	if err != nil {
		t.Fatal(err)
	}
	calls := func(ctx context.Context) <-chan error {
		ended := make(chan error, 1)
		go func() {
			response, err := passing.Call(ctx, box.client, attachCall, request)
			if its := box.behind.Responses(request); err == nil && (len(its) != 1 || string(its[0]) != string(response.Message)) {
				err = fmt.Errorf("the response is %x, of %x", response.Message, its)
			}
			ended <- err
		}()
		return ended
	}
	first := calls(caller)
	<-begun
	givesUp()
	if err := <-first; status.Code(err) != codes.Canceled {
		t.Errorf("the caller gave up: %v", err)
	}
	joined := calls(ctx)
	time.Sleep(300 * time.Millisecond) // it waits by then
	time.AfterFunc(100*time.Millisecond, func() { close(goesOn) })
	box.does(ctx, detachCall, detaches(id, "n1"))
	if err := <-joined; err != nil {
		t.Errorf("the repeat: %v", err)
	}
	if told := box.behind.Told(attachCall); len(told) != 1 {
		t.Errorf("the upstream was told %d times", len(told))
	}
	box.attached(id)
}
