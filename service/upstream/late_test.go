package upstream_test

import (
	"testing"

	"google.golang.org/grpc"
	"google.golang.org/grpc/codes"

	"tufayon/service/numbering"
	"tufayon/service/upstream"
	"tufayon/service/upstream/upstreamtest"
)

// The first picture of README: a detach times out on its way, its repeat is done, the volume is attached again, and only now the first one arrives. By
// arrival nobody can know that it is late, and it detaches what is in use; with the numbers of who decided, it is refused, and the upstream never hears
// of it.
func TestLateDetach(t *testing.T) {
	for _, isNumbered := range []bool{false, true} {
		box, ctx := newBox(t, upstream.Options{}), soon(t)
		box.metadata = isNumbered
		box.start()
		counter := numbering.New(1)
		if isNumbered {
			box.client = upstreamtest.Dial(t, box.folder+"/d/csi.sock", grpc.WithUnaryInterceptor(counter.Intercept))
		}
		id := box.made(ctx, "v")
		box.does(ctx, attachCall, attaches(id, "n1", writer))
		late := ctx // the first detach is decided on here, and held up on its way
		if isNumbered {
			number, err := counter.Next()
			if err != nil {
				t.Fatal(err)
			}
			late = numbered(ctx, number)
		}
		box.does(ctx, detachCall, detaches(id, "n1"))
		box.does(ctx, attachCall, attaches(id, "n1", writer))
		if !isNumbered {
			box.does(late, detachCall, detaches(id, "n1"))
			box.attached(id)
			continue
		}
		box.refuses(late, codes.Aborted, "stale", detachCall, detaches(id, "n1"))
		box.attached(id, "n1")
	}
}

// The count of an election is the session: what the one that led before decided on, and what arrives only now, is refused, whatever its count of calls.
func TestElection(t *testing.T) {
	box, ctx := newBox(t, upstream.Options{}), soon(t)
	box.metadata = true
	box.start()
	leads := func(session uint64) grpc.DialOption {
		return grpc.WithUnaryInterceptor(numbering.New(session).Intercept)
	}
	socket := box.folder + "/d/csi.sock"
	box.client = upstreamtest.Dial(t, socket, leads(1))
	id := box.made(ctx, "v")
	box.does(ctx, attachCall, attaches(id, "n1", writer))
	late := numbered(ctx, "1.1000") // a detach that was decided on, and held up
	box.client = upstreamtest.Dial(t, socket, leads(2))
	box.does(ctx, attachCall, attaches(id, "n1", writer))
	box.refuses(late, codes.Aborted, "stale", detachCall, detaches(id, "n1"))
	box.restart()
	box.client = upstreamtest.Dial(t, socket, leads(3))
	box.does(ctx, detachCall, detaches(id, "n1"))
	box.refuses(late, codes.Aborted, "stale", detachCall, detaches(id, "n1"))
	box.attached(id)
}
