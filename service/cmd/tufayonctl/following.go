package main

import (
	"context"
	"sync"
	"time"

	"google.golang.org/grpc"
	"google.golang.org/grpc/codes"
	"google.golang.org/grpc/connectivity"
	"google.golang.org/grpc/metadata"
	"google.golang.org/grpc/status"

	"tufayon/service/api/terms"
)

// patience is how long it is looked for a service that leads: shorter in a test.
var patience = 30 * time.Second

// again is how long it takes until a service that doesn't know which one that is is asked again.
const again = 200 * time.Millisecond

// following has calls made at the service that leads, where the one that was asked says that it doesn't. Then nothing was done.
type following struct {
	several string // the addresses, if there are several
	dial    func(address string) (*grpc.ClientConn, error)

	mutex sync.Mutex
	known map[string]*grpc.ClientConn // by their addresses
	until time.Time                   // when it is no more looked for one of several that leads, as long as none does
}

// leader is what a refusal's trailer says: where the service is that leads, nothing where that isn't known. It says whether the call is to be made again.
func leader(err error, trailer metadata.MD) (address string, isRefusal bool) {
	said := trailer.Get(terms.LeaderKey)
	if status.Code(err) != codes.Unavailable || len(said) != 1 {
		return "", false
	}
	return said[0], true
}

// leads waits until one of several services leads, as their health says: by calls that are made one after another no longer than by one.
func (it *following) leads(ctx context.Context, first *grpc.ClientConn) error {
	if it.several == "" {
		return nil
	}
	within, cancel := context.WithDeadline(ctx, it.looks())
	defer cancel()
	for state := first.GetState(); state != connectivity.Ready; state = first.GetState() {
		switch {
		case first.WaitForStateChange(within, state):
		case ctx.Err() != nil:
			return status.FromContextError(ctx.Err()).Err()
		default:
			return status.Errorf(codes.Unavailable, "none of %s leads", it.several)
		}
	}
	it.mutex.Lock()
	defer it.mutex.Unlock()
	it.until = time.Time{}
	return nil
}

// looks says until when it is looked for one that leads.
func (it *following) looks() time.Time {
	it.mutex.Lock()
	defer it.mutex.Unlock()
	if it.until.IsZero() {
		it.until = time.Now().Add(patience)
	}
	return it.until
}

// next gives the connection at which a refused call is made again. Where it isn't known which service leads, or the one of which that is said isn't reached,
// as one that has just died, it is the same one, after a while. It gives none where it is too late.
func (it *following) next(ctx context.Context, same *grpc.ClientConn, address string, until time.Time) *grpc.ClientConn {
	if time.Now().After(until) {
		return nil
	}
	if address != "" && address != same.Target() {
		if made, err := it.reached(ctx, address, until); made != nil || err != nil {
			return made
		}
	}
	select {
	case <-ctx.Done():
		return nil
	case <-time.After(again):
		return same
	}
}

// reached gives a connection to an address once it is there, and none where nobody is there: nothing was sent, then.
func (it *following) reached(ctx context.Context, address string, until time.Time) (*grpc.ClientConn, error) {
	made, err := it.to(address)
	if err != nil {
		return nil, err
	}
	ctx, cancel := context.WithDeadline(ctx, until)
	defer cancel()
	for {
		switch state := made.GetState(); state {
		case connectivity.Ready:
			return made, nil
		case connectivity.TransientFailure, connectivity.Shutdown:
			it.forget(address, made)
			return nil, nil
		default:
			if !made.WaitForStateChange(ctx, state) {
				return nil, nil
			}
		}
	}
}

// to gives the connection to an address, which is made where there is none.
func (it *following) to(address string) (*grpc.ClientConn, error) {
	it.mutex.Lock()
	defer it.mutex.Unlock()
	if made := it.known[address]; made != nil {
		return made, nil
	}
	made, err := it.dial(address)
	if err == nil {
		it.known[address] = made
	}
	return made, err
}

// forget closes a connection, so that the next one to the address is made at once.
func (it *following) forget(address string, made *grpc.ClientConn) {
	it.mutex.Lock()
	defer it.mutex.Unlock()
	if it.known[address] == made {
		delete(it.known, address)
	}
	made.Close()
}

// close closes the connections that it made.
func (it *following) close() {
	it.mutex.Lock()
	defer it.mutex.Unlock()
	for _, made := range it.known {
		made.Close()
	}
}

// unary makes a call, again where another service leads. What it fails with is what the last one said.
func (it *following) unary(
	ctx context.Context, method string, request, response any, first *grpc.ClientConn, invoke grpc.UnaryInvoker, options ...grpc.CallOption,
) error {
	if err := it.leads(ctx, first); err != nil {
		return err
	}
	until := time.Now().Add(patience)
	at := first
	for {
		var trailer metadata.MD
		options := append(options[:len(options):len(options)], grpc.Trailer(&trailer))
		var err error
		if at == first {
			err = invoke(ctx, method, request, response, at, options...)
		} else {
			err = at.Invoke(ctx, method, request, response, options...)
		}
		address, isRefusal := leader(err, trailer)
		if !isRefusal {
			return err
		}
		if at = it.next(ctx, at, address, until); at == nil {
			return err
		}
	}
}

// stream begins a stream, which begins again where another service leads.
func (it *following) stream(
	ctx context.Context, description *grpc.StreamDesc, first *grpc.ClientConn, method string, begin grpc.Streamer, options ...grpc.CallOption,
) (grpc.ClientStream, error) {
	if err := it.leads(ctx, first); err != nil {
		return nil, err
	}
	made, err := begin(ctx, description, first, method, options...)
	if err != nil {
		return nil, err
	}
	again := func(at *grpc.ClientConn) (grpc.ClientStream, error) {
		if at == first { // whose streams are this one
			return begin(ctx, description, first, method, options...)
		}
		return at.NewStream(ctx, description, method, options...)
	}
	return &followed{ClientStream: made, ctx: ctx, following: it, at: first, again: again, until: time.Now().Add(patience)}, nil
}

// followed is a stream of one request. Nothing has come of it until the first answer.
type followed struct {
	grpc.ClientStream
	ctx       context.Context // of who asks: that of the stream is over once it ended
	following *following
	at        *grpc.ClientConn
	again     func(*grpc.ClientConn) (grpc.ClientStream, error)
	until     time.Time
	request   any
	hasCome   bool
}

func (it *followed) SendMsg(request any) error {
	it.request = request
	return it.ClientStream.SendMsg(request)
}

// RecvMsg gives the next answer.
func (it *followed) RecvMsg(answer any) error {
	for {
		err := it.ClientStream.RecvMsg(answer)
		if err == nil {
			it.hasCome = true
		}
		address, isRefusal := leader(err, it.trailer(err))
		if it.hasCome || !isRefusal {
			return err
		}
		at := it.following.next(it.ctx, it.at, address, it.until)
		if at == nil {
			return err
		}
		if made, failed := it.begin(at); failed == nil {
			it.at, it.ClientStream = at, made
			continue
		}
		return err
	}
}

// trailer is the stream's, which is there once it ended.
func (it *followed) trailer(err error) metadata.MD {
	if err == nil {
		return nil
	}
	return it.ClientStream.Trailer()
}

func (it *followed) begin(at *grpc.ClientConn) (grpc.ClientStream, error) {
	made, err := it.again(at)
	if err == nil {
		err = made.SendMsg(it.request)
	}
	if err == nil {
		err = made.CloseSend()
	}
	return made, err
}
