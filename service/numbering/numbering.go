// Package numbering gives the calls of a gRPC client that drives CSI plugins their numbers, which the plugins' fences go by. It is one file, which needs
// gRPC alone: it may be copied into a provisioner, an attacher, or whatever else makes CSI's calls.
//
//	counter := numbering.New(session)
//	connection, err := grpc.Dial(address, grpc.WithUnaryInterceptor(counter.Intercept))
//
// What the whole promise rests on is kept by the counter's owner:
//
//   - One owner at a time makes all calls of the eight to a controller and its nodes, and gives each a number of its own. Where several may be the owner,
//     they elect one, and the count of the election is the session: a number that rises with each leader, as the term of an election, or the count of a
//     lease's transitions (leaseTransitions of a Lease of Kubernetes, plus 1). A session is never used by two owners, and never by one owner twice: who
//     is started again takes the next.
//   - A call is decided on, and then made: the number is that of the decision. A call that is made again, since no answer came, is a new call, and gets
//     the next number. So Intercept has to be the innermost interceptor that makes a call again, or stand inside of it.
//   - Of one volume one call at a time is under way. The one that comes next is made once the one before has ended, by an answer or by a deadline.
//
// A plugin answers what is late by ABORTED `stale`: it was decided on before what came later. Nothing was done then, and nothing is to be made of it.
package numbering

import (
	"context"
	"errors"
	"math"
	"strconv"
	"strings"
	"sync"

	"google.golang.org/grpc"
	"google.golang.org/grpc/codes"
	"google.golang.org/grpc/metadata"
	"google.golang.org/grpc/status"
)

// Key is the key of gRPC's metadata under which a number travels, as SESSION.CALL in decimal.
const Key = "tufayon-number"

// ErrSpent says that a session has no further number: its owner begins the next session.
var ErrSpent = errors.New("numbers spent")

// Numbered are the eight calls that have numbers, by their paths of gRPC.
var Numbered = map[string]bool{
	"/csi.v1.Controller/CreateVolume": true, "/csi.v1.Controller/DeleteVolume": true,
	"/csi.v1.Controller/ControllerPublishVolume": true, "/csi.v1.Controller/ControllerUnpublishVolume": true,
	"/csi.v1.Node/NodeStageVolume": true, "/csi.v1.Node/NodeUnstageVolume": true,
	"/csi.v1.Node/NodePublishVolume": true, "/csi.v1.Node/NodeUnpublishVolume": true,
}

// step is how far the numbers of two calls are apart: a plugin before another driver may have two calls of its own for one that came.
const step = 2

// A Counter gives the numbers of one session, each higher than all before. It is for several goroutines at once.
type Counter struct {
	session uint64
	mutex   sync.Mutex
	call    uint64
}

// New begins a session, from 1 to 2^64 - 1. It is the owner's promise that nobody has used it before.
func New(session uint64) *Counter { return &Counter{session: session} }

// Next is the next number, as it travels. It fails with ErrSpent where there is none.
func (counter *Counter) Next() (string, error) {
	counter.mutex.Lock()
	defer counter.mutex.Unlock()
	if counter.call > math.MaxUint64-step {
		return "", ErrSpent
	}
	counter.call += step
	return strings.Join([]string{strconv.FormatUint(counter.session, 10), strconv.FormatUint(counter.call, 10)}, "."), nil
}

// Intercept is a client's interceptor of unary calls: each of the eight gets the next number, unless its context has one, and all others go as they are.
// Where the numbers are spent a call fails by RESOURCE_EXHAUSTED, and isn't made.
func (counter *Counter) Intercept(
	ctx context.Context, method string, request, response any, connection *grpc.ClientConn, invoke grpc.UnaryInvoker, options ...grpc.CallOption,
) error {
	if headers, _ := metadata.FromOutgoingContext(ctx); Numbered[method] && len(headers.Get(Key)) == 0 {
		number, err := counter.Next()
		if err != nil {
			return status.Error(codes.ResourceExhausted, err.Error())
		}
		ctx = metadata.AppendToOutgoingContext(ctx, Key, number)
	}
	return invoke(ctx, method, request, response, connection, options...)
}
