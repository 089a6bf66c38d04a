package carrying

import (
	"context"
	"errors"
	"net"
	"sync/atomic"

	"google.golang.org/grpc/credentials"
)

// counting are credentials that number the connections that are made by them.
type counting struct {
	credentials.TransportCredentials
	connects func() uint64
}

// counted is what is known of the end of a connection that has a number.
type counted struct {
	credentials.AuthInfo
	number uint64
}

func (it counting) ClientHandshake(ctx context.Context, authority string, raw net.Conn) (net.Conn, credentials.AuthInfo, error) {
	secured, info, err := it.TransportCredentials.ClientHandshake(ctx, authority, raw)
	if err != nil {
		return nil, nil, err
	}
	return secured, counted{info, it.connects()}, nil
}

func (it counting) Clone() credentials.TransportCredentials {
	return counting{it.TransportCredentials.Clone(), it.connects}
}

var errConnection = errors.New("another connection")

// over has a call made over the connection of a number, and no other: gRPC, which makes another connection by itself, asks it before it sends anything.
// Of number 0 any will do.
type over struct {
	number uint64
	was    int32 // 1 once it refused another connection
}

// GetRequestMetadata refuses another connection. It adds nothing to a call.
func (it *over) GetRequestMetadata(ctx context.Context, _ ...string) (map[string]string, error) {
	info, _ := credentials.RequestInfoFromContext(ctx)
	its, _ := info.AuthInfo.(counted)
	if it.number != 0 && its.number != it.number {
		atomic.StoreInt32(&it.was, 1)
		return nil, errConnection
	}
	return nil, nil
}

// RequireTransportSecurity says that Unix sockets will do.
func (*over) RequireTransportSecurity() bool { return false }

// refused says whether a call wasn't sent, since there was another connection.
func (it *over) refused() bool { return atomic.LoadInt32(&it.was) == 1 }
