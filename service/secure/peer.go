package secure

import (
	"context"
	"fmt"

	"google.golang.org/grpc/credentials"
	"google.golang.org/grpc/peer"
)

// A Peer is who made a call: a named one, over TCP, or a user of this machine.
type Peer struct {
	Name    Name
	IsLocal bool
	UID     uint32 // of a local one
}

// String is as a log has it.
func (from Peer) String() string {
	if from.IsLocal {
		return fmt.Sprintf("uid:%d", from.UID)
	}
	return from.Name.String()
}

// From is who made the call of a context.
func From(ctx context.Context) (Peer, error) {
	from, ok := peer.FromContext(ctx)
	if !ok {
		return Peer{}, ErrNone
	}
	switch info := from.AuthInfo.(type) {
	case User:
		return Peer{IsLocal: true, UID: info.UID}, nil
	case credentials.TLSInfo:
		if len(info.State.PeerCertificates) == 0 {
			return Peer{}, ErrNone
		}
		name, err := Named(info.State.PeerCertificates[0])
		return Peer{Name: name}, err
	}
	return Peer{}, ErrNone
}
