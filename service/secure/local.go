package secure

import (
	"context"
	"errors"
	"fmt"
	"net"
	"syscall"

	"golang.org/x/sys/unix"
	"google.golang.org/grpc"
	"google.golang.org/grpc/codes"
	"google.golang.org/grpc/credentials"
	"google.golang.org/grpc/status"
)

// Local are the credentials of a Unix socket, of a client and of a server. The kernel says which user is at the other end.
type Local struct {
	May     func(uid uint32) bool // says whether a user is wanted there
	Refused Refused               // may be nil
}

// A User is who is at the other end of a Unix socket.
type User struct {
	credentials.CommonAuthInfo
	UID uint32
}

// AuthType is the name of this way to know a peer.
func (User) AuthType() string { return "peercred" }

// judge refuses a user that isn't wanted there.
func (local Local) judge(uid uint32) error {
	if !local.May(uid) {
		return fmt.Errorf("%w: %d", ErrUser, uid)
	}
	return nil
}

// Options are a server's that refuses each user that isn't wanted there: when it connects, and later at each call, since it may be wanted no more.
func (local Local) Options() []grpc.ServerOption {
	return []grpc.ServerOption{
		grpc.Creds(local),
		grpc.ChainUnaryInterceptor(func(ctx context.Context, request any, _ *grpc.UnaryServerInfo, handle grpc.UnaryHandler) (any, error) {
			if err := local.admit(ctx); err != nil {
				return nil, err
			}
			return handle(ctx, request)
		}),
		grpc.ChainStreamInterceptor(func(server any, stream grpc.ServerStream, _ *grpc.StreamServerInfo, handle grpc.StreamHandler) error {
			if err := local.admit(stream.Context()); err != nil {
				return err
			}
			return handle(server, stream)
		}),
	}
}

// admit refuses a call of a user that isn't wanted there any more.
func (local Local) admit(ctx context.Context) error {
	from, err := From(ctx)
	if err != nil {
		return status.Error(codes.Unauthenticated, err.Error())
	}
	if err := local.judge(from.UID); err != nil {
		return status.Error(codes.PermissionDenied, err.Error())
	}
	return nil
}

// ServerHandshake says who connected.
func (local Local) ServerHandshake(raw net.Conn) (net.Conn, credentials.AuthInfo, error) {
	user, err := userOf(raw)
	if err == nil {
		err = local.judge(user.UID)
	}
	if err != nil {
		if local.Refused != nil {
			local.Refused(raw.RemoteAddr(), err)
		}
		return nil, nil, err
	}
	return raw, user, nil
}

// ClientHandshake says who serves the socket.
func (local Local) ClientHandshake(_ context.Context, _ string, raw net.Conn) (net.Conn, credentials.AuthInfo, error) {
	return local.ServerHandshake(raw)
}

// userOf asks the kernel.
func userOf(raw net.Conn) (User, error) {
	connection, ok := raw.(syscall.Conn)
	if !ok || raw.LocalAddr().Network() != "unix" {
		return User{}, fmt.Errorf("%w: no Unix socket", ErrUser)
	}
	through, err := connection.SyscallConn()
	if err != nil {
		return User{}, err
	}
	var found *unix.Ucred
	var failed error
	if err := through.Control(func(fd uintptr) { found, failed = unix.GetsockoptUcred(int(fd), unix.SOL_SOCKET, unix.SO_PEERCRED) }); err != nil {
		return User{}, err
	}
	if failed != nil {
		return User{}, failed
	}
	return User{CommonAuthInfo: credentials.CommonAuthInfo{SecurityLevel: credentials.NoSecurity}, UID: found.Uid}, nil
}

// Info says what this is.
func (Local) Info() credentials.ProtocolInfo {
	return credentials.ProtocolInfo{SecurityProtocol: "peercred"}
}

// Clone gives the same again.
func (local Local) Clone() credentials.TransportCredentials { return local }

// OverrideServerName isn't possible: a socket has no such name.
func (Local) OverrideServerName(string) error {
	return errors.New("a Unix socket has no server's name")
}
