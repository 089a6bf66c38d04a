package api

import (
	"context"
	"fmt"
	"strings"
	"sync"
	"time"

	"go.uber.org/zap"
	"google.golang.org/grpc"
	"google.golang.org/grpc/codes"
	"google.golang.org/grpc/status"

	"tufayon/service/api/terms"
	"tufayon/service/api/wire"
	"tufayon/service/secure"
)

// A Role says what a caller may do. Each has what those before it have.
type Role uint8

// The roles.
const (
	Nobody   Role = iota
	Reads         // sees volumes and nodes
	Operates      // creates, uses, stops and deletes volumes
	Loses         // declares nodes lost
)

var roleNames = map[string]Role{"read": Reads, "operate": Operates, "lose": Loses}

// ParseRole reads a role's name: read, operate or lose.
func ParseRole(name string) (Role, bool) {
	role, isOne := roleNames[name]
	return role, isOne
}

// needed is the role that each call needs. What isn't listed, health and reflection, any peer may call.
var needed = map[string]Role{
	"Create": Operates, "Use": Operates, "Stop": Operates, "Delete": Operates, "Restart": Operates, "Lose": Loses,
	"Get": Reads, "List": Reads, "Watch": Reads, "Nodes": Reads, "History": Reads,
}

// Roles say which role a caller has: a client of the set by its name, and a user at a Unix socket by its number. They may be set anew at any time.
type Roles struct {
	mutex   sync.RWMutex
	clients map[string]Role
	users   map[uint32]Role
}

// Set sets the roles.
func (roles *Roles) Set(clients map[string]Role, users map[uint32]Role) {
	roles.mutex.Lock()
	defer roles.mutex.Unlock()
	roles.clients, roles.users = clients, users
}

// Of is the role of a peer.
func (roles *Roles) Of(peer secure.Peer) Role {
	roles.mutex.RLock()
	defer roles.mutex.RUnlock()
	if peer.IsLocal {
		return roles.users[peer.UID]
	}
	if peer.Name.Role != secure.Client {
		return Nobody
	}
	return roles.clients[peer.Name.ID]
}

// MayConnect says whether a user has any role.
func (roles *Roles) MayConnect(uid uint32) bool {
	return roles.Of(secure.Peer{IsLocal: true, UID: uid}) != Nobody
}

// guard lets each call through that its caller may make, and tells of it.
type guard struct {
	roles *Roles
	log   *zap.Logger
}

// admit gives who calls, unless it may not.
func (guard *guard) admit(ctx context.Context, path string) (string, error) {
	peer, err := secure.From(ctx)
	if err != nil {
		return "nobody", status.Error(codes.Unauthenticated, err.Error())
	}
	service, method, _ := strings.Cut(strings.TrimPrefix(path, "/"), "/")
	role, isOurs := needed[method]
	if service != terms.Service || !isOurs {
		return peer.String(), nil
	}
	if guard.roles.Of(peer) < role {
		return peer.String(), status.Errorf(codes.PermissionDenied, "%v may not call %s", peer, method)
	}
	return peer.String(), nil
}

func (guard *guard) unary(ctx context.Context, request any, info *grpc.UnaryServerInfo, handle grpc.UnaryHandler) (response any, err error) {
	began := time.Now()
	who, err := guard.admit(ctx, info.FullMethod)
	if err == nil {
		err = guard.safely(info.FullMethod, func() (err error) {
			response, err = handle(ctx, request)
			return err
		})
	}
	guard.tell(who, info.FullMethod, request, began, err)
	if err != nil {
		return nil, err
	}
	return response, nil
}

func (guard *guard) stream(server any, stream grpc.ServerStream, info *grpc.StreamServerInfo, handle grpc.StreamHandler) error {
	began := time.Now()
	who, err := guard.admit(stream.Context(), info.FullMethod)
	if err == nil {
		its := &judged{stream, func() error {
			_, err := guard.admit(stream.Context(), info.FullMethod)
			return err
		}}
		err = guard.safely(info.FullMethod, func() error { return handle(server, its) })
	}
	guard.tell(who, info.FullMethod, nil, began, err)
	return err
}

// judged is a stream that tells nothing more to who has lost its role.
type judged struct {
	grpc.ServerStream
	admit func() error
}

func (it *judged) SendMsg(message any) error {
	if err := it.admit(); err != nil {
		return err
	}
	return it.ServerStream.SendMsg(message)
}

// safely has a call handled. A fault of the code ends that call, and not the service.
func (guard *guard) safely(path string, handle func() error) (err error) {
	defer func() {
		if caught := recover(); caught != nil {
			guard.log.Error("a panic", zap.String("call", path), zap.Any("panic", caught), zap.Stack("stack"))
			err = status.Error(codes.Internal, "a fault of the service")
		}
	}()
	return handle()
}

// lines has room for the fields of lines of the log, of which nothing is kept once they are logged.
var lines = sync.Pool{New: func() any { return new([12]zap.Field) }}

// tell has a line of the log for each command, and for each call that was refused to its caller.
func (guard *guard) tell(who, path string, request any, began time.Time, err error) {
	isCommand := needed[path[strings.LastIndex(path, "/")+1:]] >= Operates
	if !isCommand && status.Code(err) != codes.PermissionDenied && status.Code(err) != codes.Unauthenticated {
		return
	}
	room := lines.Get().(*[12]zap.Field)
	defer lines.Put(room)
	fields := append(room[:0],
		zap.String("who", who), zap.String("call", path), zap.String("status", status.Code(err).String()), zap.Duration("took", time.Since(began)),
	)
	fields = asked(fields, request)
	if err != nil {
		fields = append(fields, zap.String("why", status.Convert(err).Message()))
	}
	guard.log.Info("a command", fields...)
}

// asked appends what a request asks for. Of uses and stops, which are many, each part is a field of its own.
func asked(to []zap.Field, request any) []zap.Field {
	switch it := request.(type) {
	case *wire.UseRequest:
		to = append(to, zap.String("volume", it.Name), zap.String("node", it.Node), zap.String("target", it.Target), zap.Uint32("mode", it.Capability.GetMode()))
		if it.Capability.GetMount() {
			to = append(to, zap.String("fs", it.Capability.FsType))
		}
		if it.Readonly {
			to = append(to, zap.Bool("readonly", true))
		}
		return to
	case *wire.StopRequest:
		return append(to, zap.String("volume", it.Name), zap.String("node", it.Node), zap.String("target", it.Target))
	}
	if named, isOne := request.(interface{ GetName() string }); isOne {
		to = append(to, zap.String("volume", named.GetName()))
	}
	if text, isOne := request.(fmt.Stringer); isOne {
		to = append(to, zap.Stringer("request", text))
	}
	return to
}

var _ wire.OrchestratorServer = (*Server)(nil)
