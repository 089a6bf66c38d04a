// Package limiting bounds what a server of gRPC takes: connections, streams of each, and time at its end.
package limiting

import (
	"context"
	"net"
	"sync"
	"syscall"
	"time"

	"google.golang.org/grpc"
	"google.golang.org/grpc/codes"
	"google.golang.org/grpc/peer"
	"google.golang.org/grpc/status"
)

// Greeting is how long who connects may take to say who it is, and what it speaks: gRPC gives two minutes, for which the end of a server waits too.
const Greeting = 10 * time.Second

// mostStop is how long the end of a server is waited for.
const mostStop = time.Second

// Limits are how many connections are served, and how many streams of each: what is above is refused by RESOURCE_EXHAUSTED, as long as it is, or closed
// where it is twice as much.
type Limits struct {
	Connections int
	Streams     uint32
	Refusal     string // of a call of a connection above the limit
}

// New gives the limits of a driver: more than the sidecars of a platform have.
func New() *Limits { return &Limits{Connections: 256, Streams: 4096, Refusal: "connections"} }

// Options are the server's.
func (limits *Limits) Options() []grpc.ServerOption {
	return []grpc.ServerOption{grpc.MaxConcurrentStreams(limits.Streams), grpc.ConnectionTimeout(Greeting)}
}

// Stop ends a server at once, with the calls that are under way. Who has connected and says nothing holds it up for a second at most, and is closed later.
func Stop(server *grpc.Server) {
	stopped := make(chan struct{})
	go func() {
		server.Stop()
		close(stopped)
	}()
	select {
	case <-stopped:
	case <-time.After(mostStop):
	}
}

// above is the address of who is at the other end of a connection that was above the limit when it came: what gRPC tells of a connection with each call,
// without a handler of statistics, for which it would copy each call's metadata.
type above struct {
	net.Addr
	connection *connection
}

// judge refuses a call of a connection above the limit.
func (limits *Limits) judge(ctx context.Context) error {
	if from, known := peer.FromContext(ctx); known {
		if its, is := from.Addr.(above); is && !its.connection.mayCall() {
			return status.Error(codes.ResourceExhausted, limits.Refusal)
		}
	}
	return nil
}

// Intercept refuses the calls of a connection above the limit, until another one has ended.
func (limits *Limits) Intercept(ctx context.Context, request any, _ *grpc.UnaryServerInfo, handle grpc.UnaryHandler) (any, error) {
	if err := limits.judge(ctx); err != nil {
		return nil, err
	}
	return handle(ctx, request)
}

// InterceptStream does the same with streams.
func (limits *Limits) InterceptStream(server any, stream grpc.ServerStream, _ *grpc.StreamServerInfo, handle grpc.StreamHandler) error {
	if err := limits.judge(stream.Context()); err != nil {
		return err
	}
	return handle(server, stream)
}

// Listen gives a listener whose connections are counted: it marks those above the limit, and closes each beyond twice that at once.
func (limits *Limits) Listen(inner net.Listener) net.Listener {
	return &listener{Listener: inner, limit: limits.Connections}
}

type listener struct {
	net.Listener
	limit  int
	mutex  sync.Mutex
	open   int
	served int // of those: the limit at most
}

func (listener *listener) Accept() (net.Conn, error) {
	for {
		accepted, err := listener.Listener.Accept()
		if err != nil {
			return nil, err
		}
		if counted := listener.count(accepted); counted != nil {
			return counted, nil
		}
		accepted.Close()
	}
}

// count takes in a connection that came: none beyond twice the limit.
func (listener *listener) count(accepted net.Conn) net.Conn {
	listener.mutex.Lock()
	defer listener.mutex.Unlock()
	if listener.open >= 2*listener.limit {
		return nil
	}
	listener.open++
	counted := &connection{Conn: accepted, of: listener, isAbove: listener.served >= listener.limit}
	if !counted.isAbove {
		counted.isServed = true
		listener.served++
	}
	return counted
}

type connection struct {
	net.Conn
	of      *listener
	isAbove bool // it was when it came

	// These are the listener's to change.
	isServed bool
	hasEnded bool
}

// mayCall says whether its calls are served: from the first one on that comes while fewer are served than may be.
func (connection *connection) mayCall() bool {
	its := connection.of
	its.mutex.Lock()
	defer its.mutex.Unlock()
	if !connection.isServed && !connection.hasEnded && its.served < its.limit {
		connection.isServed = true
		its.served++
	}
	return connection.isServed
}

// RemoteAddr is who is at the other end, above the limit as such.
func (connection *connection) RemoteAddr() net.Addr {
	if connection.isAbove {
		return above{connection.Conn.RemoteAddr(), connection}
	}
	return connection.Conn.RemoteAddr()
}

// SyscallConn is the connection's own: by it the kernel says who is at the other end.
func (connection *connection) SyscallConn() (syscall.RawConn, error) {
	through, is := connection.Conn.(syscall.Conn)
	if !is {
		return nil, syscall.ENOTSUP
	}
	return through.SyscallConn()
}

func (connection *connection) Close() error {
	connection.end()
	return connection.Conn.Close()
}

// end takes it off what it was counted in.
func (connection *connection) end() {
	its := connection.of
	its.mutex.Lock()
	defer its.mutex.Unlock()
	if connection.hasEnded {
		return
	}
	connection.hasEnded = true
	its.open--
	if connection.isServed {
		its.served--
	}
}
