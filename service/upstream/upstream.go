// Package upstream puts a proved plugin before another CSI driver, the upstream: each of the eight calls passes the plugin first, in the order of
// docs/DRIVER.md, "What is done in which order", with the upstream's call as its deed; all others pass on unread. docs/UPSTREAM.md says what becomes of each.
package upstream

import (
	"context"
	"fmt"
	"io"
	"os"
	"runtime/debug"
	"strings"
	"sync"
	"time"

	"google.golang.org/grpc"
	"google.golang.org/grpc/backoff"
	"google.golang.org/grpc/codes"
	"google.golang.org/grpc/status"

	"tufayon/service/driver"
	"tufayon/service/limiting"
	"tufayon/service/passing"
	"tufayon/service/plugin"
	"tufayon/service/secure"
	"tufayon/service/serving"
)

// maxMetadata is how many bytes a call's metadata may have.
const maxMetadata = 64 << 10

// Options say how a driver stands before its upstream.
type Options struct {
	Address string   // of the upstream, unix://PATH
	Adopt   bool     // of a controller: a volume that it didn't make is taken up by its first ControllerPublishVolume
	Lost    []string // of a controller by arrival: nodes that are gone for good, as the operator promises
	Node    string   // of a node: its id, as frames have it; of a controller nothing
}

// A Proxy is a plugin before an upstream.
type Proxy struct {
	options Options
	behind  *grpc.ClientConn
	known   capabilities
	nodes   *nodes // of a controller; only the plugin's goroutine has it
	lost    map[string]bool
	taken   gauge // of nodes
	kept    passing.Kept
	watch   []grpc.UnaryServerInterceptor
	unsure  unsure

	mutex sync.Mutex
	made  map[string]string // the upstream's ids of volumes, by the plugin's names of them
}

// New makes a proxy, which connects to its upstream once there are calls, and again where it is gone.
func New(options Options) (*Proxy, error) {
	connection, err := grpc.Dial(options.Address, append(secure.ToSocket(options.Address), grpc.WithInsecure(), grpc.WithDisableServiceConfig(),
		grpc.WithDisableRetry(), grpc.WithAuthority("localhost"), grpc.WithMaxHeaderListSize(maxMetadata), grpc.WithInitialWindowSize(passing.Window),
		grpc.WithInitialConnWindowSize(passing.Window), grpc.WithConnectParams(grpc.ConnectParams{
			Backoff:           backoff.Config{BaseDelay: 50 * time.Millisecond, Multiplier: 1.6, Jitter: 0.2, MaxDelay: time.Second},
			MinConnectTimeout: 5 * time.Second,
		}))...)
	if err != nil {
		return nil, fmt.Errorf("the upstream %s: %w", options.Address, err)
	}
	proxy := &Proxy{options: options, behind: connection, lost: map[string]bool{}, made: map[string]string{}}
	for _, it := range options.Lost {
		proxy.lost[it] = true
	}
	return proxy, nil
}

// Close closes the connection to the upstream.
func (proxy *Proxy) Close() error {
	proxy.kept.Close()
	return proxy.behind.Close()
}

// Opened is called once there is a core, over a plugin that was made by this, and before it is served.
func (proxy *Proxy) Opened(ctx context.Context, core *serving.Core, maker plugin.Maker) error {
	if !maker.IsController {
		return nil
	}
	listed, err := readNodes(maker.Name)
	if err != nil {
		return err
	}
	if err := core.Look(ctx, func(view serving.View) {
		proxy.nodes = listed
		proxy.readMade(view)
	}); err != nil {
		return err
	}
	proxy.taken.of(core, listed.taken)
	return proxy.letGoOfLost(ctx, core)
}

// A Server is what serves one door of a driver.
type server struct {
	proxy   *Proxy
	backend *driver.Backend
	program string
	log     io.Writer
}

// Server makes a server that passes all calls on to the upstream, those of the eight once the plugin allows them.
func (proxy *Proxy) Server(backend *driver.Backend, limits *limiting.Limits, program string, more ...grpc.ServerOption) *grpc.Server {
	its := &server{proxy: proxy, backend: backend, program: program, log: os.Stderr}
	options := append(limits.Options(), grpc.MaxHeaderListSize(maxMetadata), grpc.StreamInterceptor(limits.InterceptStream))
	options = append(options, passing.Options(proxy.kept.Handle(its.handle))...)
	return grpc.NewServer(append(options, more...)...)
}

// errPath refuses a path that an upstream may take for another one than it seems to be here.
var errPath = status.Error(codes.Unimplemented, "no path of a call, /SERVICE/METHOD: one of the eight would pass by the plugin")

// isPath says whether a path is that of a call as gRPC writes it. Some servers take one without its first slash for the same call, or read it as a URI.
// So may one with an empty segment, or with one that goes up.
func isPath(method string) bool {
	if !strings.HasPrefix(method, "/") || strings.ContainsAny(method, "?#%;") {
		return false
	}
	for _, segment := range strings.Split(method[1:], "/") {
		if segment == "" || segment == "." || segment == ".." {
			return false
		}
	}
	return true
}

// handle answers a call of any method. A panic ends the call alone; what it panicked of isn't told, since it may show what is private.
func (server *server) handle(_ any, stream grpc.ServerStream) (err error) {
	method, _ := grpc.MethodFromServerStream(stream)
	defer func() {
		if why := recover(); why != nil {
			fmt.Fprintf(server.log, "%s: a panic (%T) in %s\n%s", server.program, why, method, debug.Stack())
			err = status.Error(codes.Internal, "panic")
		}
	}()
	switch {
	case !isPath(method):
		return errPath
	case isNumbered(method):
		return server.guard(method, stream)
	case strings.HasPrefix(method, "/csi.v0."):
		return status.Error(codes.Unimplemented, "csi.v0: its calls would pass by the plugin")
	}
	if answer := server.own(method); answer != nil {
		return server.unary(stream, answer)
	}
	return passing.Through(server.proxy.behind, method, stream)
}

// unary reads the request of a call that has one, and gives its response.
func (server *server) unary(stream grpc.ServerStream, answer func(context.Context, []byte) (passing.Response, error)) error {
	var request []byte
	if err := stream.RecvMsg(&request); err != nil {
		if err == io.EOF {
			return status.Error(codes.Internal, "a call without a request")
		}
		return err
	}
	response, err := answer(stream.Context(), request)
	if failure, is := err.(*passing.Failure); is {
		stream.SetTrailer(failure.Trailer)
		if len(failure.Header) > 0 {
			stream.SetHeader(failure.Header)
		}
		return failure.Err
	}
	stream.SetTrailer(response.Trailer)
	if err != nil {
		return err
	}
	if len(response.Header) > 0 {
		if err := stream.SendHeader(response.Header); err != nil {
			return err
		}
	}
	return stream.SendMsg(&response.Message)
}
