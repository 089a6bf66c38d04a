// Package upstreamtest is a CSI driver for tests of what stands before one. It is careless: it attaches a volume wherever it is told to, and only notes
// where that is wrong. It keeps what it was told, byte for byte, gives each response a field that no proto of this project has, and is slow, fails and
// dies as a test says. As CSI has drivers do, it does one thing at a time of a volume, in the order in which it was told.
package upstreamtest

import (
	"context"
	"fmt"
	"net"
	"os"
	"sort"
	"strings"
	"sync"
	"testing"
	"time"

	"github.com/golang/protobuf/proto"
	"google.golang.org/grpc"
	"google.golang.org/grpc/backoff"
	"google.golang.org/grpc/codes"
	"google.golang.org/grpc/metadata"
	"google.golang.org/grpc/status"

	"tufayon/service/passing"
	"tufayon/service/wire"
)

// A Fault says what goes wrong with a call, in this order.
type Fault struct {
	Before time.Duration // it waits before it does anything
	Refuse error         // it does nothing, and refuses
	Die    bool          // it is gone, with all calls that are under way
	After  time.Duration // it is done, and waits before it answers
	Fail   error         // it is done, and says that it failed
}

// A Told is a call that came.
type Told struct {
	Method   string
	Request  []byte
	Response []byte // nil until there is one
	Header   metadata.MD
	Deadline time.Time // none where it is zero
}

// Unread stands before the name of a call that is to be the same here, and that a driver before this one doesn't know.
const Unread = "/unread"

// An Upstream is the driver. What it has outlives its deaths.
type Upstream struct {
	testing  testing.TB
	socket   string
	Fault    func(method string) Fault // nil for none; Set sets it while calls are under way
	Lists    bool                      // it has LIST_VOLUMES, ..
	HasNodes bool                      // .. LIST_VOLUMES_PUBLISHED_NODES, and GET_VOLUME
	ID       func(name string) string  // of a volume that is made; nil for one of its own each time
	Work     func()                    // what each deed takes besides; nil for nothing
	Forgets  bool                      // it doesn't keep what it was told

	mutex   sync.Mutex
	server  *grpc.Server
	life    int // how often it was started, or died
	under   int // calls that are under way
	told    []*Told
	by      map[string][]*Told // by the requests' bytes
	queues  map[string]chan struct{}
	volumes map[string]*Volume // by their ids
	wrong   []string
	made    int
}

// A Volume is what it has of one.
type Volume struct {
	Name     string
	Attached map[string]wire.VolumeCapability_AccessMode_Mode // by the node's id
	Staged   map[string]bool                                  // by the path
	At       map[string]bool                                  // by the target
}

// Start starts one at a socket. It ends with the test.
func Start(t testing.TB, socket string) *Upstream {
	upstream := &Upstream{testing: t, socket: socket, by: map[string][]*Told{}, queues: map[string]chan struct{}{}, volumes: map[string]*Volume{}}
	upstream.Restart()
	t.Cleanup(upstream.Die)
	return upstream
}

// Restart starts it again, once it died.
func (upstream *Upstream) Restart() {
	upstream.testing.Helper()
	os.Remove(upstream.socket)
	listener, err := net.Listen("unix", upstream.socket)
	if err != nil {
		upstream.testing.Error(err)
		return
	}
	listener.(*net.UnixListener).SetUnlinkOnClose(false) // it may be closed once the next life has the socket
	server := grpc.NewServer(passing.Options(upstream.handle)...)
	upstream.mutex.Lock()
	upstream.server = server
	upstream.life++
	upstream.mutex.Unlock()
	go server.Serve(listener)
}

// Die has it gone at once: what it hasn't done by now it never does.
func (upstream *Upstream) Die() {
	if server := upstream.ended(); server != nil { // it never was, where its socket's path is too long
		server.Stop()
	}
}

// ended gives the server of the life that is over now.
func (upstream *Upstream) ended() *grpc.Server {
	upstream.mutex.Lock()
	defer upstream.mutex.Unlock()
	upstream.life++
	return upstream.server
}

// Set sets what goes wrong from now on.
func (upstream *Upstream) Set(fault func(method string) Fault) {
	upstream.mutex.Lock()
	defer upstream.mutex.Unlock()
	upstream.Fault = fault
}

// Rest waits until no call is under way.
func (upstream *Upstream) Rest() {
	for {
		upstream.mutex.Lock()
		rests := upstream.under == 0
		upstream.mutex.Unlock()
		if rests {
			return
		}
		time.Sleep(time.Millisecond)
	}
}

// Told gives the calls of a method that came, in order.
func (upstream *Upstream) Told(method string) []Told {
	upstream.mutex.Lock()
	defer upstream.mutex.Unlock()
	var told []Told
	for _, it := range upstream.told {
		if it.Method == method {
			told = append(told, *it)
		}
	}
	return told
}

// Responses gives the responses to all requests that are these bytes.
func (upstream *Upstream) Responses(request []byte) [][]byte {
	upstream.mutex.Lock()
	defer upstream.mutex.Unlock()
	var responses [][]byte
	for _, it := range upstream.by[string(request)] {
		if it.Response != nil {
			responses = append(responses, it.Response)
		}
	}
	return responses
}

// Wrong says what it was told that must not be.
func (upstream *Upstream) Wrong() []string {
	upstream.mutex.Lock()
	defer upstream.mutex.Unlock()
	return append([]string(nil), upstream.wrong...)
}

// Attached gives the nodes at which each volume is attached.
func (upstream *Upstream) Attached() map[string][]string {
	upstream.mutex.Lock()
	defer upstream.mutex.Unlock()
	attached := map[string][]string{}
	for id, it := range upstream.volumes {
		nodes := []string{}
		for node := range it.Attached {
			nodes = append(nodes, node)
		}
		sort.Strings(nodes)
		attached[id] = nodes
	}
	return attached
}

// Has has it have a volume that was made before.
func (upstream *Upstream) Has(id, name string) *Volume {
	upstream.mutex.Lock()
	defer upstream.mutex.Unlock()
	return upstream.has(id, name)
}

// Forget has it lose a volume.
func (upstream *Upstream) Forget(id string) {
	upstream.mutex.Lock()
	defer upstream.mutex.Unlock()
	delete(upstream.volumes, id)
}

func (upstream *Upstream) has(id, name string) *Volume {
	it := &Volume{Name: name, Attached: map[string]wire.VolumeCapability_AccessMode_Mode{}, Staged: map[string]bool{}, At: map[string]bool{}}
	upstream.volumes[id] = it
	return it
}

// handle answers any call.
func (upstream *Upstream) handle(_ any, stream grpc.ServerStream) error {
	method, _ := grpc.MethodFromServerStream(stream)
	if method == "/test.Streams/Echo" {
		return echo(stream)
	}
	var request []byte
	if err := stream.RecvMsg(&request); err != nil {
		return err
	}
	header, _ := metadata.FromIncomingContext(stream.Context())
	deadline, _ := stream.Context().Deadline()
	told := &Told{Method: method, Request: request, Header: header, Deadline: deadline}
	upstream.mutex.Lock()
	if !upstream.Forgets {
		upstream.told = append(upstream.told, told)
		upstream.by[string(request)] = append(upstream.by[string(request)], told)
	}
	life := upstream.life
	upstream.under++
	upstream.mutex.Unlock()
	defer func() {
		upstream.mutex.Lock()
		defer upstream.mutex.Unlock()
		upstream.under--
	}()
	stream.SetHeader(metadata.Pairs("upstream-header", method))
	stream.SetTrailer(metadata.Pairs("upstream-trailer", method))
	response, err := upstream.answer(method, request, life)
	if err != nil {
		return err
	}
	upstream.mutex.Lock()
	told.Response = response
	upstream.mutex.Unlock()
	return stream.SendMsg(&response)
}

// echo gives each message back, with its metadata, until they end.
func echo(stream grpc.ServerStream) error {
	header, _ := metadata.FromIncomingContext(stream.Context())
	stream.SetHeader(metadata.Pairs("echo", fmt.Sprint(header.Get("tell"))))
	for count := 0; ; count++ {
		var message []byte
		if err := stream.RecvMsg(&message); err != nil {
			stream.SetTrailer(metadata.Pairs("count", fmt.Sprint(count)))
			return status.Error(codes.DataLoss, "the end")
		}
		if err := stream.SendMsg(&message); err != nil {
			return err
		}
	}
}

// Unknown is a field that no proto has, as it stands in each response: its number is 1000.
func Unknown(text string) []byte {
	return append(proto.EncodeVarint(1000<<3|2), append(proto.EncodeVarint(uint64(len(text))), text...)...)
}

// errDead is what is left of a call whose upstream died.
var errDead = status.Error(codes.Unavailable, "it died")

// queue waits until what came before for a volume is done.
func (upstream *Upstream) queue(of string) func() {
	upstream.mutex.Lock()
	queue, there := upstream.queues[of]
	if !there {
		queue = make(chan struct{}, 1)
		upstream.queues[of] = queue
	}
	upstream.mutex.Unlock()
	queue <- struct{}{}
	return func() { <-queue }
}

func (upstream *Upstream) faultOf(method string) Fault {
	upstream.mutex.Lock()
	faulty := upstream.Fault
	upstream.mutex.Unlock()
	if faulty == nil {
		return Fault{}
	}
	return faulty(method)
}

func (upstream *Upstream) answer(method string, request []byte, life int) ([]byte, error) {
	deed, of, err := upstream.deed(strings.TrimPrefix(method, Unread), request)
	if err != nil {
		return nil, err
	}
	defer upstream.queue(of)()
	fault := upstream.faultOf(method)
	time.Sleep(fault.Before)
	if upstream.Work != nil {
		upstream.Work()
	}
	if fault.Refuse != nil {
		return nil, fault.Refuse
	}
	if fault.Die {
		go upstream.ended().Stop() // which waits for this call
		return nil, errDead
	}
	upstream.mutex.Lock()
	if upstream.life != life {
		upstream.mutex.Unlock()
		return nil, errDead
	}
	response, err := deed()
	upstream.made++
	unknown := Unknown(fmt.Sprint(upstream.made))
	upstream.mutex.Unlock()
	if err != nil {
		return nil, err
	}
	time.Sleep(fault.After)
	if fault.Fail != nil {
		return nil, fault.Fail
	}
	message, err := proto.Marshal(response)
	return append(message, unknown...), err
}

// Dial connects to a socket, as a platform does.
func Dial(t testing.TB, socket string, options ...grpc.DialOption) *grpc.ClientConn {
	t.Helper()
	again := grpc.ConnectParams{
		Backoff: backoff.Config{BaseDelay: 10 * time.Millisecond, Multiplier: 1, MaxDelay: 10 * time.Millisecond}, MinConnectTimeout: 5 * time.Second,
	}
	connection, err := grpc.Dial("unix://"+socket, append(options, grpc.WithInsecure(), grpc.WithNoProxy(), grpc.WithConnectParams(again))...)
	if err != nil {
		t.Fatal(err)
	}
	t.Cleanup(func() { connection.Close() })
	return connection
}

// Call makes a call with a message, and an unknown field behind it. It gives the request's and the response's bytes.
func Call(
	ctx context.Context, at *grpc.ClientConn, method string, message proto.Message, unknown string, options ...grpc.CallOption,
) (request []byte, response passing.Response, err error) {
	request, err = proto.Marshal(message)
	if err != nil {
		return nil, passing.Response{}, err
	}
	request = append(request, Unknown(unknown)...)
	response, err = passing.Call(ctx, at, method, request, options...)
	if failure, is := err.(*passing.Failure); is {
		response.Header, response.Trailer = failure.Header, failure.Trailer
	}
	return request, response, err
}
