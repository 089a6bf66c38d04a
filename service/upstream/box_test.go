package upstream_test

import (
	"bytes"
	"context"
	"fmt"
	"net"
	"os/exec"
	"path/filepath"
	"reflect"
	"testing"
	"time"

	"github.com/golang/protobuf/proto"
	"google.golang.org/grpc"
	"google.golang.org/grpc/codes"
	"google.golang.org/grpc/metadata"
	"google.golang.org/grpc/status"

	"tufayon/service/driver"
	"tufayon/service/etcd"
	"tufayon/service/life"
	"tufayon/service/numbers"
	"tufayon/service/passing"
	"tufayon/service/plugin"
	"tufayon/service/store"
	"tufayon/service/upstream"
	"tufayon/service/upstream/upstreamtest"
	"tufayon/service/wire"
)

const (
	createCall = "/csi.v1.Controller/CreateVolume"
	deleteCall = "/csi.v1.Controller/DeleteVolume"
	attachCall = "/csi.v1.Controller/ControllerPublishVolume"
	detachCall = "/csi.v1.Controller/ControllerUnpublishVolume"
	within     = 60 * time.Second // what should come soon, on a machine that is busy
)

// noNodes is a configuration that lists none.
const noNodes = `{"greatest":1099511627776,"nodes":[]}`

// A box has an upstream, and a driver before it.
type box struct {
	testing.TB
	folder   string
	behind   *upstreamtest.Upstream
	options  upstream.Options
	metadata bool   // numbers come as metadata
	config   string // of a controller
	etcd     string // where its store is, if it isn't a file
	socket   string // the driver's, if it isn't the usual one
	client   *grpc.ClientConn
	end      func() // the driver
	sockets  map[*exec.Cmd]string
	count    int                         // of calls, each of which has a field of its own
	watch    grpc.UnaryServerInterceptor // of the eight; nil for nobody
}

func newBox(t testing.TB, options upstream.Options) *box {
	t.Helper()
	box := &box{TB: t, folder: t.TempDir(), options: options, config: noNodes, end: func() {}}
	box.behind = upstreamtest.Start(t, filepath.Join(box.folder, "upstream.sock"))
	box.options.Address = "unix://" + filepath.Join(box.folder, "upstream.sock")
	t.Cleanup(func() { box.end() })
	return box
}

// driver is what the box says of a driver.
func (box *box) driver() (life.Driver, error) {
	proxy, err := upstream.New(box.options)
	if err != nil {
		return life.Driver{}, err
	}
	if box.watch != nil {
		proxy.Watch(box.watch)
	}
	socket := box.socket
	if socket == "" {
		socket = filepath.Join(box.folder, "d", "csi.sock")
	}
	it := life.Driver{
		Program: "csi-driver", Maker: plugin.Maker{IsController: true, Name: []byte(box.config)}, Numbering: life.ByArrival, Upstream: proxy,
		Open: func(ctx context.Context) (store.Store, error) {
			kept, err := store.OpenKeeper(ctx, filepath.Join(box.folder, "ledger.db"))
			if err != nil {
				return nil, err
			}
			return killed(kept), nil
		},
		Doors: []life.Door{{Address: socket, Listen: func() (net.Listener, error) { return driver.Listen(socket) }}},
	}
	if box.options.Node != "" {
		it.Maker, it.Notes = plugin.Maker{Name: []byte(box.options.Node)}, filepath.Join(box.folder, "ledger.db.driver")
	}
	if box.metadata {
		it.Numbering = life.ByMetadata(0)
	}
	if box.etcd != "" {
		it.Waits, it.Open = true, etcd.Config{Endpoints: []string{box.etcd}, Prefix: "/t", LeaseSeconds: 2, Texts: true}.Open
	}
	return it, nil
}

// start starts the driver, and waits until it serves.
func (box *box) start() *box {
	box.Helper()
	it, err := box.driver()
	if err != nil {
		box.Fatal(err)
	}
	ctx, stop := context.WithCancel(context.Background())
	serves, ended := make(chan struct{}), make(chan error, 1)
	it.Say = func(string) { close(serves) }
	go func() { ended <- life.New(it).Run(ctx) }()
	select {
	case <-serves:
	case err := <-ended:
		stop()
		box.Fatalf("it doesn't serve: %v", err)
	}
	box.client = upstreamtest.Dial(box.TB, filepath.Join(box.folder, "d", "csi.sock"))
	box.end = func() {
		box.Helper()
		stop()
		if err := <-ended; err != nil {
			box.Errorf("it ended by %v", err)
		}
		box.end = func() {}
	}
	return box
}

func (box *box) restart() {
	box.Helper()
	box.end()
	box.start()
}

// ask makes a call, whose request has a field of its own.
func (box *box) ask(ctx context.Context, method string, message proto.Message) (passing.Response, error) {
	box.count++
	_, response, err := upstreamtest.Call(ctx, box.client, method, message, fmt.Sprint("call ", box.count))
	return response, err
}

// does makes a call that has to be OK, and whose request and response have to be the upstream's, byte for byte.
func (box *box) does(ctx context.Context, method string, message proto.Message) passing.Response {
	box.Helper()
	box.count++
	request, response, err := upstreamtest.Call(ctx, box.client, method, message, fmt.Sprint("call ", box.count))
	if err != nil {
		box.Fatalf("%s %v: %v", method, message, err)
	}
	isIts := false
	for _, it := range box.behind.Responses(request) {
		isIts = isIts || bytes.Equal(it, response.Message)
	}
	if !isIts {
		box.Errorf("%s %v: the upstream gave no such response: %x", method, message, response.Message)
	}
	return response
}

// refuses makes a call that has to be refused, of which the upstream doesn't hear.
func (box *box) refuses(ctx context.Context, code codes.Code, text, method string, message proto.Message) {
	box.Helper()
	before := len(box.behind.Told(method))
	_, err := box.ask(ctx, method, message)
	box.wants(err, code, text)
	if after := len(box.behind.Told(method)); after != before {
		box.Errorf("%s %v: the upstream heard of it", method, message)
	}
}

func (box *box) wants(err error, code codes.Code, text string) {
	box.Helper()
	if status.Code(err) != code || status.Convert(err).Message() != text {
		box.Errorf("%v, not %v %q", err, code, text)
	}
}

// attached compares what is attached at the upstream.
func (box *box) attached(id string, nodes ...string) {
	box.Helper()
	if found := box.behind.Attached()[id]; len(found)+len(nodes) > 0 && !reflect.DeepEqual(found, nodes) {
		box.Errorf("%q is attached at %q, not %q", id, found, nodes)
	}
	if wrong := box.behind.Wrong(); len(wrong) > 0 {
		box.Errorf("the upstream was told what must not be: %q", wrong)
	}
}

func in(mode wire.VolumeCapability_AccessMode_Mode) *wire.VolumeCapability {
	return &wire.VolumeCapability{
		AccessType: &wire.VolumeCapability_Mount{Mount: &wire.VolumeCapability_MountVolume{FsType: "ext4", MountFlags: []string{"noatime"}, VolumeMountGroup: "7"}},
		AccessMode: &wire.VolumeCapability_AccessMode{Mode: mode},
	}
}

const (
	writer  = wire.VolumeCapability_AccessMode_SINGLE_NODE_WRITER
	writers = wire.VolumeCapability_AccessMode_MULTI_NODE_MULTI_WRITER
)

var snapshot = &wire.VolumeContentSource_Snapshot{Snapshot: &wire.VolumeContentSource_SnapshotSource{SnapshotId: "s"}}

func creates(name string, modes ...wire.VolumeCapability_AccessMode_Mode) *wire.CreateVolumeRequest {
	request := &wire.CreateVolumeRequest{
		Name: name, CapacityRange: &wire.CapacityRange{RequiredBytes: 10}, Parameters: map[string]string{"type": "fast"}, Secrets: map[string]string{"key": "k"},
		VolumeContentSource:       &wire.VolumeContentSource{Type: snapshot},
		AccessibilityRequirements: &wire.TopologyRequirement{Preferred: []*wire.Topology{{Segments: map[string]string{"zone": "z1"}}}},
	}
	if len(modes) == 0 {
		modes = append(modes, writer)
	}
	for _, it := range modes {
		request.VolumeCapabilities = append(request.VolumeCapabilities, in(it))
	}
	return request
}

// made has the upstream make a volume, and gives its id.
func (box *box) made(ctx context.Context, name string, modes ...wire.VolumeCapability_AccessMode_Mode) string {
	box.Helper()
	var response wire.CreateVolumeResponse
	if err := proto.Unmarshal(box.does(ctx, createCall, creates(name, modes...)).Message, &response); err != nil {
		box.Fatal(err)
	}
	return response.GetVolume().GetVolumeId()
}

func attaches(id, node string, mode wire.VolumeCapability_AccessMode_Mode) *wire.ControllerPublishVolumeRequest {
	return &wire.ControllerPublishVolumeRequest{VolumeId: id, NodeId: node, VolumeCapability: in(mode), Secrets: map[string]string{"key": "k"},
		VolumeContext: map[string]string{"of": "upstream"}}
}

func detaches(id, node string) *wire.ControllerUnpublishVolumeRequest {
	return &wire.ControllerUnpublishVolumeRequest{VolumeId: id, NodeId: node}
}

func deletes(id string) *wire.DeleteVolumeRequest { return &wire.DeleteVolumeRequest{VolumeId: id} }

func soon(t *testing.T) context.Context {
	ctx, cancel := context.WithTimeout(context.Background(), within)
	t.Cleanup(cancel)
	return ctx
}

func numbered(ctx context.Context, number string) context.Context {
	return metadata.AppendToOutgoingContext(ctx, numbers.Key, number)
}
