// Package carryingtest has CSI plugins for tests: they serve over gRPC, and say OK unless they are told otherwise.
package carryingtest

import (
	"context"
	"fmt"
	"net"
	"os"
	"os/exec"
	"strconv"
	"strings"
	"sync"
	"testing"

	"google.golang.org/grpc"
	"google.golang.org/grpc/credentials"
	"google.golang.org/grpc/health"
	"google.golang.org/grpc/health/grpc_health_v1"
	"google.golang.org/grpc/metadata"
	"google.golang.org/grpc/status"

	told "tufayon/service/api/wire"
	"tufayon/service/carrying"
	"tufayon/service/frames"
	"tufayon/service/numbers"
	"tufayon/service/wire"
)

// A Plugin is a controller and a node.
type Plugin struct {
	Node string // its id, as it tells it
	// Judge is asked about each numbered call, by CSI's name of it. Its error is the plugin's own reply if it has a trailer: it says whether it does.
	Judge func(ctx context.Context, call string) (err error, isReply bool)
	// Silent sets no trailer with an OK.
	Silent bool
	// Troubles are what it says that isn't as its record has it, one after another: nil of one that says nothing of that. By "volume N isn't mounted" it
	// says so of that volume.
	Troubles chan string
	Confirms func(heard frames.Number) error // asked for with each of these, where it isn't nil
	Forgets  bool                            // it doesn't keep which calls came

	Address string
	Health  *health.Server

	mutex  sync.Mutex
	last   int
	calls  []string
	server *grpc.Server
}

const proxied = "TUFAYON_TEST_PROXIED" // in the environment of a process that HasProxy started

// HasProxy says whether the environment has a proxy, at which nobody is. Where it has none, the test is run by itself in a process that has one: Go reads
// that once.
func HasProxy(t *testing.T) bool {
	t.Helper()
	if os.Getenv(proxied) != "" {
		return true
	}
	inside := exec.Command("/proc/self/exe", "-test.run", "^"+t.Name()+"$")
	inside.Env = append(os.Environ(), proxied+"=1", "HTTPS_PROXY=http://127.0.0.1:1", "NO_PROXY=a.example")
	if said, err := inside.CombinedOutput(); err != nil {
		t.Errorf("%v: %s", err, said)
	}
	return false
}

// Serve serves at an address, unix://PATH or HOST:PORT, until the test ends or Stop. Known may be nil.
func (plugin *Plugin) Serve(t testing.TB, address string, known credentials.TransportCredentials) *Plugin {
	t.Helper()
	network, place := "tcp", address
	if carrying.IsLocal(address) {
		network, place = "unix", strings.TrimPrefix(address, "unix://")
	}
	listener, err := net.Listen(network, place)
	if err != nil {
		t.Fatal(err)
	}
	plugin.Address = address
	if network == "tcp" {
		plugin.Address = listener.Addr().String()
	}
	options := []grpc.ServerOption{grpc.UnaryInterceptor(plugin.judge)}
	if known != nil {
		options = append(options, grpc.Creds(known))
	}
	plugin.server = grpc.NewServer(options...)
	plugin.Health = health.NewServer()
	grpc_health_v1.RegisterHealthServer(plugin.server, plugin.Health)
	wire.RegisterControllerServer(plugin.server, &controller{plugin: plugin})
	wire.RegisterNodeServer(plugin.server, &node{plugin: plugin})
	if plugin.Troubles != nil {
		told.RegisterPluginServer(plugin.server, &telling{plugin: plugin})
	}
	go plugin.server.Serve(listener)
	t.Cleanup(plugin.Stop)
	return plugin
}

// Stop ends it.
func (plugin *Plugin) Stop() { plugin.server.Stop() }

// Calls are CSI's names of the numbered calls that came, in order.
func (plugin *Plugin) Calls() []string {
	plugin.mutex.Lock()
	defer plugin.mutex.Unlock()
	return append([]string(nil), plugin.calls...)
}

func (plugin *Plugin) judge(ctx context.Context, request any, info *grpc.UnaryServerInfo, handle grpc.UnaryHandler) (any, error) {
	headers, _ := metadata.FromIncomingContext(ctx)
	number := headers.Get(numbers.Key)
	if len(number) != 1 {
		return handle(ctx, request)
	}
	call := info.FullMethod[strings.LastIndex(info.FullMethod, "/")+1:]
	if !plugin.Forgets {
		plugin.mutex.Lock()
		plugin.calls = append(plugin.calls, call)
		plugin.mutex.Unlock()
	}
	var err error
	isReply := !plugin.Silent
	if plugin.Judge != nil {
		if err, isReply = plugin.Judge(ctx, call); err == nil {
			isReply = !plugin.Silent
		}
	}
	if isReply {
		grpc.SetTrailer(ctx, metadata.Pairs(numbers.ReplyKey, number[0]))
	}
	if err != nil {
		return nil, status.Convert(err).Err()
	}
	return handle(ctx, request)
}

type telling struct {
	told.UnimplementedPluginServer
	plugin *Plugin
}

func (it *telling) Troubles(_ *told.TroublesRequest, stream told.Plugin_TroublesServer) error {
	for {
		select {
		case text := <-it.plugin.Troubles:
			response := &told.TroublesResponse{Trouble: text, Asks: it.plugin.Confirms != nil}
			var volume uint64
			if _, err := fmt.Sscanf(text, "volume %d isn't mounted", &volume); err == nil {
				response.Unmounted = []*told.Unmounted{{Volume: volume, Why: "there is no device"}}
			}
			if err := stream.Send(response); err != nil {
				return err
			}
		case <-stream.Context().Done():
			return stream.Context().Err()
		}
	}
}

func (it *telling) Confirm(_ context.Context, request *told.ConfirmRequest) (*told.ConfirmResponse, error) {
	return &told.ConfirmResponse{}, it.plugin.Confirms(frames.Number{Session: request.Heard.Session, Call: request.Heard.Call})
}

type controller struct {
	wire.UnimplementedControllerServer
	plugin *Plugin
}

func (it *controller) CreateVolume(context.Context, *wire.CreateVolumeRequest) (*wire.CreateVolumeResponse, error) {
	it.plugin.mutex.Lock()
	defer it.plugin.mutex.Unlock()
	it.plugin.last++
	return &wire.CreateVolumeResponse{Volume: &wire.Volume{VolumeId: strconv.Itoa(it.plugin.last)}}, nil
}

func (*controller) DeleteVolume(context.Context, *wire.DeleteVolumeRequest) (*wire.DeleteVolumeResponse, error) {
	return &wire.DeleteVolumeResponse{}, nil
}

func (*controller) ControllerPublishVolume(context.Context, *wire.ControllerPublishVolumeRequest) (*wire.ControllerPublishVolumeResponse, error) {
	return &wire.ControllerPublishVolumeResponse{}, nil
}

func (*controller) ControllerUnpublishVolume(context.Context, *wire.ControllerUnpublishVolumeRequest) (*wire.ControllerUnpublishVolumeResponse, error) {
	return &wire.ControllerUnpublishVolumeResponse{}, nil
}

type node struct {
	wire.UnimplementedNodeServer
	plugin *Plugin
}

func (*node) NodeStageVolume(context.Context, *wire.NodeStageVolumeRequest) (*wire.NodeStageVolumeResponse, error) {
	return &wire.NodeStageVolumeResponse{}, nil
}

func (*node) NodeUnstageVolume(context.Context, *wire.NodeUnstageVolumeRequest) (*wire.NodeUnstageVolumeResponse, error) {
	return &wire.NodeUnstageVolumeResponse{}, nil
}

func (*node) NodePublishVolume(context.Context, *wire.NodePublishVolumeRequest) (*wire.NodePublishVolumeResponse, error) {
	return &wire.NodePublishVolumeResponse{}, nil
}

func (*node) NodeUnpublishVolume(context.Context, *wire.NodeUnpublishVolumeRequest) (*wire.NodeUnpublishVolumeResponse, error) {
	return &wire.NodeUnpublishVolumeResponse{}, nil
}

func (it *node) NodeGetInfo(context.Context, *wire.NodeGetInfoRequest) (*wire.NodeGetInfoResponse, error) {
	return &wire.NodeGetInfoResponse{NodeId: it.plugin.Node}, nil
}
