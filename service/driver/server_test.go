package driver

import (
	"bytes"
	"context"
	"errors"
	"path/filepath"
	"strings"
	"testing"

	"google.golang.org/grpc"
	"google.golang.org/grpc/codes"
	"google.golang.org/grpc/health/grpc_health_v1"
	"google.golang.org/grpc/metadata"
	"google.golang.org/grpc/status"

	"tufayon/service/frames"
	"tufayon/service/hooks"
	"tufayon/service/limiting"
	"tufayon/service/numbers"
	"tufayon/service/wire"
)

// While there is no core, and once it is done, Probe and health say so, and what needs it is 14; the rest is answered.
func TestReady(t *testing.T) {
	box := newBox(t)
	controller, node := wire.NewControllerClient(box.client), wire.NewNodeClient(box.client)
	wantsNone := func() {
		t.Helper()
		if probe, health := box.isReady(); probe || health != grpc_health_v1.HealthCheckResponse_NOT_SERVING {
			t.Errorf("ready: %v, %v", probe, health)
		}
		_, err := controller.DeleteVolume(by("1.1"), &wire.DeleteVolumeRequest{VolumeId: "1"})
		box.wants(err, codes.Unavailable, "not ready")
		_, err = controller.DeleteVolume(context.Background(), &wire.DeleteVolumeRequest{VolumeId: "x"})
		box.wants(err, codes.Unavailable, "not ready")
		_, err = controller.ValidateVolumeCapabilities(context.Background(), &wire.ValidateVolumeCapabilitiesRequest{
			VolumeId: "1", VolumeCapabilities: []*wire.VolumeCapability{blockHow},
		})
		box.wants(err, codes.Unavailable, "not ready")
		if info, err := node.NodeGetInfo(context.Background(), &wire.NodeGetInfoRequest{}); err != nil || info.GetNodeId() != "n1" {
			t.Errorf("NodeGetInfo: %v, %v", info, err)
		}
	}
	wantsNone()
	box.backend.Serve(box.core)
	if probe, health := box.isReady(); !probe || health != grpc_health_v1.HealthCheckResponse_SERVING {
		t.Errorf("ready: %v, %v", probe, health)
	}
	_, err := controller.DeleteVolume(by("1.1"), &wire.DeleteVolumeRequest{VolumeId: "1"})
	box.wants(err, codes.OK, "")
	box.backend.Stop()
	wantsNone()
	info, err := wire.NewIdentityClient(box.client).GetPluginInfo(context.Background(), &wire.GetPluginInfoRequest{})
	if err != nil || info.GetName() != "a.example" || info.GetVendorVersion() != "1.2.3" {
		t.Errorf("GetPluginInfo: %v, %v", info, err)
	}
}

// Of a connection above the limit neither calls are served nor streams.
func TestAbove(t *testing.T) {
	limits := &limiting.Limits{Connections: 1, Streams: 8}
	server := NewServer(NewBackend(), limits, "a test")
	socket := filepath.Join(t.TempDir(), "d", "s")
	listener, err := Listen(socket)
	if err != nil {
		t.Fatal(err)
	}
	go server.Serve(limits.Listen(listener))
	t.Cleanup(server.Stop)
	for _, want := range []codes.Code{codes.OK, codes.ResourceExhausted} {
		connection, err := grpc.Dial("unix://"+socket, grpc.WithInsecure())
		if err != nil {
			t.Fatal(err)
		}
		t.Cleanup(func() { connection.Close() })
		client := grpc_health_v1.NewHealthClient(connection)
		if _, err := client.Check(context.Background(), &grpc_health_v1.HealthCheckRequest{}); status.Code(err) != want {
			t.Errorf("a call: %v, not %v", err, want)
		}
		stream, err := client.Watch(context.Background(), &grpc_health_v1.HealthCheckRequest{})
		if err == nil {
			_, err = stream.Recv()
		}
		if status.Code(err) != want {
			t.Errorf("a stream: %v, not %v", err, want)
		}
	}
}

// A core that is done is served no more.
func TestDone(t *testing.T) {
	backend := NewBackend()
	served := &core{done: make(chan struct{})}
	backend.Serve(served)
	close(served.done)
	for {
		if _, err := backend.core(); err != nil {
			break
		}
	}
}

// A call that panics is 13, and the next one is served; nothing private is told.
func TestPanic(t *testing.T) {
	var log bytes.Buffer
	info := &grpc.UnaryServerInfo{FullMethod: "/csi.v1.Controller/DeleteVolume"}
	_, err := recovering(&log, "csi-driver")(context.Background(), nil, info, func(context.Context, any) (any, error) {
		panic("s3cret")
	})
	if status.Code(err) != codes.Internal || status.Convert(err).Message() != "panic" {
		t.Errorf("it ends by %v", err)
	}
	const line = "csi-driver: a panic (string) in /csi.v1.Controller/DeleteVolume\n"
	if said := log.String(); !strings.HasPrefix(said, line) || strings.Contains(said, "s3cret") {
		t.Errorf("the log has %s", said)
	}
}

// A message that is longer than any call needs is refused, as is metadata.
func TestSizes(t *testing.T) {
	box := newBox(t)
	box.backend.Serve(box.core)
	client := wire.NewControllerClient(box.client)
	_, err := client.CreateVolume(by("1.1"), &wire.CreateVolumeRequest{Name: strings.Repeat("x", maxMessage)})
	if status.Code(err) != codes.ResourceExhausted {
		t.Errorf("a long message: %v", err)
	}
	_, err = client.DeleteVolume(metadata.AppendToOutgoingContext(by("1.1"), "x", strings.Repeat("x", maxMetadata)), &wire.DeleteVolumeRequest{VolumeId: "1"})
	if err == nil {
		t.Error("long metadata is taken")
	}
	most := strings.Repeat("x", hooks.MaxMap-1)
	request := &wire.CreateVolumeRequest{Name: strings.Repeat("x", 128), Parameters: map[string]string{"k": most}, Secrets: map[string]string{"k": most}}
	for count := 0; count < 8; count++ {
		mount := &wire.VolumeCapability_MountVolume{FsType: strings.Repeat("x", 128), MountFlags: []string{most}}
		request.VolumeCapabilities = append(request.VolumeCapabilities, &wire.VolumeCapability{
			AccessType: &wire.VolumeCapability_Mount{Mount: mount}, AccessMode: blockHow.AccessMode,
		})
	}
	box.row(attached)
	_, err = client.CreateVolume(by("1.1"), request)
	box.wants(err, codes.OK, "")
	request.Secrets["k"] += "xx"
	_, err = client.CreateVolume(by("1.1"), request)
	box.wants(err, codes.InvalidArgument, "secrets")
}

// The plugin's own replies are marked by a trailer, refusals of its own too, and no others.
func TestTrailer(t *testing.T) {
	box := newBox(t)
	box.backend.Serve(box.core)
	client := wire.NewControllerClient(box.client)
	wantsTrailer := func(number, id string, code codes.Code, want string) {
		t.Helper()
		var trailer metadata.MD
		_, err := client.DeleteVolume(by(number), &wire.DeleteVolumeRequest{VolumeId: id}, grpc.Trailer(&trailer))
		if status.Code(err) != code || strings.Join(trailer.Get(numbers.ReplyKey), " ") != want {
			t.Errorf("%v, with the trailer %v", err, trailer)
		}
	}
	wantsTrailer("3.4", "1", codes.OK, "3.4")
	wantsTrailer("3", "1", codes.FailedPrecondition, "")
	wantsTrailer("3.5", "", codes.InvalidArgument, "")
	wantsTrailer("3.5", "x", codes.OK, "")
	box.core.reply = &frames.Reply{Number: frames.Number{Session: 3, Call: 6}, Kind: frames.DeleteVolumeKind, Status: 10, Detail: "stale"}
	wantsTrailer("3.6", "1", codes.Aborted, "3.6")
	box.core.reply = nil
	box.row(attached)
	box.told.fault = errors.New("the disk burns")
	wantsTrailer("3.7", "1", codes.Unavailable, "")
}
