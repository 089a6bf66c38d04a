package driver

import (
	"bytes"
	"encoding/json"
	"path/filepath"
	"strings"
	"testing"

	"go.uber.org/zap"
	"go.uber.org/zap/zapcore"
	"google.golang.org/grpc"
	"google.golang.org/grpc/metadata"

	"tufayon/service/limiting"
	"tufayon/service/tracing"
	"tufayon/service/wire"
)

// Each numbered call has one line, with what is needed to find it, and with nothing private; a name with a newline stays in its line.
func TestLogging(t *testing.T) {
	var output bytes.Buffer
	encoding := zapcore.EncoderConfig{MessageKey: "msg", EncodeDuration: zapcore.SecondsDurationEncoder}
	log := zap.New(zapcore.NewCore(zapcore.NewJSONEncoder(encoding), zapcore.AddSync(&output), zap.InfoLevel))
	box := newBox(t)
	box.backend.Serve(box.core)
	server := NewServer(box.backend, limiting.New(), "a test", grpc.ChainUnaryInterceptor(Logging(log)))
	RegisterController(server, box.backend, box.told)
	RegisterIdentity(server, box.backend, "a.example", "1.2.3")
	socket := filepath.Join(t.TempDir(), "d", "s")
	listener, err := Listen(socket)
	if err != nil {
		t.Fatal(err)
	}
	go server.Serve(listener)
	client, err := grpc.Dial("unix://"+socket, grpc.WithInsecure())
	if err != nil {
		t.Fatal(err)
	}
	defer client.Close()
	const trace = "00-4bf92f3577b34da6a3ce929d0e0e4736-00f067aa0ba902b7-01"
	ctx := metadata.AppendToOutgoingContext(by("3.7"), tracing.Key, trace)
	wire.NewControllerClient(client).CreateVolume(ctx, &wire.CreateVolumeRequest{
		Name: "a\nb", VolumeCapabilities: []*wire.VolumeCapability{blockHow}, Secrets: map[string]string{"key": "hunter2"}, Parameters: map[string]string{"pool": "private"},
		CapacityRange: &wire.CapacityRange{RequiredBytes: 10},
	})
	wire.NewControllerClient(client).DeleteVolume(by("x"), &wire.DeleteVolumeRequest{VolumeId: "7", Secrets: map[string]string{"key": "hunter2"}})
	wire.NewIdentityClient(client).Probe(ctx, &wire.ProbeRequest{})
	server.GracefulStop()
	lines := strings.Split(strings.TrimSuffix(output.String(), "\n"), "\n")
	if len(lines) != 2 || strings.Contains(output.String(), "hunter2") || strings.Contains(output.String(), "private") {
		t.Fatalf("it is %s", output.String())
	}
	var first struct{ Msg, Kind, Volume, Number, Trace, Status string }
	if err := json.Unmarshal([]byte(lines[0]), &first); err != nil || first.Kind != "CreateVolume" || first.Volume != "a\nb" || first.Number != "3.7" || first.Trace != trace {
		t.Errorf("%+v, %v", first, err)
	}
	var second struct{ Volume, Number, Status, Detail string }
	if err := json.Unmarshal([]byte(lines[1]), &second); err != nil || second.Volume != "7" || second.Number != "x" || second.Status == "OK" || second.Detail == "" {
		t.Errorf("%+v, %v", second, err)
	}
}
