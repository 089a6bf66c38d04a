package metrics

import (
	"context"
	"errors"
	"io"
	"testing"

	"google.golang.org/grpc"
	"google.golang.org/grpc/codes"
	"google.golang.org/grpc/health"
	"google.golang.org/grpc/health/grpc_health_v1"
	"google.golang.org/grpc/status"
)

// streamed is a stream of two messages that came, to which any may be sent but one.
type streamed struct {
	grpc.ServerStream
	left int
}

func (it *streamed) RecvMsg(any) error {
	if it.left--; it.left < 0 {
		return io.EOF
	}
	return nil
}

func (it *streamed) SendMsg(message any) error {
	if message == nil {
		return errors.New("it is gone")
	}
	return nil
}

// Calls of a server are counted, unary ones and streams, by what came of them, and their messages; methods are told before they are called.
func TestServer(t *testing.T) {
	made := NewOrchestrator()
	server := grpc.NewServer()
	grpc_health_v1.RegisterHealthServer(server, health.NewServer())
	made.Server.InitializeMetrics(server)
	for _, err := range []error{nil, nil, status.Error(codes.NotFound, "NoSuchVolume")} {
		_, got := made.Server.Unary(ctx, "asked", &grpc.UnaryServerInfo{FullMethod: "/a.B/Get"}, func(context.Context, any) (any, error) { return "answered", err })
		if got != err {
			t.Errorf("%v, not %v", got, err)
		}
	}
	info := &grpc.StreamServerInfo{FullMethod: "/a.B/Watch", IsServerStream: true}
	err := made.Server.Stream(nil, &streamed{left: 2}, info, func(_ any, stream grpc.ServerStream) error {
		for stream.RecvMsg(nil) == nil {
		}
		stream.SendMsg("one")
		return stream.SendMsg(nil)
	})
	if status.Code(err) != codes.Unknown {
		t.Error(err)
	}
	wants(t, scraped(t, made.Handler()),
		`grpc_server_started_total{grpc_method="Get",grpc_service="a.B",grpc_type="unary"} 3`,
		`grpc_server_handled_total{grpc_code="OK",grpc_method="Get",grpc_service="a.B",grpc_type="unary"} 2`,
		`grpc_server_handled_total{grpc_code="NotFound",grpc_method="Get",grpc_service="a.B",grpc_type="unary"} 1`,
		`grpc_server_msg_received_total{grpc_method="Get",grpc_service="a.B",grpc_type="unary"} 3`,
		`grpc_server_msg_sent_total{grpc_method="Get",grpc_service="a.B",grpc_type="unary"} 2`,
		`grpc_server_started_total{grpc_method="Watch",grpc_service="a.B",grpc_type="server_stream"} 1`,
		`grpc_server_handled_total{grpc_code="Unknown",grpc_method="Watch",grpc_service="a.B",grpc_type="server_stream"} 1`,
		`grpc_server_msg_received_total{grpc_method="Watch",grpc_service="a.B",grpc_type="server_stream"} 2`,
		`grpc_server_msg_sent_total{grpc_method="Watch",grpc_service="a.B",grpc_type="server_stream"} 1`,
		`grpc_server_started_total{grpc_method="Check",grpc_service="grpc.health.v1.Health",grpc_type="unary"} 0`,
		`grpc_server_started_total{grpc_method="Watch",grpc_service="grpc.health.v1.Health",grpc_type="server_stream"} 0`,
	)
}
