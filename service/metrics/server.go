package metrics

import (
	"context"
	"strings"

	"github.com/prometheus/client_golang/prometheus"
	"google.golang.org/grpc"
	"google.golang.org/grpc/codes"
	"google.golang.org/grpc/status"
)

// A Server has the metrics of a server's calls, under the names by which gRPC's servers in Go have them everywhere. What is counted is looked up once for
// each method.
type Server struct {
	started, handled, received, sent *prometheus.CounterVec
	methods                          bound[method, *methodMeters]
}

// A method is one of a server's: of its path, and unary or of streams.
type method struct {
	path string
	kind string
}

// methodMeters count its calls.
type methodMeters struct {
	started, received, sent prometheus.Counter
	handled                 bound[codes.Code, prometheus.Counter]
}

const (
	unary        = "unary"
	clientStream = "client_stream"
	serverStream = "server_stream"
	bothStream   = "bidi_stream"
)

func newServer() *Server {
	labels := []string{"grpc_type", "grpc_service", "grpc_method"}
	counter := func(name, help string, labels ...string) *prometheus.CounterVec {
		return prometheus.NewCounterVec(prometheus.CounterOpts{Name: "grpc_server_" + name, Help: help}, labels)
	}
	made := &Server{
		started:  counter("started_total", "Calls that began.", labels...),
		handled:  counter("handled_total", "Calls that ended, whatever came of them.", append(labels, "grpc_code")...),
		received: counter("msg_received_total", "Messages that came.", labels...),
		sent:     counter("msg_sent_total", "Messages that were sent.", labels...),
	}
	made.methods.find = made.metersOf
	return made
}

func (made *Server) metersOf(it method) *methodMeters {
	service, name, _ := strings.Cut(strings.TrimPrefix(it.path, "/"), "/")
	meters := &methodMeters{
		started: made.started.WithLabelValues(it.kind, service, name), received: made.received.WithLabelValues(it.kind, service, name),
		sent: made.sent.WithLabelValues(it.kind, service, name),
	}
	meters.handled.find = func(code codes.Code) prometheus.Counter {
		return made.handled.WithLabelValues(it.kind, service, name, code.String())
	}
	return meters
}

// InitializeMetrics has each method of a server be told, before it is called.
func (made *Server) InitializeMetrics(server *grpc.Server) {
	for service, its := range server.GetServiceInfo() {
		for _, it := range its.Methods {
			kind := kindOf(it.IsClientStream, it.IsServerStream)
			made.methods.at(method{"/" + service + "/" + it.Name, kind}).handled.at(codes.OK)
		}
	}
}

func kindOf(isClientStream, isServerStream bool) string {
	switch {
	case isClientStream && isServerStream:
		return bothStream
	case isClientStream:
		return clientStream
	case isServerStream:
		return serverStream
	}
	return unary
}

// Describe describes them.
func (made *Server) Describe(to chan<- *prometheus.Desc) {
	for _, it := range []*prometheus.CounterVec{made.started, made.handled, made.received, made.sent} {
		it.Describe(to)
	}
}

// Collect tells them.
func (made *Server) Collect(to chan<- prometheus.Metric) {
	for _, it := range []*prometheus.CounterVec{made.started, made.handled, made.received, made.sent} {
		it.Collect(to)
	}
}

// Unary counts a call.
func (made *Server) Unary(ctx context.Context, request any, info *grpc.UnaryServerInfo, handle grpc.UnaryHandler) (any, error) {
	meters := made.methods.at(method{info.FullMethod, unary})
	meters.started.Inc()
	meters.received.Inc()
	response, err := handle(ctx, request)
	meters.handled.at(status.Code(err)).Inc()
	if err == nil {
		meters.sent.Inc()
	}
	return response, err
}

// Stream counts a call of streams.
func (made *Server) Stream(server any, stream grpc.ServerStream, info *grpc.StreamServerInfo, handle grpc.StreamHandler) error {
	meters := made.methods.at(method{info.FullMethod, kindOf(info.IsClientStream, info.IsServerStream)})
	meters.started.Inc()
	err := handle(server, &countedStream{stream, meters})
	meters.handled.at(status.Code(err)).Inc()
	return err
}

// countedStream counts a stream's messages.
type countedStream struct {
	grpc.ServerStream
	meters *methodMeters
}

func (it *countedStream) SendMsg(message any) error {
	err := it.ServerStream.SendMsg(message)
	if err == nil {
		it.meters.sent.Inc()
	}
	return err
}

func (it *countedStream) RecvMsg(message any) error {
	err := it.ServerStream.RecvMsg(message)
	if err == nil {
		it.meters.received.Inc()
	}
	return err
}
