package driver

import (
	"context"
	"fmt"
	"io"
	"os"
	"runtime/debug"
	"strings"

	"google.golang.org/grpc"
	"google.golang.org/grpc/codes"
	"google.golang.org/grpc/health/grpc_health_v1"
	"google.golang.org/grpc/status"

	"tufayon/service/limiting"
	"tufayon/service/translate"
)

const (
	maxMessage  = 128 << 10 // of a request: all fields at their limits have less than half of it
	maxMetadata = 16 << 10
)

// numbered are the calls that become frames, and so have numbers.
var numbered = map[string]bool{
	"CreateVolume": true, "DeleteVolume": true, "ControllerPublishVolume": true, "ControllerUnpublishVolume": true,
	"NodeStageVolume": true, "NodeUnstageVolume": true, "NodePublishVolume": true, "NodeUnpublishVolume": true,
}

// NewServer makes a server with the health service alone, which judges of each request first its number, if it is of a call that has one, and then
// whether the proto has its fields. Interceptors among other options come before all that. A panic ends the call alone, and is told on standard error, after the program's name.
func NewServer(backend *Backend, limits *limiting.Limits, program string, more ...grpc.ServerOption) *grpc.Server {
	options := append(append(limits.Options(), more...), grpc.MaxRecvMsgSize(maxMessage), grpc.MaxHeaderListSize(maxMetadata),
		grpc.ChainUnaryInterceptor(limits.Intercept, recovering(os.Stderr, program), backend.admit), grpc.ChainStreamInterceptor(limits.InterceptStream))
	server := grpc.NewServer(options...)
	grpc_health_v1.RegisterHealthServer(server, backend.health)
	return server
}

// admit judges a call's number and a request's fields.
func (backend *Backend) admit(ctx context.Context, request any, info *grpc.UnaryServerInfo, handle grpc.UnaryHandler) (any, error) {
	if numbered[info.FullMethod[strings.LastIndex(info.FullMethod, "/")+1:]] {
		core, err := backend.core()
		if err != nil {
			return nil, err
		}
		if err := core.Admit(ctx); err != nil {
			return nil, err
		}
	}
	if err := translate.Known(request); err != nil {
		return nil, err
	}
	return handle(ctx, request)
}

// recovering answers a call that panics. What it panicked of isn't told, since it may show what is private.
func recovering(log io.Writer, program string) grpc.UnaryServerInterceptor {
	return func(ctx context.Context, request any, info *grpc.UnaryServerInfo, handle grpc.UnaryHandler) (response any, err error) {
		defer func() {
			if why := recover(); why != nil {
				fmt.Fprintf(log, "%s: a panic (%T) in %s\n%s", program, why, info.FullMethod, debug.Stack())
				response, err = nil, status.Error(codes.Internal, "panic")
			}
		}()
		return handle(ctx, request)
	}
}
