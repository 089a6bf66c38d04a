package driver

import (
	"context"
	"strings"
	"time"

	"go.uber.org/zap"
	"google.golang.org/grpc"
	"google.golang.org/grpc/metadata"
	"google.golang.org/grpc/status"

	"tufayon/service/numbers"
	"tufayon/service/tracing"
)

// Logging has a line of the log for each numbered call: which volume, number (by arrival the one that it was given) and trace, what came of it, and how
// long it took. Nothing private stands in it: no secret, no parameter and no context. It belongs to a server, before all else.
func Logging(log *zap.Logger) grpc.UnaryServerInterceptor {
	return func(ctx context.Context, request any, info *grpc.UnaryServerInfo, handle grpc.UnaryHandler) (any, error) {
		kind := info.FullMethod[strings.LastIndex(info.FullMethod, "/")+1:]
		if !numbered[kind] {
			return handle(ctx, request)
		}
		began := time.Now()
		ctx, given := numbers.Telling(ctx)
		response, err := handle(ctx, request)
		told := status.Convert(err)
		fields := []zap.Field{zap.String("kind", kind), zap.String("volume", volumeIn(request))}
		if number := numberIn(ctx, given()); number != "" {
			fields = append(fields, zap.String("number", number))
		}
		if trace := tracing.From(ctx); trace != "" {
			fields = append(fields, zap.String("trace", trace))
		}
		fields = append(fields, zap.Stringer("status", told.Code()), zap.String("detail", told.Message()), zap.Duration("took", time.Since(began)))
		log.Info("a call", fields...)
		return response, err
	}
}

// numberIn is the number that came with a call, or else the one that it was given by its arrival.
func numberIn(ctx context.Context, given string) string {
	headers, _ := metadata.FromIncomingContext(ctx)
	if came := headers.Get(numbers.Key); len(came) == 1 {
		return came[0]
	}
	return given
}

// volumeIn is a request's volume, or the name of one that is to be made.
func volumeIn(request any) string {
	switch it := request.(type) {
	case interface{ GetVolumeId() string }:
		return it.GetVolumeId()
	case interface{ GetName() string }:
		return it.GetName()
	}
	return ""
}
