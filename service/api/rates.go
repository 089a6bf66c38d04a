package api

import (
	"context"
	"sync"
	"time"

	"golang.org/x/time/rate"
	"google.golang.org/grpc"
	"google.golang.org/grpc/codes"
	"google.golang.org/grpc/status"

	"tufayon/service/secure"
)

// mostCallers is how many callers' rates are known. Once there are more, all begin anew.
const mostCallers = 4096

// errRate refuses a call of a caller that calls too often: nothing was done.
var errRate = status.Error(codes.ResourceExhausted, "too many calls of this caller")

// rates are how often callers call, each by who it is.
type rates struct {
	perSecond int

	mutex sync.Mutex
	of    map[string]*rate.Limiter
}

// Rate has a server refuse calls of who makes more than so many in a second, and more at once: each caller by itself, whatever its connections.
func Rate(perSecond int) []grpc.ServerOption {
	rates := &rates{perSecond: perSecond, of: map[string]*rate.Limiter{}}
	return []grpc.ServerOption{
		grpc.ChainUnaryInterceptor(func(ctx context.Context, request any, _ *grpc.UnaryServerInfo, handle grpc.UnaryHandler) (any, error) {
			if err := rates.admit(ctx); err != nil {
				return nil, err
			}
			return handle(ctx, request)
		}),
		grpc.ChainStreamInterceptor(func(server any, stream grpc.ServerStream, _ *grpc.StreamServerInfo, handle grpc.StreamHandler) error {
			if err := rates.admit(stream.Context()); err != nil {
				return err
			}
			return handle(server, stream)
		}),
	}
}

func (rates *rates) admit(ctx context.Context) error {
	peer, err := secure.From(ctx)
	if err != nil {
		return status.Error(codes.Unauthenticated, err.Error())
	}
	rates.mutex.Lock()
	defer rates.mutex.Unlock()
	who := peer.String()
	its := rates.of[who]
	if its == nil {
		if len(rates.of) >= mostCallers {
			rates.of = map[string]*rate.Limiter{}
		}
		its = rate.NewLimiter(rate.Limit(rates.perSecond), rates.perSecond)
		rates.of[who] = its
	}
	if !its.AllowN(time.Now(), 1) {
		return errRate
	}
	return nil
}
