package carrying

import (
	"context"
	"errors"
	"fmt"
	"time"

	"google.golang.org/grpc"
	"google.golang.org/grpc/codes"
	"google.golang.org/grpc/status"

	told "tufayon/service/api/wire"
	"tufayon/service/frames"
	"tufayon/service/numbers"
)

// Why a plugin doesn't begin a session.
var (
	ErrLater   = errors.New("it has heard of more than was sent")
	ErrEarlier = errors.New("it hasn't heard of what it acknowledged: its store is an older copy, or another's")
	ErrNone    = errors.New("it knows no sessions of a service")
)

// Begin has a plugin begin a session, once it is reached. Where it fails, nothing was changed, or that isn't known: then it may be asked again.
func (carrier *Carrier) Begin(ctx context.Context, name string, opening numbers.Opening) error {
	plugin := carrier.plugin(name)
	if plugin == nil {
		return ErrNoAddress
	}
	request := &told.BeginRequest{
		Session: opening.Session, Token: []byte(opening.Token), Sent: numberOf(opening.Sent), Heard: numberOf(opening.Heard),
		IsNew: opening.IsNew, IsUnknown: opening.IsUnknown, List: opening.List,
	}
	for {
		isSent, err := carrier.begin(ctx, plugin, request)
		if isSent || err != nil {
			return err
		}
	}
}

func (carrier *Carrier) begin(ctx context.Context, plugin *plugin, request *told.BeginRequest) (isSent bool, err error) {
	over, release, err := plugin.turn(ctx, time.Time{})
	if err != nil {
		return false, err
	}
	defer release()
	ctx, cancel := context.WithTimeout(ctx, carrier.limits.Reach)
	defer cancel()
	_, err = told.NewPluginClient(plugin.connection).Begin(ctx, request, grpc.PerRPCCredentials(over))
	its := status.Convert(err)
	switch {
	case err == nil:
		return true, nil
	case over.refused():
		return false, nil
	case its.Code() == codes.Unimplemented:
		return true, ErrNone
	case its.Code() == codes.Aborted && its.Message() == "later":
		return true, ErrLater
	case its.Code() == codes.FailedPrecondition && its.Message() == "earlier":
		return true, ErrEarlier
	}
	return true, fmt.Errorf("%w: %s", ErrNoReply, said(err))
}

func numberOf(number frames.Number) *told.Number {
	return &told.Number{Session: number.Session, Call: number.Call}
}
