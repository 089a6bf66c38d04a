package driver

import (
	"context"
	"encoding/hex"
	"time"

	"google.golang.org/grpc"

	"tufayon/service/api/wire"
	"tufayon/service/frames"
	"tufayon/service/numbers"
)

// plugin is tufayon.v1.Plugin, which stands beside CSI's services.
type plugin struct {
	backend *Backend
}

// RegisterPlugin adds tufayon.v1.Plugin to a server: of a plugin whose calls' numbers are an orchestrator's.
func RegisterPlugin(server *grpc.Server, backend *Backend) {
	wire.RegisterPluginServer(server, &plugin{backend: backend})
}

// Begin begins a session.
func (plugin *plugin) Begin(ctx context.Context, request *wire.BeginRequest) (*wire.BeginResponse, error) {
	core, err := plugin.backend.core()
	if err != nil {
		return nil, err
	}
	heard, err := core.Begin(ctx, numbers.Opening{
		Session: request.Session, Token: hex.EncodeToString(request.Token), Sent: numberOf(request.Sent), Heard: numberOf(request.Heard),
		IsNew: request.IsNew, IsUnknown: request.IsUnknown, List: request.List,
	})
	if err != nil {
		return nil, err
	}
	if trouble, _ := plugin.backend.Trouble(); trouble.Asks {
		plugin.backend.confirm(core.Confirm(ctx, numberOf(request.Heard)))
	}
	return &wire.BeginResponse{Heard: &wire.Number{Session: heard.Session, Call: heard.Call}}, nil
}

// Confirm tells the last call that was acknowledged, so that an older copy of the store is found before anything is mounted by it.
func (plugin *plugin) Confirm(ctx context.Context, request *wire.ConfirmRequest) (*wire.ConfirmResponse, error) {
	core, err := plugin.backend.core()
	if err != nil {
		return nil, err
	}
	err = core.Confirm(ctx, numberOf(request.Heard))
	plugin.backend.confirm(err)
	return &wire.ConfirmResponse{}, err
}

// Troubles tells what isn't mounted that the node's record has, and whenever that changes, as long as calls are answered.
func (plugin *plugin) Troubles(_ *wire.TroublesRequest, stream wire.Plugin_TroublesServer) error {
	for told := (Trouble{}); ; {
		trouble, changed := plugin.backend.Trouble()
		if _, err := plugin.backend.core(); err != nil {
			return err
		}
		if !trouble.is(told) {
			if err := stream.Send(responseOf(trouble)); err != nil {
				return err
			}
			told = trouble
			if err := pause(stream.Context()); err != nil {
				return err
			}
		}
		select {
		case <-changed:
		case <-stream.Context().Done():
			return stream.Context().Err()
		}
	}
}

func responseOf(trouble Trouble) *wire.TroublesResponse {
	response := &wire.TroublesResponse{Trouble: trouble.Text, Asks: trouble.Asks}
	for _, it := range trouble.Unmounted {
		response.Unmounted = append(response.Unmounted, &wire.Unmounted{Volume: it.Volume, Why: it.Why})
	}
	return response
}

// pause waits a moment, so that what changes soon again is told once.
func pause(ctx context.Context) error {
	select {
	case <-time.After(50 * time.Millisecond):
		return nil
	case <-ctx.Done():
		return ctx.Err()
	}
}

func numberOf(number *wire.Number) frames.Number {
	return frames.Number{Session: number.GetSession(), Call: number.GetCall()}
}
