package carrying

import (
	"context"
	"errors"
	"sync"
	"time"

	"google.golang.org/grpc"
	"google.golang.org/grpc/codes"
	"google.golang.org/grpc/connectivity"
	"google.golang.org/grpc/status"

	told "tufayon/service/api/wire"
)

// listen keeps what a node says that isn't as its record has it, while it is reached, until the plugin is closed. Calls are made at it all the same. Another
// node isn't listened to, and is told nothing.
func (plugin *plugin) listen() {
	ctx, cancel := context.WithCancel(context.Background())
	defer cancel()
	go func() {
		<-plugin.closed
		cancel()
	}()
	for ctx.Err() == nil {
		state := plugin.connection.GetState()
		if state == connectivity.Shutdown {
			return
		}
		if state != connectivity.Ready {
			plugin.connection.WaitForStateChange(ctx, state)
			continue
		}
		by, err := plugin.identify(ctx)
		if err == nil {
			err = plugin.hear(ctx, by)
			plugin.says(&told.TroublesResponse{})
		}
		if status.Code(err) == codes.Unimplemented { // an earlier version, or another plugin
			plugin.connection.WaitForStateChange(ctx, connectivity.Ready)
			continue
		}
		select {
		case <-time.After(again):
		case <-ctx.Done():
		}
	}
}

// hear keeps what a node says over a connection until the stream ends.
func (plugin *plugin) hear(ctx context.Context, by *over) error {
	ctx, cancel := context.WithCancel(ctx)
	defer cancel()
	var asked sync.Once
	stream, err := told.NewPluginClient(plugin.connection).Troubles(ctx, &told.TroublesRequest{}, grpc.PerRPCCredentials(by))
	for err == nil {
		var response *told.TroublesResponse
		if response, err = stream.Recv(); err == nil {
			plugin.says(response)
			if response.Asks {
				asked.Do(func() { go plugin.confirm(ctx, by) })
			}
		}
	}
	if errors.Is(err, context.Canceled) {
		return nil
	}
	return err
}

// confirm tells a node that asks for it which call was acknowledged last that it heard, once this process knows that.
func (plugin *plugin) confirm(ctx context.Context, by *over) {
	for {
		if heard, isKnown := plugin.heard(plugin.name); isKnown {
			_, err := told.NewPluginClient(plugin.connection).Confirm(ctx, &told.ConfirmRequest{Heard: numberOf(heard)}, grpc.PerRPCCredentials(by))
			if err == nil || ctx.Err() != nil {
				return
			}
		}
		select {
		case <-time.After(again):
		case <-ctx.Done():
			return
		}
	}
}

// says keeps what a node says.
func (plugin *plugin) says(response *told.TroublesResponse) {
	var unmounted map[uint64]string
	if len(response.Unmounted) > 0 {
		unmounted = make(map[uint64]string, len(response.Unmounted))
	}
	for _, it := range response.Unmounted {
		unmounted[it.Volume] = it.Why
	}
	plugin.mutex.Lock()
	defer plugin.mutex.Unlock()
	plugin.amiss, plugin.unmounted = response.Trouble, unmounted
}

// Unmounted says why a volume isn't mounted at a node, or not everywhere, though the record has it there, as the node itself says: nothing where it is, and
// where the node isn't reached.
func (carrier *Carrier) Unmounted(node string, volume uint64) string {
	plugin := carrier.plugin(NodeName(node))
	if plugin == nil {
		return ""
	}
	plugin.mutex.Lock()
	defer plugin.mutex.Unlock()
	if why := plugin.unmounted[volume]; why != "" {
		return "its machine was started again: " + why
	}
	return ""
}
