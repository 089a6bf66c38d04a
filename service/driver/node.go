package driver

import (
	"context"
	"path/filepath"

	"google.golang.org/grpc"
	"google.golang.org/grpc/codes"
	"google.golang.org/grpc/status"

	"tufayon/service/frames"
	"tufayon/service/hooks"
	"tufayon/service/numbers"
	"tufayon/service/records"
	"tufayon/service/serving"
	"tufayon/service/translate"
	"tufayon/service/wire"
)

// errStaged refuses a staging path other than the one that is kept of the volume.
var errStaged = status.Error(codes.FailedPrecondition, "staged otherwise")

// NodeOptions are those of a node's service.
type NodeOptions struct {
	ID         string
	MaxVolumes int64       // as NodeGetInfo tells it: 0 for not known
	Hooks      hooks.Hooks // nil where the ledger alone is kept
	Anew       *Anew       // what is to be staged and published anew: nil where nothing is
}

// node is CSI's Node service over a node plugin.
type node struct {
	backend *Backend
	options NodeOptions
}

// RegisterNode adds CSI's Node to a server.
func RegisterNode(server *grpc.Server, backend *Backend, options NodeOptions) {
	wire.RegisterNodeServer(server, &node{backend: backend, options: options})
}

// carry carries a call at a staging path, which none is of a call that doesn't name one.
func (node *node) carry(ctx context.Context, body frames.Body, deed hooks.Deed, had had) error {
	return node.carryIf(ctx, body, deed, had, func() error { return nil })
}

// carryIf does the same, unless this refuses a call that isn't stale.
func (node *node) carryIf(ctx context.Context, body frames.Body, deed hooks.Deed, had had, may func() error) error {
	request := asking(node.options.Hooks, body, deed, had)
	request.Node, request.Staging = node.options.ID, deed.Staging
	judge := request.Judge
	request.Judge = func(known serving.Known) error {
		row, err := rowOf(known)
		if err != nil || known.IsBehind(row.Last) {
			return err // the plugin refuses it
		}
		if deed.Staging != "" && known.Staging != "" && known.Staging != deed.Staging {
			return errStaged
		}
		if err := may(); err != nil {
			return err
		}
		return judge(known)
	}
	_, err := node.backend.carry(ctx, request)
	node.options.Anew.wake(body.Volume())
	return err
}

// publish carries a NodePublishVolume, once the volume is staged anew where that is to be done.
func (node *node) publish(ctx context.Context, body frames.NodePublishVolume, deed hooks.Deed) error {
	return node.carryIf(ctx, body, deed, always, func() error { return node.options.Anew.judge(body.ID) })
}

func rowOf(known serving.Known) (records.Staged, error) {
	row, err := records.ReadStaged(known.Row)
	if err != nil {
		return records.Staged{}, status.Error(codes.Internal, err.Error())
	}
	return row, nil
}

// undo carries a call that undoes something. By arrival one of a volume that has no row is done: the plugin would say so too, and keep the call of an
// id that may be nobody's.
func (node *node) undo(ctx context.Context, body frames.Body, deed hooks.Deed, had had) error {
	if !numbers.IsIn(ctx) {
		core, err := node.backend.core()
		if err != nil {
			return err
		}
		if known, err := core.Known(ctx, body.Volume()); err != nil || known.Row == nil {
			return err
		}
	}
	return node.carry(ctx, body, deed, had)
}

// NodeStageVolume has a volume staged at a path.
func (node *node) NodeStageVolume(ctx context.Context, request *wire.NodeStageVolumeRequest) (*wire.NodeStageVolumeResponse, error) {
	body, err := translate.NodeStageVolume(request)
	if err == nil {
		err = node.carry(ctx, body, hooks.Deed{
			Call: "NodeStageVolume", Staging: request.GetStagingTargetPath(), Capability: &body.Capability, Private: translate.PrivateOfNode(request),
		}, always)
	}
	return &wire.NodeStageVolumeResponse{}, found(err)
}

// NodeUnstageVolume has that undone.
func (node *node) NodeUnstageVolume(ctx context.Context, request *wire.NodeUnstageVolumeRequest) (*wire.NodeUnstageVolumeResponse, error) {
	body, err := translate.NodeUnstageVolume(request)
	if err == nil {
		err = node.undo(ctx, body, hooks.Deed{Call: "NodeUnstageVolume", Staging: request.GetStagingTargetPath()}, func(known serving.Known) (bool, error) {
			row, err := rowOf(known)
			return row.IsStaged, err
		})
	}
	return &wire.NodeUnstageVolumeResponse{}, undone(err)
}

// NodePublishVolume has a volume published at a target path.
func (node *node) NodePublishVolume(ctx context.Context, request *wire.NodePublishVolumeRequest) (*wire.NodePublishVolumeResponse, error) {
	body, err := translate.NodePublishVolume(request)
	if err == nil {
		err = node.publish(ctx, body, hooks.Deed{
			Call: "NodePublishVolume", Staging: request.GetStagingTargetPath(), Target: body.Target, Capability: &body.Capability,
			Readonly: body.Readonly, Private: translate.PrivateOfNode(request),
		})
	}
	return &wire.NodePublishVolumeResponse{}, found(err)
}

// isSpelledElse says whether one of these targets is another text for the same path, as with a slash at its end: what is published there stays, until the last
// of them is undone.
func isSpelledElse(targets []string, target string) bool {
	for _, it := range targets {
		if it != target && filepath.Clean(it) == filepath.Clean(target) {
			return true
		}
	}
	return false
}

// NodeUnpublishVolume has that undone.
func (node *node) NodeUnpublishVolume(ctx context.Context, request *wire.NodeUnpublishVolumeRequest) (*wire.NodeUnpublishVolumeResponse, error) {
	body, err := translate.NodeUnpublishVolume(request)
	if err == nil {
		err = node.undo(ctx, body, hooks.Deed{Call: "NodeUnpublishVolume", Target: body.Target}, func(known serving.Known) (bool, error) {
			row, err := rowOf(known)
			return row.IsAt(body.Target) && !isSpelledElse(row.Targets, body.Target), err
		})
	}
	return &wire.NodeUnpublishVolumeResponse{}, undone(err)
}

// NodeGetCapabilities tells which calls are served.
func (node *node) NodeGetCapabilities(context.Context, *wire.NodeGetCapabilitiesRequest) (*wire.NodeGetCapabilitiesResponse, error) {
	response := &wire.NodeGetCapabilitiesResponse{}
	for _, it := range []wire.NodeServiceCapability_RPC_Type{
		wire.NodeServiceCapability_RPC_STAGE_UNSTAGE_VOLUME,
		wire.NodeServiceCapability_RPC_SINGLE_NODE_MULTI_WRITER,
	} {
		rpc := &wire.NodeServiceCapability_Rpc{Rpc: &wire.NodeServiceCapability_RPC{Type: it}}
		response.Capabilities = append(response.Capabilities, &wire.NodeServiceCapability{Type: rpc})
	}
	return response, nil
}

// NodeGetInfo tells the node's id.
func (node *node) NodeGetInfo(context.Context, *wire.NodeGetInfoRequest) (*wire.NodeGetInfoResponse, error) {
	return &wire.NodeGetInfoResponse{NodeId: node.options.ID, MaxVolumesPerNode: node.options.MaxVolumes}, nil
}
