package driver

import (
	"context"
	"errors"

	"google.golang.org/grpc"
	"google.golang.org/grpc/codes"
	"google.golang.org/grpc/status"

	"tufayon/service/frames"
	"tufayon/service/hooks"
	"tufayon/service/numbers"
	"tufayon/service/records"
	"tufayon/service/serving"
	"tufayon/service/translate"
	"tufayon/service/wire"
)

// errNotFound is what a call gets that names an id which no volume can have, and undoes nothing.
var errNotFound = status.Error(codes.NotFound, translate.ErrNoVolume.Error())

// controller is CSI's Controller service over a controller plugin.
type controller struct {
	backend *Backend
	does    hooks.Hooks // nil where the ledger alone is kept
}

// RegisterController adds CSI's Controller to a server. What does what calls ask for is nil where nothing is to be done.
func RegisterController(server *grpc.Server, backend *Backend, does hooks.Hooks) {
	wire.RegisterControllerServer(server, &controller{backend: backend, does: does})
}

// CreateVolume has a volume made.
func (controller *controller) CreateVolume(ctx context.Context, request *wire.CreateVolumeRequest) (*wire.CreateVolumeResponse, error) {
	body, err := translate.CreateVolume(request)
	if err != nil {
		return nil, err
	}
	deed := hooks.Deed{
		Call: "CreateVolume", Name: body.Name, Required: body.Required, Limit: body.Limit, Capabilities: body.Capabilities,
		Private: translate.PrivateOfCreate(request),
	}
	answer, err := controller.backend.carry(ctx, asking(controller.does, body, deed, always))
	if err != nil {
		return nil, err
	}
	return translate.Created(answer.Reply, answer.Row, answerOf(answer.Acted).VolumeContext)
}

// DeleteVolume has a volume deleted.
func (controller *controller) DeleteVolume(ctx context.Context, request *wire.DeleteVolumeRequest) (*wire.DeleteVolumeResponse, error) {
	body, err := translate.DeleteVolume(request)
	if err == nil {
		deed := hooks.Deed{Call: "DeleteVolume", Private: translate.Secrets(request)}
		_, err = controller.backend.carry(ctx, asking(controller.does, body, deed, isLive))
	}
	return &wire.DeleteVolumeResponse{}, undone(err)
}

// ControllerPublishVolume has a volume attached to a node.
func (controller *controller) ControllerPublishVolume(
	ctx context.Context, request *wire.ControllerPublishVolumeRequest,
) (*wire.ControllerPublishVolumeResponse, error) {
	body, err := translate.ControllerPublishVolume(request)
	if err != nil {
		return nil, found(err)
	}
	deed := hooks.Deed{
		Call: "ControllerPublishVolume", Node: body.Node, Capability: &body.Capability, Readonly: body.Readonly,
		Private: translate.PrivateOfAttach(request),
	}
	answer, err := controller.backend.carry(ctx, asking(controller.does, body, deed, always))
	if err != nil {
		return nil, err
	}
	return &wire.ControllerPublishVolumeResponse{PublishContext: answerOf(answer.Acted).PublishContext}, nil
}

// ControllerUnpublishVolume has a volume detached from a node. Where no node is named, that is from all of them: a call for each, which one number of
// the caller's can't be.
func (controller *controller) ControllerUnpublishVolume(
	ctx context.Context, request *wire.ControllerUnpublishVolumeRequest,
) (*wire.ControllerUnpublishVolumeResponse, error) {
	body, err := translate.ControllerUnpublishVolume(request, !numbers.IsIn(ctx))
	if err == nil {
		err = controller.detach(ctx, body, translate.Secrets(request))
	}
	return &wire.ControllerUnpublishVolumeResponse{}, undone(err)
}

func (controller *controller) detach(ctx context.Context, body frames.ControllerUnpublishVolume, private hooks.Private) error {
	if body.Node != "" {
		return controller.detachFrom(ctx, body, private)
	}
	tried := map[string]bool{}
	for isAll := false; !isAll; { // again, since it may have been attached elsewhere while one detach waited
		volume, err := controller.volume(ctx, body.ID)
		if err != nil {
			return err
		}
		isAll = true
		for _, node := range volume.Nodes {
			if tried[node] {
				continue
			}
			isAll, tried[node], body.Node = false, true, node
			if err := controller.detachFrom(ctx, body, private); err != nil {
				return err
			}
		}
	}
	return nil
}

// detachFrom has a volume detached from one node.
func (controller *controller) detachFrom(ctx context.Context, body frames.ControllerUnpublishVolume, private hooks.Private) error {
	deed := hooks.Deed{Call: "ControllerUnpublishVolume", Node: body.Node, Private: private}
	_, err := controller.backend.carry(ctx, asking(controller.does, body, deed, isAt(body.Node)))
	return err
}

// volume is what the record has of a volume: nothing where it has no row.
func (controller *controller) volume(ctx context.Context, id uint64) (records.Volume, error) {
	core, err := controller.backend.core()
	if err != nil {
		return records.Volume{}, err
	}
	known, err := core.Known(ctx, id)
	if err != nil {
		return records.Volume{}, err
	}
	return volumeOf(known)
}

func volumeOf(known serving.Known) (records.Volume, error) {
	volume, err := records.ReadVolume(known.Row)
	if err != nil {
		return records.Volume{}, status.Error(codes.Internal, err.Error())
	}
	return volume, nil
}

// isLive says of a deletion whether there is a volume to delete.
func isLive(known serving.Known) (bool, error) {
	volume, err := volumeOf(known)
	return volume.Live, err
}

// isAt says of a detachment whether the volume is attached to the node.
func isAt(node string) had {
	return func(known serving.Known) (bool, error) {
		volume, err := volumeOf(known)
		return volume.IsAt(node), err
	}
}

// ValidateVolumeCapabilities tells, by the record, whether a volume has capabilities.
func (controller *controller) ValidateVolumeCapabilities(
	ctx context.Context, request *wire.ValidateVolumeCapabilitiesRequest,
) (*wire.ValidateVolumeCapabilitiesResponse, error) {
	asked, err := translate.ValidateVolumeCapabilities(request)
	if err != nil {
		return nil, found(err)
	}
	volume, err := controller.volume(ctx, asked.Volume)
	if err != nil {
		return nil, err
	}
	if !volume.Live {
		return nil, errNotFound
	}
	return translate.Validated(volume, asked, request), nil
}

// ControllerGetCapabilities tells which calls are served.
func (controller *controller) ControllerGetCapabilities(
	context.Context, *wire.ControllerGetCapabilitiesRequest,
) (*wire.ControllerGetCapabilitiesResponse, error) {
	response := &wire.ControllerGetCapabilitiesResponse{}
	for _, it := range []wire.ControllerServiceCapability_RPC_Type{
		wire.ControllerServiceCapability_RPC_CREATE_DELETE_VOLUME,
		wire.ControllerServiceCapability_RPC_PUBLISH_UNPUBLISH_VOLUME,
		wire.ControllerServiceCapability_RPC_PUBLISH_READONLY,
		wire.ControllerServiceCapability_RPC_SINGLE_NODE_MULTI_WRITER,
	} {
		rpc := &wire.ControllerServiceCapability_Rpc{Rpc: &wire.ControllerServiceCapability_RPC{Type: it}}
		response.Capabilities = append(response.Capabilities, &wire.ControllerServiceCapability{Type: rpc})
	}
	return response, nil
}

// undone is the outcome of a call that undoes something: of an id that no volume can have, nothing is left to undo.
func undone(err error) error {
	if errors.Is(err, translate.ErrNoVolume) {
		return nil
	}
	return err
}

// found is the outcome of any other call.
func found(err error) error {
	if errors.Is(err, translate.ErrNoVolume) {
		return errNotFound
	}
	return err
}
