package upstreamtest

import (
	"fmt"

	"github.com/golang/protobuf/proto"
	"google.golang.org/grpc/codes"
	"google.golang.org/grpc/status"

	"tufayon/service/wire"
)

// singleNode are the modes in which a volume is at one node at most.
var singleNode = map[wire.VolumeCapability_AccessMode_Mode]bool{
	wire.VolumeCapability_AccessMode_SINGLE_NODE_WRITER: true, wire.VolumeCapability_AccessMode_SINGLE_NODE_READER_ONLY: true,
	wire.VolumeCapability_AccessMode_SINGLE_NODE_SINGLE_WRITER: true, wire.VolumeCapability_AccessMode_SINGLE_NODE_MULTI_WRITER: true,
}

var errNoVolume = status.Error(codes.NotFound, "the upstream has no such volume")

type deed = func() (proto.Message, error)

// deed says what a call does, and of what it is: only one such at a time.
func (upstream *Upstream) deed(method string, bytes []byte) (deed, string, error) {
	var err error
	read := func(message proto.Message) { err = proto.Unmarshal(bytes, message) }
	switch method {
	case "/csi.v1.Controller/CreateVolume":
		request := &wire.CreateVolumeRequest{}
		read(request)
		return func() (proto.Message, error) { return upstream.create(request) }, "name/" + request.GetName(), err
	case "/csi.v1.Controller/DeleteVolume":
		request := &wire.DeleteVolumeRequest{}
		read(request)
		return func() (proto.Message, error) { return upstream.delete(request) }, "id/" + request.GetVolumeId(), err
	case "/csi.v1.Controller/ControllerPublishVolume":
		request := &wire.ControllerPublishVolumeRequest{}
		read(request)
		return func() (proto.Message, error) { return upstream.attach(request) }, "id/" + request.GetVolumeId(), err
	case "/csi.v1.Controller/ControllerUnpublishVolume":
		request := &wire.ControllerUnpublishVolumeRequest{}
		read(request)
		return func() (proto.Message, error) { return upstream.detach(request) }, "id/" + request.GetVolumeId(), err
	case "/csi.v1.Controller/ControllerGetCapabilities":
		return upstream.capabilities, method, nil
	case "/csi.v1.Controller/ListVolumes":
		return upstream.list, method, nil
	case "/csi.v1.Identity/Probe":
		return func() (proto.Message, error) { return &wire.ProbeResponse{}, nil }, method, nil
	}
	if at, of, is := upstream.atNode(method, bytes); is {
		return at, of, nil
	}
	return func() (proto.Message, error) { return &wire.ProbeRequest{}, nil }, method, nil // of any other a response without fields
}

// atNode is what a node's call does.
func (upstream *Upstream) atNode(method string, bytes []byte) (deed, string, bool) {
	change := func(id string, what func(*Volume), response proto.Message) (deed, string, bool) {
		return func() (proto.Message, error) {
			it, there := upstream.volumes[id]
			if !there {
				it = upstream.has(id, "")
			}
			what(it)
			return response, nil
		}, "id/" + id, true
	}
	switch method {
	case "/csi.v1.Node/NodeStageVolume":
		request := &wire.NodeStageVolumeRequest{}
		_ = proto.Unmarshal(bytes, request)
		return change(request.GetVolumeId(), func(it *Volume) { it.Staged[request.GetStagingTargetPath()] = true }, &wire.NodeStageVolumeResponse{})
	case "/csi.v1.Node/NodeUnstageVolume":
		request := &wire.NodeUnstageVolumeRequest{}
		_ = proto.Unmarshal(bytes, request)
		return change(request.GetVolumeId(), func(it *Volume) { delete(it.Staged, request.GetStagingTargetPath()) }, &wire.NodeUnstageVolumeResponse{})
	case "/csi.v1.Node/NodePublishVolume":
		request := &wire.NodePublishVolumeRequest{}
		_ = proto.Unmarshal(bytes, request)
		return change(request.GetVolumeId(), func(it *Volume) { it.At[request.GetTargetPath()] = true }, &wire.NodePublishVolumeResponse{})
	case "/csi.v1.Node/NodeUnpublishVolume":
		request := &wire.NodeUnpublishVolumeRequest{}
		_ = proto.Unmarshal(bytes, request)
		return change(request.GetVolumeId(), func(it *Volume) { delete(it.At, request.GetTargetPath()) }, &wire.NodeUnpublishVolumeResponse{})
	}
	return nil, "", false
}

func (upstream *Upstream) create(request *wire.CreateVolumeRequest) (proto.Message, error) {
	for id, it := range upstream.volumes {
		if it.Name == request.GetName() {
			return &wire.CreateVolumeResponse{Volume: &wire.Volume{VolumeId: id, CapacityBytes: 1}}, nil
		}
	}
	id := fmt.Sprintf("fs/%s \u00e9 %d", request.GetName(), upstream.made)
	if upstream.ID != nil {
		id = upstream.ID(request.GetName())
	}
	if upstream.volumes[id] == nil {
		upstream.has(id, request.GetName())
	}
	return &wire.CreateVolumeResponse{Volume: &wire.Volume{VolumeId: id, CapacityBytes: 1, VolumeContext: map[string]string{"of": "upstream"}}}, nil
}

func (upstream *Upstream) delete(request *wire.DeleteVolumeRequest) (proto.Message, error) {
	if it, there := upstream.volumes[request.GetVolumeId()]; there && len(it.Attached) > 0 {
		upstream.wrong = append(upstream.wrong, fmt.Sprintf("%s is deleted, and is attached at %v", request.GetVolumeId(), it.Attached))
	}
	delete(upstream.volumes, request.GetVolumeId())
	return &wire.DeleteVolumeResponse{}, nil
}

func (upstream *Upstream) attach(request *wire.ControllerPublishVolumeRequest) (proto.Message, error) {
	it, there := upstream.volumes[request.GetVolumeId()]
	if !there {
		return nil, errNoVolume
	}
	mode := request.GetVolumeCapability().GetAccessMode().GetMode()
	for node, other := range it.Attached {
		if node != request.GetNodeId() && (singleNode[mode] || singleNode[other]) {
			wrong := fmt.Sprintf("%s is attached at %s in %v, and at %s in %v", request.GetVolumeId(), node, other, request.GetNodeId(), mode)
			upstream.wrong = append(upstream.wrong, wrong)
		}
	}
	it.Attached[request.GetNodeId()] = mode
	return &wire.ControllerPublishVolumeResponse{PublishContext: map[string]string{"device": "/dev/x"}}, nil
}

func (upstream *Upstream) detach(request *wire.ControllerUnpublishVolumeRequest) (proto.Message, error) {
	if it, there := upstream.volumes[request.GetVolumeId()]; there {
		if delete(it.Attached, request.GetNodeId()); request.GetNodeId() == "" {
			it.Attached = map[string]wire.VolumeCapability_AccessMode_Mode{}
		}
	}
	return &wire.ControllerUnpublishVolumeResponse{}, nil
}

func (upstream *Upstream) capabilities() (proto.Message, error) {
	response := &wire.ControllerGetCapabilitiesResponse{}
	types := []wire.ControllerServiceCapability_RPC_Type{
		wire.ControllerServiceCapability_RPC_CREATE_DELETE_VOLUME, wire.ControllerServiceCapability_RPC_PUBLISH_UNPUBLISH_VOLUME,
	}
	if upstream.Lists {
		types = append(types, wire.ControllerServiceCapability_RPC_LIST_VOLUMES)
	}
	if upstream.HasNodes {
		types = append(types, wire.ControllerServiceCapability_RPC_LIST_VOLUMES_PUBLISHED_NODES, wire.ControllerServiceCapability_RPC_GET_VOLUME)
	}
	for _, it := range types {
		rpc := &wire.ControllerServiceCapability_Rpc{Rpc: &wire.ControllerServiceCapability_RPC{Type: it}}
		response.Capabilities = append(response.Capabilities, &wire.ControllerServiceCapability{Type: rpc})
	}
	return response, nil
}

func (upstream *Upstream) list() (proto.Message, error) {
	response := &wire.ListVolumesResponse{}
	for id := range upstream.volumes {
		response.Entries = append(response.Entries, &wire.ListVolumesResponse_Entry{Volume: &wire.Volume{VolumeId: id, CapacityBytes: 7}})
	}
	return response, nil
}
