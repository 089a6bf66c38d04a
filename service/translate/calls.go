package translate

import (
	"fmt"
	"math"
	"strings"

	"github.com/golang/protobuf/proto"
	"google.golang.org/grpc/codes"
	"google.golang.org/grpc/status"

	"tufayon/service/frames"
	"tufayon/service/numbers"
	"tufayon/service/wire"
)

// A Method is one of CSI's calls as gRPC makes it: its path, its request, and what its response is read into.
type Method struct {
	Path     string
	Request  proto.Message
	Response proto.Message
}

// MethodOf makes the request of a call. The staging path is where a node stages the call's volume, which no frame says.
func MethodOf(call frames.Call, staging string) (Method, error) {
	id := VolumeID(call.Volume())
	switch body := call.Body.(type) {
	case frames.CreateVolume:
		return createMethod(body)
	case frames.DeleteVolume:
		return Method{"/csi.v1.Controller/DeleteVolume", &wire.DeleteVolumeRequest{VolumeId: id}, &wire.DeleteVolumeResponse{}}, nil
	case frames.ControllerPublishVolume:
		request := &wire.ControllerPublishVolumeRequest{
			VolumeId: id, NodeId: body.Node, VolumeCapability: capabilityOf(body.Capability), Readonly: body.Readonly,
		}
		return Method{"/csi.v1.Controller/ControllerPublishVolume", request, &wire.ControllerPublishVolumeResponse{}}, nil
	case frames.ControllerUnpublishVolume:
		request := &wire.ControllerUnpublishVolumeRequest{VolumeId: id, NodeId: body.Node}
		return Method{"/csi.v1.Controller/ControllerUnpublishVolume", request, &wire.ControllerUnpublishVolumeResponse{}}, nil
	case frames.NodeStageVolume:
		request := &wire.NodeStageVolumeRequest{VolumeId: id, StagingTargetPath: staging, VolumeCapability: capabilityOf(body.Capability)}
		return Method{"/csi.v1.Node/NodeStageVolume", request, &wire.NodeStageVolumeResponse{}}, nil
	case frames.NodeUnstageVolume:
		request := &wire.NodeUnstageVolumeRequest{VolumeId: id, StagingTargetPath: staging}
		return Method{"/csi.v1.Node/NodeUnstageVolume", request, &wire.NodeUnstageVolumeResponse{}}, nil
	case frames.NodePublishVolume:
		request := &wire.NodePublishVolumeRequest{
			VolumeId: id, StagingTargetPath: staging, TargetPath: body.Target, VolumeCapability: capabilityOf(body.Capability), Readonly: body.Readonly,
		}
		return Method{"/csi.v1.Node/NodePublishVolume", request, &wire.NodePublishVolumeResponse{}}, nil
	case frames.NodeUnpublishVolume:
		request := &wire.NodeUnpublishVolumeRequest{VolumeId: id, TargetPath: body.Target}
		return Method{"/csi.v1.Node/NodeUnpublishVolume", request, &wire.NodeUnpublishVolumeResponse{}}, nil
	}
	return Method{}, fmt.Errorf("a call of kind %d: %w", call.Kind(), frames.ErrFrame)
}

// createMethod fails where CSI's numbers of bytes, which have a sign, can't say what the call does.
func createMethod(body frames.CreateVolume) (Method, error) {
	if body.Required > math.MaxInt64 || body.Limit > math.MaxInt64 {
		return Method{}, invalid("capacity")
	}
	request := &wire.CreateVolumeRequest{
		Name:          body.Name,
		CapacityRange: &wire.CapacityRange{RequiredBytes: int64(body.Required), LimitBytes: int64(body.Limit)},
	}
	for _, capability := range body.Capabilities {
		request.VolumeCapabilities = append(request.VolumeCapabilities, capabilityOf(capability))
	}
	return Method{"/csi.v1.Controller/CreateVolume", request, &wire.CreateVolumeResponse{}}, nil
}

func capabilityOf(capability frames.Capability) *wire.VolumeCapability {
	value := &wire.VolumeCapability{AccessMode: &wire.VolumeCapability_AccessMode{Mode: wire.VolumeCapability_AccessMode_Mode(capability.Mode)}}
	if capability.Mount {
		value.AccessType = &wire.VolumeCapability_Mount{Mount: &wire.VolumeCapability_MountVolume{FsType: capability.FsType}}
	} else {
		value.AccessType = &wire.VolumeCapability_Block{Block: &wire.VolumeCapability_BlockVolume{}}
	}
	return value
}

// ReplyOf makes the plugin's reply of what gRPC gave. There is none where the call may still be under way, or got to nobody: a timeout then.
func ReplyOf(call frames.Call, response proto.Message, err error) (frames.Reply, bool) {
	reply := frames.Reply{Number: call.Number, Node: call.Node, Kind: call.Kind()}
	told := status.Convert(err)
	switch told.Code() {
	case codes.Canceled, codes.DeadlineExceeded, codes.Unavailable, codes.Unknown:
		return frames.Reply{}, false
	case codes.OK:
		created, ok := response.(*wire.CreateVolumeResponse)
		if !ok {
			return reply, true
		}
		volume, ok := numbers.Decimal(created.GetVolume().GetVolumeId())
		reply.Volume = volume
		return reply, ok && volume != 0
	}
	if told.Code() > frames.MaxStatus {
		return frames.Reply{}, false
	}
	reply.Status, reply.Detail = uint8(told.Code()), cut(told.Message(), frames.MaxDetail)
	return reply, true
}

// cut gives as many whole characters of a text as have at most so many bytes. Bytes that are none become U+FFFD: a driver's words may be anything.
func cut(text string, most int) string {
	text = strings.ToValidUTF8(text, "\ufffd")
	end := 0
	for at, char := range text {
		next := at + len(string(char))
		if next > most {
			break
		}
		end = next
	}
	return text[:end]
}
