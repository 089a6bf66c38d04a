package upstream

import (
	"github.com/golang/protobuf/proto"
	"google.golang.org/grpc/codes"
	"google.golang.org/grpc/status"

	"tufayon/service/frames"
	"tufayon/service/identities"
	"tufayon/service/store"
	"tufayon/service/wire"
)

const (
	mostText = 4096 // of a text that the ledger has, or keeps beside it
	noRange  = 1    // the bytes that the ledger has of a volume for which no range was asked
)

// A fitting judges the fields of a request that the plugin has to know, and says what it has of them. It remembers the first fault.
type fitting struct {
	err  error
	kept []store.Text // beside the record
}

// read reads a request, whose fields that the proto doesn't know are nobody's business here.
func (fitting *fitting) read(call *call, request proto.Message) {
	if call.asked = request; proto.Unmarshal(call.raw, request) != nil {
		fitting.err = status.Error(codes.Internal, "the request isn't one of this call")
	}
}

func (fitting *fitting) refuse(field string, wrong bool) {
	if fitting.err == nil && wrong {
		fitting.err = status.Error(codes.InvalidArgument, field)
	}
}

// text judges a text that has to be there, and gives what the plugin has of it.
func (fitting *fitting) text(field, value string, most int) string {
	fitting.refuse(field, value == "" || len(value) > mostText)
	short := identities.Shorten(value, most)
	fitting.kept = append(fitting.kept, short.Kept...)
	return short.Text
}

// id judges the upstream's id of a volume.
func (fitting *fitting) id(value string) string {
	fitting.refuse("volume_id", value == "" || len(value) > mostText)
	return value
}

// capability gives what the plugin has of a capability: the mode, the access, and the type of the file system.
func (fitting *fitting) capability(field string, value *wire.VolumeCapability) frames.Capability {
	fitting.refuse(field, value == nil)
	capability := frames.Capability{}
	switch access := value.GetAccessType().(type) {
	case *wire.VolumeCapability_Block:
	case *wire.VolumeCapability_Mount:
		capability.Mount = true
		if fsType := access.Mount.GetFsType(); fsType != "" {
			capability.FsType = fitting.text("fs_type", fsType, frames.MaxFsType)
		}
	default:
		fitting.refuse("access_type", true)
	}
	mode := value.GetAccessMode().GetMode()
	fitting.refuse("access_mode", mode < 1 || mode > 7)
	capability.Mode = uint8(mode)
	return capability
}

// capabilities gives those that differ to the plugin, of which there may be eight.
func (fitting *fitting) capabilities(values []*wire.VolumeCapability) []frames.Capability {
	var different []frames.Capability
	for _, value := range values {
		capability := fitting.capability("volume_capabilities", value)
		isNew := true
		for _, it := range different {
			isNew = isNew && it != capability
		}
		if isNew {
			different = append(different, capability)
		}
	}
	fitting.refuse("volume_capabilities", len(different) > frames.MaxCapabilities)
	return different
}

// atNode is a capability as a node's plugin has it. What platforms call SINGLE_NODE_WRITER is a volume at one node, where several may use it: CSI's older
// mode has one target, so it is taken for SINGLE_NODE_MULTI_WRITER there, and the upstream judges how many targets it gives.
func atNode(capability frames.Capability) frames.Capability {
	if capability.Mode == uint8(wire.VolumeCapability_AccessMode_SINGLE_NODE_WRITER) {
		capability.Mode = uint8(wire.VolumeCapability_AccessMode_SINGLE_NODE_MULTI_WRITER)
	}
	return capability
}
