// Package translate makes a plugin's calls of CSI's requests, and CSI's requests of a plugin's calls, by docs/DRIVER.md, "From CSI to a frame":
// that table has a row for each field, and these functions judge the fields in its order, once Known has judged the request.
package translate

import (
	"errors"
	"strconv"
	"strings"

	"google.golang.org/grpc/codes"
	"google.golang.org/grpc/status"

	"tufayon/service/frames"
	"tufayon/service/hooks"
	"tufayon/service/numbers"
	"tufayon/service/wire"
)

// ErrNoVolume says that no volume can have the request's id: a call that undoes something is done then, and any other finds no volume.
var ErrNoVolume = errors.New("volume")

const (
	noRange = 1 << 30 // the bytes that are required where a request has no capacity range
	maxPath = 4096    // of a staging path, which no frame has
)

func invalid(field string) error { return status.Error(codes.InvalidArgument, field) }

// fields judges a request's fields one after another, and remembers the first fault.
type fields struct {
	err error
}

func (judged *fields) refuse(field string, wrong bool) {
	if judged.err == nil && wrong {
		judged.err = invalid(field)
	}
}

func (judged *fields) text(field, value string, most int) {
	judged.refuse(field, value == "" || len(value) > most || hasZero(value))
}

func hasZero(text string) bool { return strings.ContainsRune(text, 0) }

// path judges a path of a node: absolute, and without a parent directory.
func (judged *fields) path(field, value string, most int) {
	judged.text(field, value, most)
	judged.refuse(field, !hooks.IsAbsolute(value))
}

// staged judges the staging path of a publication: CSI has another status where a plugin that stages isn't told it.
func (judged *fields) staged(value string) {
	if judged.err == nil && value == "" {
		judged.err = status.Error(codes.FailedPrecondition, "staging_target_path")
	}
	judged.path("staging_target_path", value, maxPath)
}

// target judges a target path. Whether it begins with a slash, where a volume is published, is the plugin's to say.
func (judged *fields) target(value string) {
	judged.text("target_path", value, frames.MaxTarget)
	judged.refuse("target_path", hooks.HasParent(value))
}

// hidden judges what only hooks are told: no more bytes than CSI has in a map.
func (judged *fields) hidden(field string, value map[string]string) {
	judged.refuse(field, !hooks.Fits(value))
}

// isFsType says whether a type of a file system has letters, digits, - and _ alone, so that no hook's command takes it for anything else.
func isFsType(text string) bool {
	for _, char := range text {
		if !(char >= 'a' && char <= 'z' || char >= 'A' && char <= 'Z' || char >= '0' && char <= '9' || char == '-' || char == '_') {
			return false
		}
	}
	return len(text) <= frames.MaxFsType && !strings.HasPrefix(text, "-")
}

// sizeOf is how many bytes texts have together.
func sizeOf(texts []string) int {
	size := 0
	for _, text := range texts {
		size += len(text)
	}
	return size
}

func (judged *fields) capability(field string, value *wire.VolumeCapability) frames.Capability {
	judged.refuse(field, value == nil)
	capability := frames.Capability{}
	switch access := value.GetAccessType().(type) {
	case *wire.VolumeCapability_Block:
	case *wire.VolumeCapability_Mount:
		mount := access.Mount
		judged.refuse("fs_type", !isFsType(mount.GetFsType()))
		judged.refuse("mount_flags", sizeOf(mount.GetMountFlags()) > hooks.MaxMap)
		judged.refuse("volume_mount_group", mount.GetVolumeMountGroup() != "")
		capability.Mount, capability.FsType = true, mount.GetFsType()
	default:
		judged.refuse("access_type", true)
	}
	mode := value.GetAccessMode().GetMode()
	judged.refuse("access_mode", mode < 1 || mode > 7)
	capability.Mode = uint8(mode)
	return capability
}

func (judged *fields) capabilities(values []*wire.VolumeCapability) []frames.Capability {
	judged.refuse("volume_capabilities", len(values) > frames.MaxCapabilities)
	var capabilities []frames.Capability
	for _, value := range values {
		if judged.err != nil {
			return nil
		}
		capabilities = append(capabilities, judged.capability("volume_capabilities", value))
	}
	return capabilities
}

// volume judges that there is an id, and gives it: 0 where no volume can have it.
func (judged *fields) volume(value string) uint64 {
	judged.refuse("volume_id", value == "")
	volume, _ := numbers.Decimal(value)
	return volume
}

// end gives the first fault, and else whether a volume can have the id.
func (judged *fields) end(volume uint64) error {
	if judged.err == nil && volume == 0 {
		return ErrNoVolume
	}
	return judged.err
}

// VolumeID writes a volume's id as requests have it.
func VolumeID(volume uint64) string { return strconv.FormatUint(volume, 10) }

// CreateVolume makes the call of the request.
func CreateVolume(request *wire.CreateVolumeRequest) (frames.CreateVolume, error) {
	judged := fields{}
	judged.text("name", request.GetName(), frames.MaxName)
	body := frames.CreateVolume{Name: request.GetName(), Required: noRange}
	if bounds := request.GetCapacityRange(); bounds != nil {
		judged.refuse("capacity", bounds.GetRequiredBytes() < 0 || bounds.GetLimitBytes() < 0)
		body.Required, body.Limit = uint64(bounds.GetRequiredBytes()), uint64(bounds.GetLimitBytes())
	}
	body.Capabilities = judged.capabilities(request.GetVolumeCapabilities())
	judged.hidden("parameters", request.GetParameters())
	judged.hidden("secrets", request.GetSecrets())
	judged.refuse("volume_content_source", request.GetVolumeContentSource() != nil)
	judged.refuse("accessibility_requirements", request.GetAccessibilityRequirements() != nil)
	return body, judged.err
}

// DeleteVolume makes the call of the request.
func DeleteVolume(request *wire.DeleteVolumeRequest) (frames.DeleteVolume, error) {
	judged := fields{}
	body := frames.DeleteVolume{ID: judged.volume(request.GetVolumeId())}
	judged.hidden("secrets", request.GetSecrets())
	return body, judged.end(body.ID)
}

// ControllerPublishVolume makes the call of the request.
func ControllerPublishVolume(request *wire.ControllerPublishVolumeRequest) (frames.ControllerPublishVolume, error) {
	judged := fields{}
	body := frames.ControllerPublishVolume{ID: judged.volume(request.GetVolumeId()), Node: request.GetNodeId(), Readonly: request.GetReadonly()}
	judged.text("node_id", body.Node, frames.MaxNode)
	body.Capability = judged.capability("volume_capability", request.GetVolumeCapability())
	judged.hidden("secrets", request.GetSecrets())
	judged.hidden("volume_context", request.GetVolumeContext())
	return body, judged.end(body.ID)
}

// ControllerUnpublishVolume makes the call of the request. Where it may be of all nodes, its node may be empty, which no frame can say.
func ControllerUnpublishVolume(request *wire.ControllerUnpublishVolumeRequest, mayBeAll bool) (frames.ControllerUnpublishVolume, error) {
	judged := fields{}
	body := frames.ControllerUnpublishVolume{ID: judged.volume(request.GetVolumeId()), Node: request.GetNodeId()}
	if !mayBeAll || body.Node != "" {
		judged.text("node_id", body.Node, frames.MaxNode)
	}
	judged.hidden("secrets", request.GetSecrets())
	return body, judged.end(body.ID)
}

// NodeStageVolume makes the call of the request. The staging path isn't in it.
func NodeStageVolume(request *wire.NodeStageVolumeRequest) (frames.NodeStageVolume, error) {
	judged := fields{}
	body := frames.NodeStageVolume{ID: judged.volume(request.GetVolumeId())}
	judged.hidden("publish_context", request.GetPublishContext())
	judged.path("staging_target_path", request.GetStagingTargetPath(), maxPath)
	body.Capability = judged.capability("volume_capability", request.GetVolumeCapability())
	judged.hidden("secrets", request.GetSecrets())
	judged.hidden("volume_context", request.GetVolumeContext())
	return body, judged.end(body.ID)
}

// NodeUnstageVolume makes the call of the request. The staging path isn't in it.
func NodeUnstageVolume(request *wire.NodeUnstageVolumeRequest) (frames.NodeUnstageVolume, error) {
	judged := fields{}
	body := frames.NodeUnstageVolume{ID: judged.volume(request.GetVolumeId())}
	judged.path("staging_target_path", request.GetStagingTargetPath(), maxPath)
	return body, judged.end(body.ID)
}

// NodePublishVolume makes the call of the request. The staging path isn't in it.
func NodePublishVolume(request *wire.NodePublishVolumeRequest) (frames.NodePublishVolume, error) {
	judged := fields{}
	body := frames.NodePublishVolume{ID: judged.volume(request.GetVolumeId()), Target: request.GetTargetPath(), Readonly: request.GetReadonly()}
	judged.hidden("publish_context", request.GetPublishContext())
	judged.staged(request.GetStagingTargetPath())
	judged.target(body.Target)
	body.Capability = judged.capability("volume_capability", request.GetVolumeCapability())
	judged.hidden("secrets", request.GetSecrets())
	judged.hidden("volume_context", request.GetVolumeContext())
	return body, judged.end(body.ID)
}

// NodeUnpublishVolume makes the call of the request.
func NodeUnpublishVolume(request *wire.NodeUnpublishVolumeRequest) (frames.NodeUnpublishVolume, error) {
	judged := fields{}
	body := frames.NodeUnpublishVolume{ID: judged.volume(request.GetVolumeId()), Target: request.GetTargetPath()}
	judged.target(body.Target)
	return body, judged.end(body.ID)
}

// A Validation is what a ValidateVolumeCapabilities asks of a volume.
type Validation struct {
	Volume       uint64
	Capabilities []frames.Capability
}

// ValidateVolumeCapabilities reads the request, which becomes no call: the record answers it.
func ValidateVolumeCapabilities(request *wire.ValidateVolumeCapabilitiesRequest) (Validation, error) {
	judged := fields{}
	asked := Validation{Volume: judged.volume(request.GetVolumeId())}
	judged.hidden("volume_context", request.GetVolumeContext())
	judged.refuse("volume_capabilities", len(request.GetVolumeCapabilities()) == 0)
	for _, value := range request.GetVolumeCapabilities() {
		if judged.err == nil {
			asked.Capabilities = append(asked.Capabilities, judged.capability("volume_capabilities", value))
		}
	}
	judged.hidden("parameters", request.GetParameters())
	judged.hidden("secrets", request.GetSecrets())
	return asked, judged.end(asked.Volume)
}
