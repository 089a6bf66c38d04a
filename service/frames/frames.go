// Package frames writes and reads the frames of Tufayon's plugins, by docs/FRAMES.md, "Frames": calls and replies as bytes.
package frames

// A Number is a call's: the session, and the count of calls in it. A plugin carries out a volume's calls by rising numbers only.
type Number struct {
	Session, Call uint64
}

// IsBefore says whether the number is lower than another.
func (number Number) IsBefore(other Number) bool {
	return number.Session < other.Session || number.Session == other.Session && number.Call < other.Call
}

// A Kind says which of CSI's calls a frame has.
type Kind uint8

// The kinds of calls; a reply's is replyBit more.
const (
	CreateVolumeKind Kind = 1 + iota
	DeleteVolumeKind
	ControllerPublishVolumeKind
	ControllerUnpublishVolumeKind
	NodeStageVolumeKind
	NodeUnstageVolumeKind
	NodePublishVolumeKind
	NodeUnpublishVolumeKind
)

const replyBit = 128

// Stale is the detail of a plugin's ABORTED to a call that its fence doesn't let through.
const Stale = "stale"

var kindNames = [...]string{
	CreateVolumeKind: "CreateVolume", DeleteVolumeKind: "DeleteVolume",
	ControllerPublishVolumeKind: "ControllerPublishVolume", ControllerUnpublishVolumeKind: "ControllerUnpublishVolume",
	NodeStageVolumeKind: "NodeStageVolume", NodeUnstageVolumeKind: "NodeUnstageVolume",
	NodePublishVolumeKind: "NodePublishVolume", NodeUnpublishVolumeKind: "NodeUnpublishVolume",
}

// String is CSI's name of the call.
func (kind Kind) String() string { return kindNames[kind] }

// The limits of what a frame carries, in bytes or in number.
const (
	MaxName         = 128
	MaxFsType       = 128
	MaxNode         = 255
	MaxTarget       = 255
	MaxDetail       = 255
	MaxCapabilities = 8
	MaxStatus       = 16
	maxBody         = 1280
	lengthBytes     = 4
	usualBytes      = 128 // most frames have fewer
)

// OfNode says whether calls of this kind are for a node plugin, and not for the controller.
func (kind Kind) OfNode() bool { return kind >= NodeStageVolumeKind }

// A Capability is how a volume is accessed: as a block device, or mounted as a file system of a type, and in one of CSI's access modes, 1 to 7.
type Capability struct {
	Mount  bool
	FsType string
	Mode   uint8
}

// newMode says whether the capability needs a frame of version 2.
func (capability Capability) newMode() bool { return capability.Mode >= 6 }

// A Call is one call to a plugin. Node is empty where the controller is called.
type Call struct {
	Number Number
	Node   string
	Body   Body
}

// Kind says which call it is.
func (call Call) Kind() Kind { return call.Body.Kind() }

// Volume is the id that the call names, 0 for a CreateVolume.
func (call Call) Volume() uint64 { return call.Body.Volume() }

// A Body has the fields of one kind of call.
type Body interface {
	Kind() Kind
	Volume() uint64
	capabilities() []Capability
	write(*writer)
}

// CreateVolume asks for a volume of a name, with at least Required bytes and at most Limit, where that isn't 0.
type CreateVolume struct {
	Name            string
	Required, Limit uint64
	Capabilities    []Capability
}

// DeleteVolume asks to delete a volume.
type DeleteVolume struct {
	ID uint64
}

// ControllerPublishVolume asks to attach a volume to a node.
type ControllerPublishVolume struct {
	ID         uint64
	Node       string
	Capability Capability
	Readonly   bool
}

// ControllerUnpublishVolume asks to detach a volume from a node.
type ControllerUnpublishVolume struct {
	ID   uint64
	Node string
}

// NodeStageVolume asks to stage a volume at the node that is called.
type NodeStageVolume struct {
	ID         uint64
	Capability Capability
}

// NodeUnstageVolume asks to undo that.
type NodeUnstageVolume struct {
	ID uint64
}

// NodePublishVolume asks to publish a volume at a target path of the node.
type NodePublishVolume struct {
	ID         uint64
	Target     string
	Capability Capability
	Readonly   bool
}

// NodeUnpublishVolume asks to undo that.
type NodeUnpublishVolume struct {
	ID     uint64
	Target string
}

// A Reply is a plugin's reply to the call of the same number. Volume is the new volume's id in a CreateVolume's success, and else 0.
type Reply struct {
	Number Number
	Node   string
	Kind   Kind // of the call
	Status uint8
	Volume uint64
	Detail string
}

func (CreateVolume) Kind() Kind              { return CreateVolumeKind }
func (DeleteVolume) Kind() Kind              { return DeleteVolumeKind }
func (ControllerPublishVolume) Kind() Kind   { return ControllerPublishVolumeKind }
func (ControllerUnpublishVolume) Kind() Kind { return ControllerUnpublishVolumeKind }
func (NodeStageVolume) Kind() Kind           { return NodeStageVolumeKind }
func (NodeUnstageVolume) Kind() Kind         { return NodeUnstageVolumeKind }
func (NodePublishVolume) Kind() Kind         { return NodePublishVolumeKind }
func (NodeUnpublishVolume) Kind() Kind       { return NodeUnpublishVolumeKind }

func (CreateVolume) Volume() uint64                   { return 0 }
func (body DeleteVolume) Volume() uint64              { return body.ID }
func (body ControllerPublishVolume) Volume() uint64   { return body.ID }
func (body ControllerUnpublishVolume) Volume() uint64 { return body.ID }
func (body NodeStageVolume) Volume() uint64           { return body.ID }
func (body NodeUnstageVolume) Volume() uint64         { return body.ID }
func (body NodePublishVolume) Volume() uint64         { return body.ID }
func (body NodeUnpublishVolume) Volume() uint64       { return body.ID }

func (body CreateVolume) capabilities() []Capability { return body.Capabilities }
func (DeleteVolume) capabilities() []Capability      { return nil }
func (body ControllerPublishVolume) capabilities() []Capability {
	return []Capability{body.Capability}
}
func (ControllerUnpublishVolume) capabilities() []Capability { return nil }
func (body NodeStageVolume) capabilities() []Capability      { return []Capability{body.Capability} }
func (NodeUnstageVolume) capabilities() []Capability         { return nil }
func (body NodePublishVolume) capabilities() []Capability    { return []Capability{body.Capability} }
func (NodeUnpublishVolume) capabilities() []Capability       { return nil }
