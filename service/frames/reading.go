package frames

import (
	"encoding/binary"
	"errors"
	"fmt"
	"unicode/utf8"
)

// ErrFrame says that bytes are no frame of the wanted sort.
var ErrFrame = errors.New("no frame")

// A reader takes fields from the left, and remembers the first fault.
type reader struct {
	bytes []byte
	err   error
}

func (from *reader) fail(what string) {
	if from.err == nil {
		from.err = fmt.Errorf("%s: %w", what, ErrFrame)
	}
}

// take gives the next bytes, or as many zeros after a fault.
func (from *reader) take(count int) []byte {
	if from.err != nil || len(from.bytes) < count {
		from.fail("it ends in a field")
		return make([]byte, count)
	}
	taken := from.bytes[:count]
	from.bytes = from.bytes[count:]
	return taken
}

func (from *reader) byte() uint8    { return from.take(1)[0] }
func (from *reader) number() uint64 { return binary.BigEndian.Uint64(from.take(8)) }

func (from *reader) text(what string, least, most int) string {
	count := int(from.byte())
	value := string(from.take(count))
	if count < least || count > most || !utf8.ValidString(value) {
		from.fail(what)
	}
	return value
}

func (from *reader) id() uint64 {
	value := from.number()
	if value == 0 {
		from.fail("the volume's id")
	}
	return value
}

func (from *reader) flag() bool {
	value := from.byte()
	if value > 1 {
		from.fail("a flag")
	}
	return value == 1
}

func (from *reader) capability() Capability {
	capability := Capability{Mount: from.flag()}
	if capability.Mount {
		capability.FsType = from.text("the fs type", 0, MaxFsType)
	}
	capability.Mode = from.byte()
	if capability.Mode < 1 || capability.Mode > 7 {
		from.fail("the access mode")
	}
	return capability
}

// head reads what calls and replies have alike: version and kind, number, and the plugin.
func (from *reader) head() (version uint8, kind Kind, number Number, node string) {
	version = from.byte()
	kind = Kind(from.byte())
	number = Number{Session: from.number(), Call: from.number()}
	party := from.byte()
	if party > 1 || (party == 1) != (kind&^replyBit).OfNode() {
		from.fail("the plugin")
	}
	if party == 1 {
		node = from.text("the node called", 1, MaxNode)
	}
	return version, kind, number, node
}

func (from *reader) create() CreateVolume {
	body := CreateVolume{Name: from.text("the name", 1, MaxName), Required: from.number(), Limit: from.number()}
	count := int(from.byte())
	if count > MaxCapabilities {
		from.fail("the capabilities")
		return body
	}
	for ; count > 0; count-- {
		body.Capabilities = append(body.Capabilities, from.capability())
	}
	return body
}

func (from *reader) body(kind Kind) Body {
	switch kind {
	case CreateVolumeKind:
		return from.create()
	case DeleteVolumeKind:
		return DeleteVolume{ID: from.id()}
	case ControllerPublishVolumeKind:
		return ControllerPublishVolume{from.id(), from.text("the node id", 1, MaxNode), from.capability(), from.flag()}
	case ControllerUnpublishVolumeKind:
		return ControllerUnpublishVolume{from.id(), from.text("the node id", 1, MaxNode)}
	case NodeStageVolumeKind:
		return NodeStageVolume{from.id(), from.capability()}
	case NodeUnstageVolumeKind:
		return NodeUnstageVolume{ID: from.id()}
	case NodePublishVolumeKind:
		return NodePublishVolume{from.id(), from.text("the target", 1, MaxTarget), from.capability(), from.flag()}
	case NodeUnpublishVolumeKind:
		return NodeUnpublishVolume{from.id(), from.text("the target", 1, MaxTarget)}
	}
	from.fail("the kind")
	return nil
}

// bodyOf gives the body of the one frame that the bytes are.
func bodyOf(frame []byte) (*reader, error) {
	if len(frame) < lengthBytes {
		return nil, fmt.Errorf("it has fewer than %d bytes: %w", lengthBytes, ErrFrame)
	}
	length := binary.BigEndian.Uint32(frame)
	if length > maxBody || int(length) != len(frame)-lengthBytes {
		return nil, fmt.Errorf("the length: %w", ErrFrame)
	}
	return &reader{bytes: frame[lengthBytes:]}, nil
}

func (from *reader) end() error {
	if len(from.bytes) > 0 {
		from.fail("bytes are left after the last field")
	}
	return from.err
}

// DecodeCall reads the one call that the bytes are.
func DecodeCall(frame []byte) (Call, error) {
	from, err := bodyOf(frame)
	if err != nil {
		return Call{}, err
	}
	version, kind, number, node := from.head()
	call := Call{Number: number, Node: node, Body: from.body(kind)}
	if err := from.end(); err != nil {
		return Call{}, err
	}
	if version != call.version() {
		return Call{}, fmt.Errorf("the version: %w", ErrFrame)
	}
	return call, nil
}

// DecodeReply reads the one reply that the bytes are.
func DecodeReply(frame []byte) (Reply, error) {
	from, err := bodyOf(frame)
	if err != nil {
		return Reply{}, err
	}
	version, kind, number, node := from.head()
	if version != 1 || kind < replyBit+CreateVolumeKind || kind > replyBit+NodeUnpublishVolumeKind {
		from.fail("the kind")
	}
	reply := Reply{Number: number, Node: node, Kind: kind &^ replyBit, Status: from.byte(), Volume: from.number(), Detail: from.text("the detail", 0, MaxDetail)}
	if reply.Status > MaxStatus {
		from.fail("the status")
	}
	if (reply.Volume != 0) != (reply.Kind == CreateVolumeKind && reply.Status == 0) {
		from.fail("the volume's id")
	}
	if err := from.end(); err != nil {
		return Reply{}, err
	}
	return reply, nil
}

// DecodeCapability reads the capability that bytes begin with, and gives what is left of them.
func DecodeCapability(bytes []byte) (Capability, []byte, error) {
	from := &reader{bytes: bytes}
	capability := from.capability()
	return capability, from.bytes, from.err
}
