package frames

import (
	"encoding/binary"
	"errors"
	"fmt"
	"unicode/utf8"
)

// ErrLimit says that a value is outside what a frame carries.
var ErrLimit = errors.New("outside the limits of a frame")

// A writer appends fields, and remembers the first that is outside its limits.
type writer struct {
	bytes []byte
	err   error
}

func (to *writer) fail(what string) {
	if to.err == nil {
		to.err = fmt.Errorf("%s: %w", what, ErrLimit)
	}
}

func (to *writer) byte(value uint8) { to.bytes = append(to.bytes, value) }

func (to *writer) number(value uint64) { to.bytes = binary.BigEndian.AppendUint64(to.bytes, value) }

func (to *writer) text(what, value string, least, most int) {
	if len(value) < least || len(value) > most || !utf8.ValidString(value) {
		to.fail(what)
		return
	}
	to.byte(uint8(len(value)))
	to.bytes = append(to.bytes, value...)
}

func (to *writer) id(value uint64) {
	if value == 0 {
		to.fail("the volume's id")
	}
	to.number(value)
}

func (to *writer) flag(value bool) {
	if value {
		to.byte(1)
	} else {
		to.byte(0)
	}
}

func (to *writer) capability(value Capability) {
	to.flag(value.Mount)
	if value.Mount {
		to.text("the fs type", value.FsType, 0, MaxFsType)
	}
	if value.Mode < 1 || value.Mode > 7 {
		to.fail("the access mode")
	}
	to.byte(value.Mode)
}

func (to *writer) party(kind Kind, node string) {
	if kind.OfNode() {
		to.byte(1)
		to.text("the node called", node, 1, MaxNode)
	} else {
		to.byte(0)
	}
}

func (body CreateVolume) write(to *writer) {
	to.text("the name", body.Name, 1, MaxName)
	to.number(body.Required)
	to.number(body.Limit)
	if len(body.Capabilities) > MaxCapabilities {
		to.fail("the capabilities")
		return
	}
	to.byte(uint8(len(body.Capabilities)))
	for _, capability := range body.Capabilities {
		to.capability(capability)
	}
}

func (body DeleteVolume) write(to *writer) { to.id(body.ID) }

func (body ControllerPublishVolume) write(to *writer) {
	to.id(body.ID)
	to.text("the node id", body.Node, 1, MaxNode)
	to.capability(body.Capability)
	to.flag(body.Readonly)
}

func (body ControllerUnpublishVolume) write(to *writer) {
	to.id(body.ID)
	to.text("the node id", body.Node, 1, MaxNode)
}

func (body NodeStageVolume) write(to *writer) {
	to.id(body.ID)
	to.capability(body.Capability)
}

func (body NodeUnstageVolume) write(to *writer) { to.id(body.ID) }

func (body NodePublishVolume) write(to *writer) {
	to.id(body.ID)
	to.text("the target", body.Target, 1, MaxTarget)
	to.capability(body.Capability)
	to.flag(body.Readonly)
}

func (body NodeUnpublishVolume) write(to *writer) {
	to.id(body.ID)
	to.text("the target", body.Target, 1, MaxTarget)
}

// version is that of the call's frame: 2 exactly where a capability is in mode 6 or 7.
func (call Call) version() uint8 {
	for _, capability := range call.Body.capabilities() {
		if capability.newMode() {
			return 2
		}
	}
	return 1
}

// framed writes the length of a body before it.
func framed(to *writer) ([]byte, error) {
	if to.err != nil {
		return nil, to.err
	}
	binary.BigEndian.PutUint32(to.bytes, uint32(len(to.bytes)-lengthBytes))
	return to.bytes, nil
}

// Encode writes the call as a frame. It fails with ErrLimit where a field is outside its limits.
func (call Call) Encode() ([]byte, error) {
	to := &writer{bytes: make([]byte, lengthBytes, usualBytes)}
	kind := call.Kind()
	to.byte(call.version())
	to.byte(uint8(kind))
	to.number(call.Number.Session)
	to.number(call.Number.Call)
	to.party(kind, call.Node)
	call.Body.write(to)
	return framed(to)
}

// EncodeCapabilities writes capabilities one after another, as a frame has them. It fails with ErrLimit where one is outside its limits.
func EncodeCapabilities(capabilities []Capability) ([]byte, error) {
	to := &writer{}
	for _, capability := range capabilities {
		to.capability(capability)
	}
	return to.bytes, to.err
}

// Encode writes the reply as a frame. It fails with ErrLimit where a field is outside its limits.
func (reply Reply) Encode() ([]byte, error) {
	to := &writer{bytes: make([]byte, lengthBytes)}
	to.byte(1)
	to.byte(uint8(reply.Kind) + replyBit)
	to.number(reply.Number.Session)
	to.number(reply.Number.Call)
	to.party(reply.Kind, reply.Node)
	if reply.Status > MaxStatus {
		to.fail("the status")
	}
	if (reply.Volume != 0) != (reply.Kind == CreateVolumeKind && reply.Status == 0) {
		to.fail("the volume's id")
	}
	to.byte(reply.Status)
	to.number(reply.Volume)
	to.text("the detail", reply.Detail, 0, MaxDetail)
	return framed(to)
}
