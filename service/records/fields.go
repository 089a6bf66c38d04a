package records

import (
	"encoding/binary"

	"tufayon/service/frames"
)

// fields takes the fields of a value from the left, and remembers the first fault.
type fields struct {
	rest []byte
	err  error
}

// take gives the next bytes, or as many zeros after a fault.
func (from *fields) take(count int) []byte {
	if from.err != nil || len(from.rest) < count {
		from.err = ErrValue
		return make([]byte, count)
	}
	taken := from.rest[:count]
	from.rest = from.rest[count:]
	return taken
}

func (from *fields) byte() uint8    { return from.take(1)[0] }
func (from *fields) number() uint64 { return binary.BigEndian.Uint64(from.take(8)) }
func (from *fields) text() string   { return string(from.take(int(from.byte()))) }
func (from *fields) flag() bool     { return from.byte() == 1 }

func (from *fields) capability() frames.Capability {
	if from.err != nil {
		return frames.Capability{}
	}
	capability, left, err := frames.DecodeCapability(from.rest)
	from.rest, from.err = left, err
	return capability
}

// capabilities takes a count, and so many.
func (from *fields) capabilities() []frames.Capability {
	var capabilities []frames.Capability
	for count := from.byte(); count > 0 && from.err == nil; count-- {
		capabilities = append(capabilities, from.capability())
	}
	return capabilities
}
