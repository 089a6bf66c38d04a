package main

import (
	"encoding/binary"
	"fmt"
	"os"
	"path/filepath"
	"strconv"
)

const (
	mostTapes = 512     // connections that are kept
	mostBytes = 4 << 20 // of each
	mostAhead = 256     // segments that are kept before those in front of them came
)

// tapes are what clients sent to some ports, by their connections, as anybody sees it who is on the way.
type tapes struct {
	ports map[uint16]bool
	of    map[string]*tape
	all   []*tape
}

// tape is what one client sent.
type tape struct {
	name  string
	next  uint32 // the number of the byte that is due
	bytes []byte
	ahead map[uint32][]byte // segments that came early
}

func (tapes *tapes) begin(port string) error {
	number, err := strconv.ParseUint(port, 10, 16)
	if err != nil {
		return errWhat
	}
	if tapes.ports == nil {
		tapes.ports, tapes.of = map[uint16]bool{}, map[string]*tape{}
	}
	tapes.ports[uint16(number)] = true
	return nil
}

// take keeps what an Ethernet frame has of a connection, if it has something: an IPv4 packet with a TCP segment.
func (tapes *tapes) take(frame []byte) {
	if len(tapes.ports) == 0 || len(frame) < 34 || binary.BigEndian.Uint16(frame[12:]) != 0x0800 || frame[23] != 6 {
		return
	}
	packet := frame[14:]
	size, head := int(binary.BigEndian.Uint16(packet[2:])), int(packet[0]&15)*4
	if size > len(packet) || head+20 > size {
		return
	}
	segment := packet[head:size]
	from, to, begins := binary.BigEndian.Uint16(segment), binary.BigEndian.Uint16(segment[2:]), int(segment[12]>>4)*4
	if !tapes.ports[to] || begins > len(segment) {
		return
	}
	name := fmt.Sprintf("%d.%d.%d.%d-%d-%d.%d.%d.%d-%d", packet[12], packet[13], packet[14], packet[15], from,
		packet[16], packet[17], packet[18], packet[19], to)
	number, flags := binary.BigEndian.Uint32(segment[4:]), segment[13]
	if flags&2 != 0 { // SYN: a connection begins
		if there := tapes.of[name]; (there == nil || there.next != number+1) && len(tapes.all) < mostTapes {
			made := &tape{name: name, next: number + 1, ahead: map[uint32][]byte{}}
			tapes.of[name], tapes.all = made, append(tapes.all, made)
		}
		return
	}
	if its := tapes.of[name]; its != nil && begins < len(segment) {
		its.add(number, segment[begins:])
	}
}

// add keeps a segment, once and in its place.
func (tape *tape) add(number uint32, content []byte) {
	for content != nil {
		behind := int32(tape.next - number) // so many of its bytes came before
		if behind < 0 {
			if len(tape.ahead) < mostAhead {
				tape.ahead[number] = content
			}
			return
		}
		if int(behind) < len(content) && len(tape.bytes) < mostBytes {
			tape.bytes = append(tape.bytes, content[behind:]...)
			tape.next += uint32(len(content)) - uint32(behind)
		}
		number = tape.next
		content = tape.ahead[number]
		delete(tape.ahead, number)
	}
}

// write writes a file for each connection over which something was sent, in the order in which they began.
func (tapes *tapes) write(folder string) error {
	for at, it := range tapes.all {
		if len(it.bytes) == 0 {
			continue
		}
		if err := os.WriteFile(filepath.Join(folder, fmt.Sprintf("%03d-%s", at, it.name)), it.bytes, 0o600); err != nil {
			return err
		}
	}
	return nil
}
