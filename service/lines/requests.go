// Package lines reads and writes the lines of csi-replay orchestrator: docs/LINES.md, "The lines of `csi-replay orchestrator`".
package lines

import (
	"encoding/binary"
	"encoding/hex"
	"encoding/json"
	"strings"

	"tufayon/service/frames"
	"tufayon/service/numbers"
)

// A Fault says why a line is no request, by its name.
type Fault string

// The faults.
const (
	NotJSON  Fault = "NotJson"
	BadLine  Fault = "BadLine"
	BadFrame Fault = "BadFrame"
)

func (fault Fault) Error() string { return string(fault) }

// A Key says what a line asks.
type Key string

// The keys of requests.
const (
	Create  Key = "create"
	Use     Key = "use"
	Stop    Key = "stop"
	Delete  Key = "delete"
	Timeout Key = "timeout"
	Lose    Key = "lose"
	Reply   Key = "reply"
)

// A Request is what a line asks. Which fields count, its key says.
type Request struct {
	Key             Key
	Name            string
	Required, Limit uint64              // of a create
	Capabilities    []frames.Capability // of a create, or the one of a use
	Node, Target    string              // of a use or a stop; the node alone of a loss, which has no name
	Readonly        bool                // of a use
	Frame           []byte              // of a reply: the bytes that came
}

// Read reads the request that a line is, without its newline. An error is a Fault.
func Read(line []byte) (Request, error) {
	value, ok := parse(line)
	if !ok {
		return Request{}, NotJSON
	}
	only, isObject := value.(map[string]any)
	if !isObject || len(only) != 1 {
		return Request{}, BadLine
	}
	for key, value := range only {
		if Key(key) == Reply {
			return readReply(value)
		}
		return readCommand(Key(key), value)
	}
	return Request{}, BadLine
}

// readReply reads the bytes of one frame, of which its length alone is judged here.
func readReply(value any) (Request, error) {
	text, ok := value.(string)
	if !ok || text != strings.ToLower(text) {
		return Request{}, BadFrame
	}
	frame, err := hex.DecodeString(text)
	if err != nil || len(frame) < 4 || uint64(binary.BigEndian.Uint32(frame)) != uint64(len(frame)-4) {
		return Request{}, BadFrame
	}
	return Request{Key: Reply, Frame: frame}, nil
}

func readCommand(key Key, value any) (Request, error) {
	judged, request := &judge{}, Request{Key: key}
	switch key {
	case Create:
		fields := judged.object(value, 4)
		request.Name = judged.text(fields["name"], 1, frames.MaxName)
		request.Required, request.Limit = judged.number(fields["required"]), judged.number(fields["limit"])
		request.Capabilities = judged.capabilities(fields["capabilities"])
	case Use:
		fields := judged.object(value, 5)
		request.Capabilities = []frames.Capability{judged.capability(fields["capability"])}
		request.Readonly = judged.flag(fields["readonly"])
		request.Name, request.Node, request.Target = judged.place(fields)
	case Stop:
		request.Name, request.Node, request.Target = judged.place(judged.object(value, 3))
	case Delete, Timeout:
		request.Name = judged.text(value, 1, frames.MaxName)
	case Lose:
		request.Node = judged.text(value, 1, frames.MaxNode)
	default:
		judged.isBad = true
	}
	if judged.isBad {
		return Request{}, BadLine
	}
	return request, nil
}

// judge reads values, and remembers whether one isn't as it has to be.
type judge struct {
	isBad bool
}

func (judged *judge) refuse(wrong bool) { judged.isBad = judged.isBad || wrong }

// object gives the members of an object that has so many. Where each that is looked for is there, it has no others.
func (judged *judge) object(value any, size int) map[string]any {
	members, ok := value.(map[string]any)
	judged.refuse(!ok || len(members) != size)
	return members
}

func (judged *judge) text(value any, least, most int) string {
	text, ok := value.(string)
	judged.refuse(!ok || len(text) < least || len(text) > most)
	return text
}

func (judged *judge) number(value any) uint64 {
	digits, _ := value.(json.Number)
	number, ok := numbers.Decimal(string(digits))
	judged.refuse(!ok)
	return number
}

func (judged *judge) flag(value any) bool {
	flag, ok := value.(bool)
	judged.refuse(!ok)
	return flag
}

func (judged *judge) place(fields map[string]any) (name, node, target string) {
	return judged.text(fields["name"], 1, frames.MaxName), judged.text(fields["node"], 1, frames.MaxNode), judged.text(fields["target"], 1, frames.MaxTarget)
}

func (judged *judge) capability(value any) frames.Capability {
	members, _ := value.(map[string]any)
	access, capability, size := members["access"], frames.Capability{}, 2
	judged.refuse(access != "block" && access != "mount")
	if access == "mount" {
		capability.Mount, capability.FsType, size = true, judged.text(members["fs"], 0, frames.MaxFsType), 3
	}
	mode := judged.number(members["mode"])
	judged.refuse(len(members) != size || mode < 1 || mode > 7)
	capability.Mode = uint8(mode)
	return capability
}

func (judged *judge) capabilities(value any) []frames.Capability {
	items, ok := value.([]any)
	judged.refuse(!ok || len(items) > frames.MaxCapabilities)
	var capabilities []frames.Capability
	for _, item := range items {
		if !judged.isBad {
			capabilities = append(capabilities, judged.capability(item))
		}
	}
	return capabilities
}
