package lines

import (
	"encoding/hex"
	"fmt"
	"strings"

	"tufayon/service/frames"
	"tufayon/service/records"
)

// What became of a request about a volume, or of a node's loss, unless it was refused.
const (
	Sent    = "sent"
	Met     = "met"
	Taken   = "taken"
	HasLost = "lost"
)

var refusals = [...]string{
	1: "NameUsed", 2: "NoSuchVolume", 3: "NotCreated", 4: "Busy", 5: "NoSuchNode", 6: "NotCapable", 7: "HeldElsewhere", 8: "WriterElsewhere",
	9: "HeldOtherwise", 10: "TargetTaken", 11: "NoSuchTarget", 12: "InUse", 13: "Idle", 14: "NumbersSpent", 15: "Full", 16: "NoMemory",
	17: "NodeInUse",
}

// Refused is the outcome of a request that was refused with this number.
func Refused(number uint32) string {
	if int(number) >= len(refusals) {
		return fmt.Sprintf("refused %d", number)
	}
	return fmt.Sprintf("refused %d %s", number, refusals[number])
}

// Opened is the first line, with its newline: the session, and the names of the volumes of which something is wanted, ordered by bytes.
func Opened(session uint64, wanted []string) []byte {
	return line(`{"session":%d,"wanted":[%s]}`, session, listed(wanted))
}

// Recovered is the line, with its newline, that tells what was recovered: the lost nodes, the session, how many volumes there are, and the names of those
// of which something is wanted.
func Recovered(lost []string, session uint64, volumes int, wanted []string) []byte {
	return line(`{"lost":[%s],"session":%d,"volumes":%d,"wanted":[%s]}`, listed(lost), session, volumes, listed(wanted))
}

// listed writes texts, with commas between.
func listed(texts []string) string {
	all := make([]string, 0, len(texts))
	for _, text := range texts {
		all = append(all, quoted(text))
	}
	return strings.Join(all, ",")
}

// About is an answer about the volume of a name: what is wanted of it now, what became of the request, and the call that is to be sent, if its
// frame has bytes.
func About(name string, wanted records.Wanted, outcome string, frame []byte) ([]byte, error) {
	send := ""
	if len(frame) > 0 {
		call, err := frames.DecodeCall(frame)
		if err != nil {
			return nil, err
		}
		plugin := "controller"
		if call.Kind().OfNode() {
			plugin = "node:" + call.Node
		}
		send = fmt.Sprintf(`,"send":{"call":%d,"frame":"%s","kind":"%v","plugin":%s,"session":%d}`,
			call.Number.Call, hex.EncodeToString(frame), call.Kind(), quoted(plugin), call.Number.Session)
	}
	return line(`{"goal":%s,"name":%s,"outcome":"%s"%s}`, goal(wanted), quoted(name), outcome, send), nil
}

// AboutLoss is the answer about a node that was to be lost: what became of that, and the present session.
func AboutLoss(node, outcome string, session uint64) []byte {
	return line(`{"node":%s,"outcome":"%s","session":%d}`, quoted(node), outcome, session)
}

// Ignored is the answer to a reply that is ignored.
func Ignored() []byte { return line(`{"outcome":"ignored"}`) }

// Faulty is the answer to a line that is no request.
func Faulty(fault Fault) []byte { return line(`{"fault":"%s"}`, fault) }

func line(form string, values ...any) []byte { return []byte(fmt.Sprintf(form, values...) + "\n") }

func goal(wanted records.Wanted) string {
	name, node, target := quoted(wanted.Name), quoted(wanted.Node), quoted(wanted.Target)
	switch wanted.Goal {
	case records.ToCreate:
		var ways []string
		for _, it := range wanted.Capabilities {
			ways = append(ways, capability(it))
		}
		form := `{"create":{"capabilities":[%s],"limit":%d,"name":%s,"required":%d}}`
		return fmt.Sprintf(form, strings.Join(ways, ","), wanted.Limit, name, wanted.Required)
	case records.ToUse:
		form := `{"use":{"capability":%s,"name":%s,"node":%s,"readonly":%t,"target":%s}}`
		return fmt.Sprintf(form, capability(wanted.Capability), name, node, wanted.Readonly, target)
	case records.ToStop:
		return fmt.Sprintf(`{"stop":{"name":%s,"node":%s,"target":%s}}`, name, node, target)
	case records.ToDelete:
		return fmt.Sprintf(`{"delete":%s}`, name)
	}
	return "null"
}

func capability(it frames.Capability) string {
	if it.Mount {
		return fmt.Sprintf(`{"access":"mount","fs":%s,"mode":%d}`, quoted(it.FsType), it.Mode)
	}
	return fmt.Sprintf(`{"access":"block","mode":%d}`, it.Mode)
}

// quoted writes a text as a report does: Go's writer escapes more.
func quoted(text string) string {
	var to strings.Builder
	to.WriteByte('"')
	for at := 0; at < len(text); at++ {
		switch it := text[at]; it {
		case '"', '\\':
			to.WriteByte('\\')
			to.WriteByte(it)
		case '\b':
			to.WriteString(`\b`)
		case '\t':
			to.WriteString(`\t`)
		case '\n':
			to.WriteString(`\n`)
		case '\f':
			to.WriteString(`\f`)
		case '\r':
			to.WriteString(`\r`)
		default:
			if it < 0x20 {
				fmt.Fprintf(&to, `\u%04x`, it)
			} else {
				to.WriteByte(it)
			}
		}
	}
	to.WriteByte('"')
	return to.String()
}
