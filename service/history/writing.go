package history

import (
	"strconv"

	"tufayon/service/frames"
	"tufayon/service/host"
	"tufayon/service/records"
)

// What is written of each event is appended here, so that encoding/json reads it: that takes several times as long to write it. What a row has of 0, no
// text, or no list is left out. Keys are handed in as they are written, with quotation marks and the colon.

// plain has the bytes that stand in a text of JSON as they are.
var plain = func() (plain [256]bool) {
	for it := ' '; it <= '~'; it++ {
		plain[it] = it != '"' && it != '\\' && it != '<' && it != '>' && it != '&'
	}
	return plain
}()

// isPlain says whether a text stands in JSON as it is.
func isPlain(text string) bool {
	for at := 0; at < len(text); at++ {
		if !plain[text[at]] {
			return false
		}
	}
	return true
}

func appendText(to []byte, text string) []byte {
	if !isPlain(text) {
		return append(to, encode(text)...)
	}
	to = append(to, '"')
	to = append(to, text...)
	return append(to, '"')
}

// appendKey appends a key, behind a comma where it isn't the first one of its object.
func appendKey(to []byte, key string) []byte {
	if to[len(to)-1] != '{' {
		to = append(to, ',')
	}
	return append(to, key...)
}

func appendTextOf(to []byte, key, text string) []byte { return appendText(appendKey(to, key), text) }

func appendNumberOf(to []byte, key string, number uint64) []byte {
	return strconv.AppendUint(appendKey(to, key), number, 10)
}

func appendFlagOf(to []byte, key string, is bool) []byte {
	return strconv.AppendBool(appendKey(to, key), is)
}

// appendLine appends an entry's line.
func appendLine(to []byte, entry *Entry) []byte { return append(appendEntry(to, entry), '\n') }

// appendEntry appends a line, without its end.
func appendEntry(to []byte, entry *Entry) []byte {
	if entry.What == session || entry.What == lose {
		return append(to, encode(entry)...)
	}
	to = append(to, '{')
	to = strconv.AppendInt(appendKey(to, `"time":`), entry.Time, 10)
	to = appendNumberOf(to, `"session":`, entry.Session)
	to = appendTextOf(to, `"what":`, entry.What)
	if entry.Name != "" {
		to = appendTextOf(to, `"name":`, entry.Name)
	}
	if len(entry.Event) > 0 {
		to = append(appendKey(to, `"event":`), entry.Event...)
	}
	if entry.Outcome != "" {
		to = appendTextOf(to, `"outcome":`, entry.Outcome)
	}
	to = appendCallOf(to, `"call":`, entry.Call)
	if entry.Status != 0 {
		to = appendNumberOf(to, `"status":`, uint64(entry.Status))
	}
	if entry.Volume != 0 {
		to = appendNumberOf(to, `"volume":`, entry.Volume)
	}
	if entry.Detail != "" {
		to = appendTextOf(to, `"detail":`, entry.Detail)
	}
	to = appendCallOf(to, `"sent":`, entry.Sent)
	if entry.Row != nil {
		to = appendRow(appendKey(to, `"row":`), entry.Row)
	}
	if entry.IsCut {
		to = appendFlagOf(to, `"cut":`, true)
	}
	return append(to, '}')
}

func appendCallOf(to []byte, key string, call *Call) []byte {
	if call == nil {
		return to
	}
	return appendNumbered(to, key, call.Number, call.Kind, call.Plugin)
}

func appendNumbered(to []byte, key string, number frames.Number, kind, plugin string) []byte {
	to = append(appendKey(to, key), `{"number":{`...)
	to = appendNumberOf(to, `"Session":`, number.Session)
	to = append(appendNumberOf(to, `"Call":`, number.Call), '}')
	to = appendTextOf(to, `"kind":`, kind)
	return append(appendTextOf(to, `"plugin":`, plugin), '}')
}

// appendHappening appends the line of something that happened to a volume, as appendLine does that of its entry.
func (names plugins) appendHappening(to []byte, it *host.Happening) []byte {
	begin := func(what string) {
		to = strconv.AppendInt(append(to, `{"time":`...), it.Time.UnixMilli(), 10)
		to = appendTextOf(appendNumberOf(to, `"session":`, it.Session), `"what":`, what)
		to = appendIfText(to, `"name":`, it.Name)
	}
	called := func(call *frames.Call, key string) {
		to = appendNumbered(to, key, call.Number, call.Kind().String(), names.of(call))
	}
	switch it.What {
	case host.Commanded:
		begin(commandNames[it.Command.Kind])
		to = appendEvent(appendKey(to, `"event":`), &it.Command)
		to = appendTextOf(to, `"outcome":`, outcomeOf(it))
	case host.Replied:
		begin(reply)
		called(&it.Call, `"call":`)
		to = appendIfNumber(to, `"status":`, uint64(it.Reply.Status))
		to = appendIfNumber(to, `"volume":`, it.Reply.Volume)
		to = appendIfText(to, `"detail":`, it.Reply.Detail)
	case host.Unanswered:
		begin(none)
		called(&it.Call, `"call":`)
		to = appendIfText(to, `"detail":`, it.Why)
	default:
		begin(timeout)
		to = append(appendTextOf(append(appendKey(to, `"event":`), '{'), `"timeout":`, it.Name), '}')
	}
	if it.Sent != nil {
		called(it.Sent, `"sent":`)
	}
	if it.Row != nil {
		to = appendRow(appendKey(to, `"row":`), it.Row)
	}
	return append(to, "}\n"...)
}

func appendRow(to []byte, row *records.Row) []byte {
	to = append(to, '{')
	to = appendIfText(to, `"Name":`, row.Name)
	to = appendIfNumber(to, `"Required":`, row.Required)
	to = appendIfNumber(to, `"Limit":`, row.Limit)
	to = appendIfList(to, `"Capabilities":`, row.Capabilities, appendCapability)
	to = appendIfNumber(to, `"Goal":`, uint64(row.Goal))
	to = appendIfText(to, `"Node":`, row.Node)
	to = appendIfText(to, `"Target":`, row.Target)
	if row.Capability != (frames.Capability{}) {
		to = appendCapability(appendKey(to, `"Capability":`), &row.Capability)
	}
	to = appendIf(to, `"Readonly":true`, row.Readonly)
	to = appendIfNumber(to, `"ID":`, row.ID)
	to = appendIfNumber(to, `"Exists":`, uint64(row.Exists))
	to = appendIfNumber(to, `"Tries":`, uint64(row.Tries))
	return append(appendIfList(to, `"At":`, row.At, appendAt), '}')
}

// appendIf appends a key with its value, if it is to.
func appendIf(to []byte, both string, is bool) []byte {
	if !is {
		return to
	}
	return appendKey(to, both)
}

func appendIfText(to []byte, key, text string) []byte {
	if text == "" {
		return to
	}
	return appendTextOf(to, key, text)
}

func appendIfNumber(to []byte, key string, number uint64) []byte {
	if number == 0 {
		return to
	}
	return appendNumberOf(to, key, number)
}

// appendIfList appends a list, unless there is none.
func appendIfList[T any](to []byte, key string, list []T, appendOne func([]byte, *T) []byte) []byte {
	if list == nil {
		return to
	}
	return appendList(appendKey(to, key), list, appendOne)
}

func appendList[T any](to []byte, list []T, appendOne func([]byte, *T) []byte) []byte {
	to = append(to, '[')
	for at := range list {
		if at > 0 {
			to = append(to, ',')
		}
		to = appendOne(to, &list[at])
	}
	return append(to, ']')
}

func appendAt(to []byte, at *records.At) []byte {
	to = appendIfText(append(to, '{'), `"Node":`, at.Node)
	to = appendCapability(appendKey(to, `"Capability":`), &at.Capability)
	to = appendIf(to, `"Readonly":true`, at.Readonly)
	to = appendIfNumber(to, `"Attached":`, uint64(at.Attached))
	to = appendIfNumber(to, `"Staged":`, uint64(at.Staged))
	return append(appendIfList(to, `"Targets":`, at.Targets, appendTarget), '}')
}

func appendTarget(to []byte, target *records.Target) []byte {
	to = appendIfText(append(to, '{'), `"Path":`, target.Path)
	return append(appendIfNumber(to, `"Published":`, uint64(target.Published)), '}')
}

// appendCapability appends one as a row has it.
func appendCapability(to []byte, it *frames.Capability) []byte {
	to = appendIf(append(to, '{'), `"Mount":true`, it.Mount)
	to = appendIfText(to, `"FsType":`, it.FsType)
	return append(appendIfNumber(to, `"Mode":`, uint64(it.Mode)), '}')
}

// appendAccess appends one as a schedule has it.
func appendAccess(to []byte, it *frames.Capability) []byte {
	to = append(to, '{')
	if it.Mount {
		to = appendTextOf(appendTextOf(to, `"access":`, "mount"), `"fs":`, it.FsType)
	} else {
		to = appendTextOf(to, `"access":`, "block")
	}
	return append(appendNumberOf(to, `"mode":`, uint64(it.Mode)), '}')
}

// appendEvent appends a command as a schedule has it.
func appendEvent(to []byte, command *host.Command) []byte {
	to = append(append(append(to, '{', '"'), commandNames[command.Kind]...), '"', ':')
	switch command.Kind {
	case host.Create:
		capabilities := command.Capabilities
		if capabilities == nil {
			capabilities = []frames.Capability{}
		}
		to = appendList(appendKey(append(to, '{'), `"capabilities":`), capabilities, appendAccess)
		to = appendNumberOf(to, `"limit":`, command.Limit)
		to = appendTextOf(to, `"name":`, command.Name)
		to = append(appendNumberOf(to, `"required":`, command.Required), '}')
	case host.Use:
		to = appendAccess(appendKey(append(to, '{'), `"capability":`), &command.Capability)
		to = appendTextOf(to, `"name":`, command.Name)
		to = appendTextOf(to, `"node":`, command.Node)
		to = appendFlagOf(to, `"readonly":`, command.Readonly)
		to = append(appendTextOf(to, `"target":`, command.Target), '}')
	case host.Stop:
		to = appendTextOf(append(to, '{'), `"name":`, command.Name)
		to = appendTextOf(to, `"node":`, command.Node)
		to = append(appendTextOf(to, `"target":`, command.Target), '}')
	default:
		to = appendText(to, command.Name)
	}
	return append(to, '}')
}

var commandNames = [...]string{host.Create: "create", host.Use: "use", host.Stop: "stop", host.Delete: "delete"}
