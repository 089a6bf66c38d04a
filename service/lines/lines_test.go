package lines

import (
	"encoding/hex"
	"errors"
	"reflect"
	"strings"
	"testing"

	"tufayon/service/frames"
	"tufayon/service/records"
)

const deletion = "0000001b010200000000000000010000000000000002000000000000000001"

// The lines that docs/LINES.md spells out, and answers of each other form, by its tables.
func TestAnswers(t *testing.T) {
	frame, _ := hex.DecodeString(deletion)
	block, mount := frames.Capability{Mode: 1}, frames.Capability{Mount: true, FsType: "\"\\\n\u00e9", Mode: 7}
	v := records.Wanted{Name: "v", Required: 10, Limit: 20, Capabilities: []frames.Capability{block, mount}, Node: "n1", Target: "/a", Capability: mount}
	about := func(goal records.Goal, outcome string, frame []byte) []byte {
		wanted := v
		wanted.Goal = goal
		said, err := About("v", wanted, outcome, frame)
		if err != nil {
			t.Error(err)
		}
		return said
	}
	for _, it := range []struct {
		said []byte
		want string
	}{
		{Opened(2, []string{"v"}), `{"session":2,"wanted":["v"]}`},
		{Opened(1, nil), `{"session":1,"wanted":[]}`},
		{about(records.ToDelete, Sent, frame), `{"goal":{"delete":"v"},"name":"v","outcome":"sent","send":{"call":2,"frame":"` + deletion +
			`","kind":"DeleteVolume","plugin":"controller","session":1}}`},
		{about(records.None, Taken, nil), `{"goal":null,"name":"v","outcome":"taken"}`},
		{about(records.ToCreate, Refused(4), nil), `{"goal":{"create":{"capabilities":[{"access":"block","mode":1},` +
			`{"access":"mount","fs":"\"\\\né","mode":7}],"limit":20,"name":"v","required":10}},"name":"v","outcome":"refused 4 Busy"}`},
		{about(records.ToUse, Met, nil), `{"goal":{"use":{"capability":{"access":"mount","fs":"\"\\\né","mode":7},"name":"v","node":"n1",` +
			`"readonly":false,"target":"/a"}},"name":"v","outcome":"met"}`},
		{about(records.ToStop, Met, nil), `{"goal":{"stop":{"name":"v","node":"n1","target":"/a"}},"name":"v","outcome":"met"}`},
		{Ignored(), `{"outcome":"ignored"}`},
		{AboutLoss("n\"1", HasLost, 3), `{"node":"n\"1","outcome":"lost","session":3}`},
		{AboutLoss("n1", Refused(14), 1<<64-1), `{"node":"n1","outcome":"refused 14 NumbersSpent","session":18446744073709551615}`},
		{about(records.None, Refused(17), nil), `{"goal":null,"name":"v","outcome":"refused 17 NodeInUse"}`},
		{Faulty(BadLine), `{"fault":"BadLine"}`},
		{Opened(1, []string{"\x00\x1f\b\t\n\f\r\x7f</\u2028"}), "{\"session\":1,\"wanted\":[\"\\u0000\\u001f\\b\\t\\n\\f\\r\x7f</\u2028\"]}"},
	} {
		if string(it.said) != it.want+"\n" {
			t.Errorf("%s, not %s", it.said, it.want)
		}
	}
}

func TestRequests(t *testing.T) {
	block := frames.Capability{Mode: 1}
	frame, _ := hex.DecodeString(deletion)
	for line, want := range map[string]Request{
		`{"delete":"v"}`:                                  {Key: Delete, Name: "v"},
		"\t{ \"timeout\":\"\\u0076\"}\r":                  {Key: Timeout, Name: "v"},
		`{"delete":"w","delete":"v"}`:                     {Key: Delete, Name: "v"},
		`{"lose":"n1"}`:                                   {Key: Lose, Node: "n1"},
		`{"lose":"` + strings.Repeat("n", 255) + `"}`:     {Key: Lose, Node: strings.Repeat("n", 255)},
		`{"reply":"` + deletion + `"}`:                    {Key: Reply, Frame: frame},
		`{"delete":"\ud83d\ude00"}`:                       {Key: Delete, Name: "\U0001f600"},
		`{"stop":{"target":"/a","node":"n1","name":"v"}}`: {Key: Stop, Name: "v", Node: "n1", Target: "/a"},
		`{"use":{"capability":{"mode":1,"access":"block"},"name":"v","node":"n1","readonly":true,"target":"/a"}}`: {
			Key: Use, Name: "v", Node: "n1", Target: "/a", Capabilities: []frames.Capability{block}, Readonly: true},
		`{"create":{"capabilities":[{"access":"mount","fs":"","mode":7},{"access":"block","mode":1}],"limit":0,"name":"v","required":18446744073709551615}}`: {
			Key: Create, Name: "v", Required: 1<<64 - 1, Capabilities: []frames.Capability{{Mount: true, Mode: 7}, block}},
	} {
		if request, err := Read([]byte(line)); err != nil || !reflect.DeepEqual(request, want) {
			t.Errorf("%s: %+v, %v, not %+v", line, request, err, want)
		}
	}
}

func TestFaults(t *testing.T) {
	deep := func(depth int) string { return strings.Repeat("[", depth) + strings.Repeat("]", depth) }
	way := func(capability string) string {
		return `{"create":{"capabilities":[` + capability + `],"limit":0,"name":"v","required":1}}`
	}
	for fault, lines := range map[Fault][]string{
		NotJSON: {"", " ", "{", `{"delete":"v"}{}`, `{"delete":"` + "\xff" + `"}`, `{"delete":1e999}`, `{"a":1e999,"a":1}`, `{"delete":` + deep(127) + `}`,
			`{"delete":"\ud83d"}`, `{"delete":"\ude00\ud83d"}`, `{"\ud83d\u0061":1}`, `{"delete":"\ud83d\\ude00"}`, `{"delete":01}`, `{"delete":"` + "\n" + `"}`},
		BadLine: {"null", `"delete"`, "[]", "{}", `{"delete":"v","timeout":"v"}`, `{"Delete":"v"}`, `{"delete":""}`, `{"delete":` + deep(126) + `}`,
			`{"delete":"` + strings.Repeat("v", 129) + `"}`, `{"deliver":1}`, `{"lose":""}`, `{"lose":["n1"]}`,
			`{"lose":"` + strings.Repeat("n", 256) + `"}`, `{"stop":{"name":"v","node":"","target":"/a"}}`,
			`{"stop":{"name":"v","node":"n1","target":"/a","more":1}}`, `{"stop":{"name":"v","node":"n1"}}`, `{"delete":1e308}`,
			way(`{"access":"block","mode":0}`), way(`{"access":"block","mode":8}`), way(`{"access":"block","mode":1.0}`), way(`{"access":"block","mode":-0}`),
			way(`{"access":"block","mode":257}`), way(`{"access":"block","fs":"","mode":1}`), way(`{"access":"mount","mode":1}`), way(`{"access":{},"mode":1}`),
			way(strings.TrimSuffix(strings.Repeat(`{"access":"block","mode":1},`, 9), ",")),
			`{"create":{"capabilities":[],"limit":0,"name":"v","required":18446744073709551616}}`},
		BadFrame: {`{"reply":""}`, `{"reply":1}`, `{"reply":"` + deletion[1:] + `"}`, `{"reply":"` + deletion[2:] + `"}`, `{"reply":"` + deletion + `00"}`,
			`{"reply":"` + strings.ToUpper(deletion) + `"}`},
	} {
		for _, line := range lines {
			if request, err := Read([]byte(line)); !errors.Is(err, fault) {
				t.Errorf("%s: %+v, %v, not %v", line, request, err, fault)
			}
		}
	}
}

func TestScanner(t *testing.T) {
	long := strings.Repeat("x", mostOfLine)
	for _, it := range []struct {
		input string
		lines []string
		fault string
	}{
		{"", nil, ""},
		{"a\r\n\nb", []string{"a\r", "", "b"}, ""},
		{long + "\n" + long, []string{long, long}, ""},
		{"a\n" + long + "x\n", []string{"a"}, "line fault at 2"},
		{long + "x", nil, "line fault at 1"},
	} {
		scanner := NewScanner(strings.NewReader(it.input))
		var lines []string
		for scanner.Scan() {
			lines = append(lines, string(scanner.Line()))
		}
		if err := scanner.Err(); (err == nil) != (it.fault == "") || err != nil && err.Error() != it.fault || !reflect.DeepEqual(lines, it.lines) {
			t.Errorf("%.20q of %d bytes: %d lines, %v", it.input, len(it.input), len(lines), err)
		}
	}
}
