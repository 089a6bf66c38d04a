package hooks

import (
	"strings"
	"testing"

	"tufayon/service/frames"
)

var private = Private{
	Secrets: map[string]string{"key": "s3cret", "long": "s3cret-and-more", "none": ""}, Parameters: map[string]string{"pool": "fast"},
	VolumeContext: map[string]string{"v": "1"}, PublishContext: map[string]string{"p": "2"}, MountFlags: []string{"ro", "data=ordered"},
}

// What is private stands on the standard input alone.
func TestInput(t *testing.T) {
	deed := Deed{
		Call: "NodeStageVolume", Volume: 7, Number: frames.Number{Session: 3, Call: 12}, Staging: "/s", Capability: &frames.Capability{Mount: true, FsType: "ext4", Mode: 5}, Private: private,
	}
	const want = `{"secrets":{"key":"s3cret","long":"s3cret-and-more","none":""},"parameters":{"pool":"fast"},` +
		`"volume_context":{"v":"1"},"publish_context":{"p":"2"},"mount_flags":["ro","data=ordered"]}` + "\n"
	if input := string(deed.Input()); input != want {
		t.Errorf("it reads %s", input)
	}
	environment := strings.Join(deed.Environment(), " ")
	const wanted = "TUFAYON_CALL=NodeStageVolume TUFAYON_VOLUME=7 TUFAYON_NUMBER=3.12 TUFAYON_STAGING=/s TUFAYON_TARGET= TUFAYON_ACCESS=mount TUFAYON_FS_TYPE=ext4 TUFAYON_MODE=5 TUFAYON_READONLY=false"
	if environment != wanted {
		t.Errorf("its environment: %s", environment)
	}
	create := Deed{
		Call: "CreateVolume", Volume: 7, Name: "v", Required: 10, Limit: 20, Capabilities: []frames.Capability{{Mode: 1}, {Mount: true, FsType: "xfs", Mode: 7}},
	}
	if input := string(create.Input()); input != `{"capabilities":[{"access":"block","fs_type":"","mode":1},{"access":"mount","fs_type":"xfs","mode":7}]}`+"\n" {
		t.Errorf("it reads %s", input)
	}
	if environment := strings.Join(create.Environment(), " "); environment !=
		"TUFAYON_CALL=CreateVolume TUFAYON_VOLUME=7 TUFAYON_NUMBER=0.0 TUFAYON_NODE= TUFAYON_NAME=v TUFAYON_REQUIRED=10 TUFAYON_LIMIT=20" {
		t.Errorf("its environment: %s", environment)
	}
}

// A secret is hidden wherever it stands, a parameter, a flag or what a context has where it is a word.
func TestHide(t *testing.T) {
	deed := Deed{Private: private}
	for text, want := range map[string]string{
		"with s3cret-and-more, s3crets and xs3cret": "with ***, ***s and x***",
		"process of pool fast (ro,data=ordered)":    "process of pool *** (***,***)",
		"ro":                                        "***",
		"at 1 and 2, not 12":                        "at *** and ***, not 12",
		"wrong, faster, \u00e9ro, ro\u00e9":         "wrong, faster, \u00e9ro, ro\u00e9",
		"":                                          "",
	} {
		if hidden := deed.Hide(text); hidden != want {
			t.Errorf("%q is %q, not %q", text, hidden, want)
		}
	}
}

// A secret with an end of the line, or of several lines, is hidden without the space around it, and so is each line that is long enough.
func TestHideLines(t *testing.T) {
	deed := Deed{Private: Private{Secrets: map[string]string{"ended": "s3cret\n", "short": "abc\r\n", "lines": "one two\n\n\tthree\nxy\n", "none": " \n"}}}
	for text, want := range map[string]string{
		"with s3cret, abc":                      "with ***, ***",
		"one two, three, xy":                    "***, ***, xy",
		"all: one two\n\n\tthree\nxy\nand on":   "all: ***\nand on",
		"no end: one two\n\n\tthree\nxy and on": "no end: *** and on",
		"one\ntwo":                              "one\ntwo",
		" \n":                                   " \n",
		"a b":                                   "a b",
	} {
		if hidden := deed.Hide(text); hidden != want {
			t.Errorf("%q is %q, not %q", text, hidden, want)
		}
	}
	deed.Call = "CreateVolume"
	for value, tells := range map[string]bool{"a s3cret b": true, "abc": true, "three": true, "xy": false} {
		if _, err := deed.ReadAnswer([]byte(`{"volume_context":{"k":"` + value + `"}}`)); (err != nil) != tells {
			t.Errorf("a context with %s: %v", value, err)
		}
	}
}

// What a command answers is an object with the call's own context, of no more than CSI has, in which no secret stands; or nothing.
func TestAnswers(t *testing.T) {
	long := strings.Repeat("x", MaxMap)
	for _, it := range []struct{ call, output, volume, publish, fault string }{
		{"CreateVolume", "", "", "", ""},
		{"CreateVolume", " \n", "", "", ""},
		{"CreateVolume", `{"volume_context":{"k":"a"}}` + "\n", "a", "", ""},
		{"ControllerPublishVolume", `{"publish_context":{"k":"b"}}`, "", "b", ""},
		{"DeleteVolume", "anything", "", "", ""},
		{"NodeStageVolume", `{"volume_context":{"k":"a"}}`, "", "", ""},
		{"CreateVolume", `{"publish_context":{"k":"b"}}`, "", "", "the hook's answer has the context of another call"},
		{"ControllerPublishVolume", `{"volume_context":{"k":"b"}}`, "", "", "the hook's answer has the context of another call"},
		{"CreateVolume", "done s3cret", "", "", "the hook's answer is no such object"},
		{"CreateVolume", `{"other":1}`, "", "", "the hook's answer is no such object"},
		{"CreateVolume", `{"volume_context":{"k":1}}`, "", "", "the hook's answer is no such object"},
		{"CreateVolume", `{}{}`, "", "", "the hook's answer is more than an object"},
		{"CreateVolume", `{"volume_context":{"k":"a"}}}`, "", "", "the hook's answer is more than an object"},
		{"ControllerPublishVolume", `{"publish_context":{"k":"b"}}]`, "", "", "the hook's answer is more than an object"},
		{"CreateVolume", "null", "", "", "the hook's answer is no such object"},
		{"CreateVolume", `{"volume_context":{"k":"` + long + `"}}`, "", "", "the hook's answer has a context of more than 4096 bytes"},
		{"CreateVolume", `{"volume_context":{"k":"a s3cret b"}}`, "", "", "the hook's answer tells a secret"},
	} {
		answer, err := Deed{Call: it.call, Private: private}.ReadAnswer([]byte(it.output))
		if (err != nil || it.fault != "") && (err == nil || err.Error() != it.fault) {
			t.Errorf("%s, %.40s: %v, not %s", it.call, it.output, err, it.fault)
		}
		if answer.VolumeContext["k"] != it.volume && err == nil || answer.PublishContext["k"] != it.publish && err == nil {
			t.Errorf("%s, %.40s: %+v", it.call, it.output, answer)
		}
	}
}
