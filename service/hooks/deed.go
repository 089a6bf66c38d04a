package hooks

import (
	"bytes"
	"context"
	"encoding/json"
	"errors"
	"fmt"
	"io"
	"strconv"
	"strings"

	"tufayon/service/frames"
	"tufayon/service/numbers"
)

// A Deed is what a call asks for. Each may be asked for again when it is done already.
type Deed struct {
	Call            string // CSI's name of the call
	Volume          uint64
	Number          frames.Number // the call's
	Name            string        // of a CreateVolume, with the next two: the bytes that the call asks for
	Required, Limit uint64
	Capabilities    []frames.Capability
	Node            string             // of an attachment, or of its undoing
	Staging, Target string             // of a node's call
	Capability      *frames.Capability // of what is attached, staged or published; nil of their undoing
	Readonly        bool
	Private         Private
}

// Private is what of a request stands in no argument, environment, log, store or error: a command reads it from a pipe.
type Private struct {
	Secrets        map[string]string `json:"secrets,omitempty"`
	Parameters     map[string]string `json:"parameters,omitempty"`
	VolumeContext  map[string]string `json:"volume_context,omitempty"`
	PublishContext map[string]string `json:"publish_context,omitempty"`
	MountFlags     []string          `json:"mount_flags,omitempty"`
}

// An Answer is what a controller's command tells of what it did, for the response.
type Answer struct {
	VolumeContext  map[string]string `json:"volume_context,omitempty"`  // of a CreateVolume
	PublishContext map[string]string `json:"publish_context,omitempty"` // of a ControllerPublishVolume
}

// Hooks does deeds.
type Hooks interface {
	// Judge refuses what Do can't do, whatever is there (ErrBlock, ErrFlags). It is asked before the plugin, and changes nothing.
	Judge(Deed) error
	// Do does the deed, or fails: an error's text is the message of the refusal.
	Do(context.Context, Deed) (Answer, error)
}

// ErrBlock refuses a deed for a block device, where there is none to give.
var ErrBlock = errors.New("no device")

// ErrFlags refuses a deed for its mount flags.
var ErrFlags = errors.New("mount_flags")

// None does nothing: the ledger alone is kept.
type None struct{}

// Judge refuses nothing.
func (None) Judge(Deed) error { return nil }

// Do does nothing.
func (None) Do(context.Context, Deed) (Answer, error) { return Answer{}, nil }

// Environment is what a command finds of the deed in its environment.
func (deed Deed) Environment() []string {
	variables := []string{
		"TUFAYON_CALL=" + deed.Call, "TUFAYON_VOLUME=" + strconv.FormatUint(deed.Volume, 10), "TUFAYON_NUMBER=" + numbers.Text(deed.Number),
	}
	if deed.isOfController() {
		variables = append(variables, "TUFAYON_NODE="+deed.Node)
	} else {
		variables = append(variables, "TUFAYON_STAGING="+deed.Staging, "TUFAYON_TARGET="+deed.Target)
	}
	if deed.Call == "CreateVolume" {
		variables = append(variables, "TUFAYON_NAME="+deed.Name, "TUFAYON_REQUIRED="+strconv.FormatUint(deed.Required, 10),
			"TUFAYON_LIMIT="+strconv.FormatUint(deed.Limit, 10))
	}
	if deed.Capability == nil {
		return variables
	}
	return append(variables, "TUFAYON_ACCESS="+accessOf(*deed.Capability), "TUFAYON_FS_TYPE="+deed.Capability.FsType,
		"TUFAYON_MODE="+strconv.Itoa(int(deed.Capability.Mode)), "TUFAYON_READONLY="+strconv.FormatBool(deed.Readonly))
}

func (deed Deed) isOfController() bool { return !strings.HasPrefix(deed.Call, "Node") }

func accessOf(capability frames.Capability) string {
	if capability.Mount {
		return "mount"
	}
	return "block"
}

// Input is what a command reads from its standard input: a JSON object, and the end of the line.
func (deed Deed) Input() []byte {
	type capability struct {
		Access string `json:"access"`
		FsType string `json:"fs_type"`
		Mode   uint8  `json:"mode"`
	}
	input := struct {
		Private
		Capabilities []capability `json:"capabilities,omitempty"`
	}{Private: deed.Private}
	for _, it := range deed.Capabilities {
		input.Capabilities = append(input.Capabilities, capability{accessOf(it), it.FsType, it.Mode})
	}
	line, _ := json.Marshal(input) // texts and numbers always can be
	return append(line, '\n')
}

// MaxMap is how many bytes all keys and values of a map of CSI's have at most together, in requests and responses.
const MaxMap = 4096

// Fits says whether a map is as long as CSI has it at most.
func Fits(values map[string]string) bool {
	size := 0
	for key, value := range values {
		size += len(key) + len(value)
	}
	return size <= MaxMap
}

// errAnswer refuses what a command wrote to its standard output.
var errAnswer = errors.New("the hook's answer")

// ReadAnswer reads what a command that succeeded wrote to its standard output: of a CreateVolume or a ControllerPublishVolume nothing, or an object
// with the call's context. Of other calls it isn't judged.
func (deed Deed) ReadAnswer(output []byte) (Answer, error) {
	answer := Answer{}
	if deed.Call != "CreateVolume" && deed.Call != "ControllerPublishVolume" || len(bytes.TrimSpace(output)) == 0 {
		return answer, nil
	}
	decoder := json.NewDecoder(bytes.NewReader(output))
	decoder.DisallowUnknownFields()
	if err := decoder.Decode(&answer); err != nil || bytes.TrimSpace(output)[0] != '{' { // null is none
		return Answer{}, fmt.Errorf("%w is no such object", errAnswer) // the reason might show what is private
	}
	if _, err := decoder.Token(); err != io.EOF {
		return Answer{}, fmt.Errorf("%w is more than an object", errAnswer)
	}
	if deed.Call == "CreateVolume" && answer.PublishContext != nil || deed.Call != "CreateVolume" && answer.VolumeContext != nil {
		return Answer{}, fmt.Errorf("%w has the context of another call", errAnswer)
	}
	return answer, deed.judgeContext(answer)
}

// judgeContext refuses contexts that are too long, and those that tell a secret: they are kept in the store.
func (deed Deed) judgeContext(answer Answer) error {
	for _, context := range []map[string]string{answer.VolumeContext, answer.PublishContext} {
		if !Fits(context) {
			return fmt.Errorf("%w has a context of more than %d bytes", errAnswer, MaxMap)
		}
		for key, value := range context {
			for _, secret := range deed.Private.secrets() {
				if secret != "" && (strings.Contains(key, secret) || strings.Contains(value, secret)) {
					return fmt.Errorf("%w tells a secret", errAnswer)
				}
			}
		}
	}
	return nil
}
