package api

import (
	"context"
	"errors"
	"strings"

	"google.golang.org/grpc/codes"
	"google.golang.org/grpc/status"

	"tufayon/service/api/wire"
	"tufayon/service/frames"
	"tufayon/service/host"
	"tufayon/service/numbers"
	"tufayon/service/plugin"
)

const (
	maxName   = frames.MaxName
	maxNode   = frames.MaxNode
	maxTarget = frames.MaxTarget
)

// codeOf are the statuses of refusals by their names, where it isn't FAILED_PRECONDITION.
var codeOf = map[string]codes.Code{
	"NameUsed": codes.AlreadyExists, "NoSuchVolume": codes.NotFound, "NoSuchNode": codes.NotFound, "NoSuchTarget": codes.NotFound,
	"NumbersSpent": codes.ResourceExhausted, "Full": codes.ResourceExhausted, "NoMemory": codes.ResourceExhausted,
}

// statusOf is the status of an error of a host's.
func statusOf(err error) error {
	var refusal host.Refusal
	switch {
	case errors.As(err, &refusal):
		if code, isOther := codeOf[refusal.Name()]; isOther {
			return status.Error(code, refusal.Name())
		}
		return status.Error(codes.FailedPrecondition, refusal.Name())
	case errors.Is(err, host.ErrInvalid):
		return status.Error(codes.InvalidArgument, err.Error())
	case errors.Is(err, host.ErrBusy):
		return status.Error(codes.ResourceExhausted, err.Error())
	case errors.Is(err, host.ErrEnded), errors.Is(err, host.ErrUnsure):
		return status.Error(codes.Unavailable, err.Error())
	case errors.Is(err, host.ErrSlow):
		return status.Error(codes.OutOfRange, err.Error())
	case errors.Is(err, plugin.NodeInUse):
		return status.Error(codes.FailedPrecondition, "NodeInUse")
	case errors.Is(err, numbers.ErrSpent):
		return status.Error(codes.ResourceExhausted, "NumbersSpent")
	case errors.Is(err, plugin.NoMemory):
		return status.Error(codes.ResourceExhausted, "NoMemory")
	case errors.Is(err, context.Canceled), errors.Is(err, context.DeadlineExceeded):
		return status.FromContextError(err).Err()
	}
	return status.Error(codes.Unknown, err.Error())
}

// judge judges a request's fields one after another, and remembers the first fault.
type judge struct {
	err error
}

func (judged *judge) refuse(field string) {
	if judged.err == nil {
		judged.err = status.Error(codes.InvalidArgument, field)
	}
}

func (judged *judge) text(field, value string, most int) {
	if value == "" || len(value) > most || strings.ContainsRune(value, 0) {
		judged.refuse(field)
	}
}

func (judged *judge) capability(field string, value *wire.Capability) frames.Capability {
	fsType := value.GetFsType()
	if value == nil || value.Mode < 1 || value.Mode > 7 || !value.Mount && fsType != "" || len(fsType) > frames.MaxFsType || strings.ContainsRune(fsType, 0) {
		judged.refuse(field)
		return frames.Capability{}
	}
	return frames.Capability{Mount: value.Mount, FsType: fsType, Mode: uint8(value.Mode)}
}

func (judged *judge) capabilities(values []*wire.Capability) []frames.Capability {
	if len(values) == 0 || len(values) > frames.MaxCapabilities {
		judged.refuse("capabilities")
	}
	var capabilities []frames.Capability
	for _, value := range values {
		capabilities = append(capabilities, judged.capability("capabilities", value))
	}
	return capabilities
}

// volumeOf is a volume as the record has it, and what nodes say that isn't so.
func (server *Server) volumeOf(volume host.Volume) *wire.Volume {
	message := &wire.Volume{
		Name: volume.Name, Id: volume.ID, Exists: wire.Known(volume.Exists), Goal: volume.Goal.String(), GoalNode: volume.Node, GoalTarget: volume.Target,
		Tries: uint32(volume.Tries), HeldUpBy: volume.HeldUpBy, Trouble: volume.Trouble, Required: volume.Required, Limit: volume.Limit,
	}
	if !volume.Since.IsZero() {
		message.WantedSince = volume.Since.UnixNano() / 1e6
	}
	for _, it := range volume.Capabilities {
		message.Capabilities = append(message.Capabilities, capabilityOf(it))
	}
	for _, it := range volume.At {
		at := &wire.At{
			Node: it.Node, Attached: wire.Known(it.Attached), Staged: wire.Known(it.Staged), Capability: capabilityOf(it.Capability), Readonly: it.Readonly,
			Unmounted: server.plugins.Unmounted(it.Node, volume.ID),
		}
		for _, target := range it.Targets {
			at.Targets = append(at.Targets, &wire.Target{Path: target.Path, Published: wire.Known(target.Published)})
		}
		message.At = append(message.At, at)
	}
	return message
}

// unmountedAt is why a volume isn't mounted at a node where the record has it.
func unmountedAt(volume *wire.Volume, node string) string {
	for _, at := range volume.At {
		if at.Node == node {
			return at.Unmounted
		}
	}
	return ""
}

func capabilityOf(it frames.Capability) *wire.Capability {
	return &wire.Capability{Mode: uint32(it.Mode), Mount: it.Mount, FsType: it.FsType}
}

func (server *Server) eventOf(event host.Event) *wire.Event {
	message := &wire.Event{Session: event.Session, Count: event.Count}
	switch {
	case event.Forgotten != "":
		message.Of = &wire.Event_Forgotten{Forgotten: event.Forgotten}
	case event.Lost != "":
		message.Of = &wire.Event_Lost{Lost: event.Lost}
	default:
		message.Of = &wire.Event_Volume{Volume: server.volumeOf(event.Volume)}
	}
	return message
}
