package translate

import (
	"errors"
	"math"
	"reflect"
	"strings"
	"testing"

	"github.com/golang/protobuf/proto"
	"google.golang.org/grpc/codes"
	"google.golang.org/grpc/status"

	"tufayon/service/frames"
	"tufayon/service/wire"
)

var mount = frames.Capability{Mount: true, FsType: "ext4", Mode: 7}

var bodies = []frames.Body{
	frames.CreateVolume{Name: "v", Required: 10, Limit: 20, Capabilities: []frames.Capability{mount, {Mode: 1}}},
	frames.CreateVolume{Name: "v", Required: math.MaxInt64},
	frames.DeleteVolume{ID: 1},
	frames.ControllerPublishVolume{ID: math.MaxUint64, Node: "n1", Capability: mount, Readonly: true},
	frames.ControllerUnpublishVolume{ID: 1, Node: "n1"},
	frames.NodeStageVolume{ID: 1, Capability: mount},
	frames.NodeUnstageVolume{ID: 1},
	frames.NodePublishVolume{ID: 1, Target: "/a", Capability: mount, Readonly: true},
	frames.NodeUnpublishVolume{ID: 1, Target: "/a"},
}

// bodyOf makes a call of a request, as the driver does.
func bodyOf(request proto.Message) (frames.Body, error) {
	switch request := request.(type) {
	case *wire.CreateVolumeRequest:
		return CreateVolume(request)
	case *wire.DeleteVolumeRequest:
		return DeleteVolume(request)
	case *wire.ControllerPublishVolumeRequest:
		return ControllerPublishVolume(request)
	case *wire.ControllerUnpublishVolumeRequest:
		return ControllerUnpublishVolume(request, false)
	case *wire.NodeStageVolumeRequest:
		return NodeStageVolume(request)
	case *wire.NodeUnstageVolumeRequest:
		return NodeUnstageVolume(request)
	case *wire.NodePublishVolumeRequest:
		return NodePublishVolume(request)
	case *wire.NodeUnpublishVolumeRequest:
		return NodeUnpublishVolume(request)
	}
	return nil, errors.New("no request of a call")
}

// A call that goes out as a request comes in as the same call.
func TestThereAndBack(t *testing.T) {
	for _, body := range bodies {
		method, err := MethodOf(frames.Call{Body: body}, "/staging/1")
		if err != nil {
			t.Fatal(err)
		}
		content, err := proto.Marshal(method.Request)
		if err != nil {
			t.Fatal(err)
		}
		request := reflect.New(reflect.TypeOf(method.Request).Elem()).Interface().(proto.Message)
		if err := proto.Unmarshal(content, request); err != nil {
			t.Fatal(err)
		}
		if came, err := bodyOf(request); err != nil || !reflect.DeepEqual(came, body) {
			t.Errorf("%+v came as %+v, %v", body, came, err)
		}
	}
	if _, err := MethodOf(frames.Call{Body: frames.CreateVolume{Name: "v", Required: math.MaxInt64 + 1}}, ""); status.Code(err) != codes.InvalidArgument {
		t.Errorf("more bytes than CSI can say: %v", err)
	}
}

func TestReplies(t *testing.T) {
	create := frames.Call{Number: frames.Number{Session: 1, Call: 2}, Body: bodies[0]}
	long := strings.Repeat("\u00e9", 200)
	for _, it := range []struct {
		response proto.Message
		err      error
		want     frames.Reply
		came     bool
	}{
		{&wire.CreateVolumeResponse{Volume: &wire.Volume{VolumeId: "7"}}, nil, frames.Reply{Volume: 7}, true},
		{&wire.CreateVolumeResponse{Volume: &wire.Volume{VolumeId: "07"}}, nil, frames.Reply{}, false},
		{nil, status.Error(codes.Aborted, "stale"), frames.Reply{Status: 10, Detail: "stale"}, true},
		{nil, status.Error(codes.Internal, long), frames.Reply{Status: 13, Detail: long[:254]}, true},
		{nil, status.Error(codes.Internal, "no\xff"), frames.Reply{Status: 13, Detail: "no\ufffd"}, true},
		{nil, status.Error(codes.Code(17), "no status"), frames.Reply{}, false},
		{nil, status.Error(codes.DeadlineExceeded, ""), frames.Reply{}, false},
		{nil, status.Error(codes.Unavailable, ""), frames.Reply{}, false},
		{nil, errors.New("no status at all"), frames.Reply{}, false},
	} {
		reply, came := ReplyOf(create, it.response, it.err)
		if came != it.came {
			t.Errorf("%v, %v: a reply came: %v", it.response, it.err, came)
			continue
		}
		if it.want.Number, it.want.Kind = create.Number, frames.CreateVolumeKind; came && reply != it.want {
			t.Errorf("%v, %v: %+v, not %+v", it.response, it.err, reply, it.want)
		}
	}
}
