package upstream

import (
	"context"
	"crypto/sha256"
	"math"
	"strings"

	"github.com/golang/protobuf/proto"
	"google.golang.org/grpc"
	"google.golang.org/grpc/codes"
	"google.golang.org/grpc/metadata"
	"google.golang.org/grpc/status"

	"tufayon/service/frames"
	"tufayon/service/numbers"
	"tufayon/service/passing"
	"tufayon/service/serving"
)

// nobody is an id that no volume has: by it a plugin hears of a call's session.
const nobody = math.MaxUint64

// A call is one of the eight, as it came.
type call struct {
	raw        []byte
	ctx        context.Context
	isNumbered bool          // it came with a number
	asked      proto.Message // what is known of it, once it is read
	did        func()        // is told, in its turn, that the upstream did it; nil for nobody
}

// isOf says whether a call came with this number.
func (call *call) isOf(number frames.Number) bool {
	its, err := numbers.From(call.ctx)
	return err == nil && its == number
}

// undoes gives the volume of a controller's call that undoes something: nobody's, where the ledger doesn't have it. By arrival the plugin isn't asked then.
func (call *call) undoes(view serving.View, id string) (volume uint64, asks bool) {
	if volume, there := view.Table().ID(id); there {
		return volume, true
	}
	return nobody, call.isNumbered
}

// A reader reads a call as far as the plugin has to know it. What it refuses asks nobody.
type reader func(*Proxy, *call) (serving.Request, error)

var controllerCalls = map[string]reader{
	"/csi.v1.Controller/CreateVolume":              (*Proxy).create,
	"/csi.v1.Controller/DeleteVolume":              (*Proxy).delete,
	"/csi.v1.Controller/ControllerPublishVolume":   (*Proxy).attach,
	"/csi.v1.Controller/ControllerUnpublishVolume": (*Proxy).detach,
}

var nodeCalls = map[string]reader{
	"/csi.v1.Node/NodeStageVolume":     (*Proxy).stage,
	"/csi.v1.Node/NodeUnstageVolume":   (*Proxy).unstage,
	"/csi.v1.Node/NodePublishVolume":   (*Proxy).publish,
	"/csi.v1.Node/NodeUnpublishVolume": (*Proxy).unpublish,
}

func isNumbered(method string) bool {
	return controllerCalls[method] != nil || nodeCalls[method] != nil
}

// guard has a call of the eight pass the plugin.
func (server *server) guard(method string, stream grpc.ServerStream) error {
	proxy, calls := server.proxy, controllerCalls
	if proxy.options.Node != "" {
		calls = nodeCalls
	}
	read := calls[method]
	if read == nil {
		return status.Error(codes.Unimplemented, "the other plugin's: a driver of its own stands before that")
	}
	return server.unary(stream, func(ctx context.Context, raw []byte) (passing.Response, error) {
		came := &call{raw: raw, ctx: ctx, isNumbered: numbers.IsIn(ctx)}
		request, fault := read(proxy, came)
		response := passing.Response{}
		err := proxy.watched(ctx, method, came.asked, func(ctx context.Context) error {
			core, err := server.core()
			if err == nil {
				err = core.Admit(ctx)
			}
			if err == nil {
				err = fault
			}
			if err == nil {
				response, err = proxy.carry(ctx, core, came, method, request)
			}
			return err
		})
		return response, err
	})
}

// Watch has each call of the eight seen by these, the first one outermost, with its request as far as it is known. It is called before there are any.
func (proxy *Proxy) Watch(by ...grpc.UnaryServerInterceptor) { proxy.watch = by }

// watched has a call seen by those who watch.
func (proxy *Proxy) watched(ctx context.Context, method string, asked proto.Message, answer func(context.Context) error) error {
	info := &grpc.UnaryServerInfo{FullMethod: method}
	handle := func(ctx context.Context, _ any) (any, error) { return nil, answer(ctx) }
	for at := len(proxy.watch) - 1; at >= 0; at-- {
		it, inner := proxy.watch[at], handle
		handle = func(ctx context.Context, request any) (any, error) { return it(ctx, request, info, inner) }
	}
	_, err := handle(ctx, asked)
	return err
}

func (server *server) core() (*serving.Core, error) {
	core, err := server.backend.Core()
	if err != nil {
		return nil, err
	}
	its, is := core.(*serving.Core)
	if !is {
		return nil, status.Error(codes.Internal, "another core")
	}
	return its, nil
}

// carry carries a call to the plugin, and if that allows it to the upstream, whose response it gives.
func (proxy *Proxy) carry(ctx context.Context, core *serving.Core, came *call, method string, request serving.Request) (passing.Response, error) {
	digest := sha256.Sum256(append([]byte(method), came.raw...))
	request.Like = string(digest[:])
	request.Act = func(acting context.Context, _ serving.Known) (any, error) {
		gave, err := proxy.call(acting, passing.Onward(passing.Waiting(acting, ctx), ctx), method, came.raw)
		if err == nil && came.did != nil {
			came.did()
		}
		return gave, err
	}
	request.Failed = func(err error) error { return err }
	answer, err := core.Carry(ctx, request)
	if err != nil {
		return passing.Response{}, err
	}
	if code := codes.Code(answer.Reply.Status); code != codes.OK {
		return passing.Response{Trailer: replied(nil, answer.Reply)}, status.Error(code, whole(ctx, core, answer.Reply))
	}
	response, err := responseOf(answer.Acted)
	response.Trailer = replied(response.Trailer, answer.Reply)
	return response, err
}

// call makes a call of the upstream, as a deed, until what is done is to end.
func (proxy *Proxy) call(acting, onward context.Context, method string, raw []byte) (any, error) {
	response, err := passing.Call(onward, proxy.behind, method, raw)
	if err != nil && acting.Err() != nil {
		return nil, status.Error(codes.Unavailable, "the driver ended it")
	}
	if err != nil {
		return nil, err
	}
	return response, nil
}

// replied is a trailer, which isn't changed, and that the plugin replied, if it did.
func replied(trailer metadata.MD, reply frames.Reply) metadata.MD {
	if reply.Kind == 0 {
		return trailer
	}
	its := make(metadata.MD, len(trailer)+1)
	for key, values := range trailer {
		its[key] = values
	}
	values := its[numbers.ReplyKey]
	its[numbers.ReplyKey] = append(values[:len(values):len(values)], numbers.Text(reply.Number))
	return its
}

// responseOf is what a deed gave.
func responseOf(gave any) (passing.Response, error) {
	response, isOne := gave.(passing.Response)
	if !isOne {
		return passing.Response{}, status.Error(codes.Internal, "there is no response of the upstream")
	}
	return response, nil
}

// whole is the detail of a reply, with the whole text in place of a digest.
func whole(ctx context.Context, core *serving.Core, reply frames.Reply) string {
	detail := reply.Detail
	if strings.Contains(detail, "sha256:") {
		_ = core.Look(ctx, func(view serving.View) { detail = view.Table().Whole(detail) })
	}
	return detail
}

// broken refuses what the upstream does, and CSI forbids.
func broken(text string) error { return status.Error(codes.Internal, "the upstream: "+text) }
