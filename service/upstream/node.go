package upstream

import (
	"context"
	"strings"
	"sync"

	"github.com/golang/protobuf/proto"
	"google.golang.org/grpc/codes"
	"google.golang.org/grpc/status"

	"tufayon/service/frames"
	"tufayon/service/identities"
	"tufayon/service/passing"
	"tufayon/service/records"
	"tufayon/service/serving"
	"tufayon/service/store"
	"tufayon/service/wire"
)

// errStaged refuses a staging path other than the one at which the volume is staged.
var errStaged = status.Error(codes.FailedPrecondition, "staged otherwise")

// atPath judges the staging path that a call names, if it names one: one of a volume that is staged is the one that is kept. Of a call that is stale the
// plugin says so.
func atPath(path string) func(serving.Known) error {
	return func(known serving.Known) error {
		row, err := records.ReadStaged(known.Row)
		if err != nil {
			return status.Error(codes.Internal, err.Error())
		}
		if !known.IsBehind(row.Last) && path != "" && known.Staging != "" && known.Staging != path {
			return errStaged
		}
		return nil
	}
}

// volume is a volume in a node's ledger: the id that it has there, or gets with this call.
func (proxy *Proxy) volume(view serving.View, id string) (volume uint64, texts []store.Text, there bool) {
	table := view.Table()
	if volume, there = table.ID(id); there {
		return volume, nil, true
	}
	for volume = table.Most() + 1; view.Row(volume) != nil; volume++ { // not one that lost its id, as an earlier driver could leave it
	}
	return volume, []store.Text{identities.Put(volume, id)}, false
}

// path judges a staging path that has to be there.
func (fitting *fitting) path(value string) {
	fitting.refuse("staging_target_path", value == "" || len(value) > mostText)
}

// stage reads a NodeStageVolume.
func (proxy *Proxy) stage(call *call) (serving.Request, error) {
	fit, asked := fitting{}, wire.NodeStageVolumeRequest{}
	fit.read(call, &asked)
	id := fit.id(asked.GetVolumeId())
	fit.path(asked.GetStagingTargetPath())
	capability := atNode(fit.capability("volume_capability", asked.GetVolumeCapability()))
	request := proxy.atNode(frames.NodeStageVolumeKind, id, asked.GetStagingTargetPath())
	request.Bind = func(view serving.View) (serving.Bound, error) {
		volume, texts, _ := proxy.volume(view, id)
		return serving.Bound{Bodies: []frames.Body{frames.NodeStageVolume{ID: volume, Capability: capability}}, Texts: append(texts, fit.kept...)}, nil
	}
	return request, fit.err
}

// atNode is a request to a node's plugin.
func (proxy *Proxy) atNode(kind frames.Kind, id, path string) serving.Request {
	return serving.Request{Node: proxy.options.Node, Kind: kind, Key: keyOfID(id), Staging: path, Judge: atPath(path)}
}

// unstage reads a NodeUnstageVolume.
func (proxy *Proxy) unstage(call *call) (serving.Request, error) {
	fit, asked := fitting{}, wire.NodeUnstageVolumeRequest{}
	fit.read(call, &asked)
	id := fit.id(asked.GetVolumeId())
	fit.path(asked.GetStagingTargetPath())
	request := proxy.atNode(frames.NodeUnstageVolumeKind, id, asked.GetStagingTargetPath())
	request.Always = true
	request.Bind = func(view serving.View) (serving.Bound, error) {
		volume, texts, there := proxy.volume(view, id)
		if !there && !call.isNumbered {
			return serving.Bound{}, nil
		}
		return serving.Bound{Bodies: []frames.Body{frames.NodeUnstageVolume{ID: volume}}, Texts: texts}, nil
	}
	return request, fit.err
}

// publish reads a NodePublishVolume. One without a staging path is of an upstream that stages nothing: in the ledger the volume is staged with its first
// publication.
func (proxy *Proxy) publish(call *call) (serving.Request, error) {
	fit, asked := fitting{}, wire.NodePublishVolumeRequest{}
	fit.read(call, &asked)
	id, path := fit.id(asked.GetVolumeId()), asked.GetStagingTargetPath()
	fit.refuse("staging_target_path", len(path) > mostText)
	body := frames.NodePublishVolume{
		Target:     fit.text("target_path", asked.GetTargetPath(), frames.MaxTarget),
		Capability: atNode(fit.capability("volume_capability", asked.GetVolumeCapability())), Readonly: asked.GetReadonly(),
	}
	request := proxy.atNode(frames.NodePublishVolumeKind, id, path)
	request.Bind = func(view serving.View) (serving.Bound, error) {
		volume, texts, _ := proxy.volume(view, id)
		body.ID = volume
		bound := serving.Bound{Texts: append(texts, fit.kept...)}
		row, err := records.ReadStaged(view.Row(volume))
		if path == "" && err == nil && !row.IsStaged && strings.HasPrefix(body.Target, "/") { // else the plugin refuses it, and nothing is to be staged
			bound.Bodies = append(bound.Bodies, frames.NodeStageVolume{ID: volume, Capability: body.Capability})
		}
		bound.Bodies = append(bound.Bodies, body)
		return bound, nil
	}
	its := publication{id, body.Target}
	call.did = func() { proxy.unsure.take(its) }
	request.Back = func(known serving.Known, why error) (serving.Request, bool) {
		row, err := records.ReadStaged(known.Row)
		if err != nil || call.isNumbered || row.IsAt(body.Target) && !proxy.unsure.has(its) {
			return serving.Request{}, false
		}
		proxy.unsure.put(its)
		if !isFinal(why) {
			return serving.Request{}, false
		}
		return proxy.unpublishing(call.ctx, id, asked.GetTargetPath())
	}
	return request, fit.err
}

// A publication is one of the upstream's volumes at a target.
type publication struct{ id, target string }

// unsure are the publications that are in the ledger since the upstream failed to say whether they came about, and that it never said were there. Where a
// later call of one is refused for good, a platform takes it for one that isn't there. They are known as long as the process runs.
type unsure struct {
	mutex sync.Mutex
	all   map[publication]bool
}

func (unsure *unsure) has(its publication) bool {
	unsure.mutex.Lock()
	defer unsure.mutex.Unlock()
	return unsure.all[its]
}

func (unsure *unsure) put(its publication) {
	unsure.mutex.Lock()
	defer unsure.mutex.Unlock()
	if unsure.all == nil {
		unsure.all = map[publication]bool{}
	}
	unsure.all[its] = true
}

func (unsure *unsure) take(its publication) {
	unsure.mutex.Lock()
	defer unsure.mutex.Unlock()
	delete(unsure.all, its)
}

// isFinal says whether a platform takes an error for the word that nothing was done, so that it undoes nothing: as kubelet does, any but these. By
// ALREADY_EXISTS something is there, though it isn't what was asked for.
func isFinal(err error) bool {
	switch status.Code(err) {
	case codes.Canceled, codes.DeadlineExceeded, codes.ResourceExhausted, codes.Aborted, codes.Unavailable, codes.AlreadyExists:
		return false
	}
	return true
}

// unpublishing is a NodeUnpublishVolume that nobody called, with the metadata of a call that came.
func (proxy *Proxy) unpublishing(came context.Context, id, target string) (serving.Request, bool) {
	raw, err := proto.Marshal(&wire.NodeUnpublishVolumeRequest{VolumeId: id, TargetPath: target})
	if err != nil {
		return serving.Request{}, false
	}
	its := &call{raw: raw, ctx: came}
	request, err := proxy.unpublish(its)
	request.Act = func(acting context.Context, _ serving.Known) (any, error) {
		gave, err := proxy.call(acting, passing.Onward(acting, came), "/csi.v1.Node/NodeUnpublishVolume", raw)
		if err == nil {
			its.did()
		}
		return gave, err
	}
	return request, err == nil
}

// unpublish reads a NodeUnpublishVolume. A volume that was staged with its first publication is unstaged with its last one.
func (proxy *Proxy) unpublish(call *call) (serving.Request, error) {
	fit, asked := fitting{}, wire.NodeUnpublishVolumeRequest{}
	fit.read(call, &asked)
	id, target := fit.id(asked.GetVolumeId()), fit.text("target_path", asked.GetTargetPath(), frames.MaxTarget)
	call.did = func() { proxy.unsure.take(publication{id, target}) }
	request := proxy.atNode(frames.NodeUnpublishVolumeKind, id, "")
	request.Always = true
	request.Bind = func(view serving.View) (serving.Bound, error) {
		volume, texts, there := proxy.volume(view, id)
		if !there && !call.isNumbered {
			return serving.Bound{}, nil
		}
		if by, is := records.UnstagedBy(view.Row(volume)); is && call.isNumbered && call.isOf(by) {
			return serving.Bound{Bodies: []frames.Body{frames.NodeUnstageVolume{ID: volume}}, Texts: texts}, nil // a duplicate of the last unpublication
		}
		bound := serving.Bound{Bodies: []frames.Body{frames.NodeUnpublishVolume{ID: volume, Target: target}}, Texts: texts}
		row, err := records.ReadStaged(view.Row(volume))
		if err == nil && row.IsStaged && view.Staging(volume) == "" && len(row.Targets) == 1 && row.Targets[0] == target {
			bound.Bodies = append(bound.Bodies, frames.NodeUnstageVolume{ID: volume})
		}
		return bound, nil
	}
	return request, fit.err
}
