package upstream

import (
	"fmt"

	"github.com/golang/protobuf/proto"
	"google.golang.org/grpc/codes"
	"google.golang.org/grpc/status"

	"tufayon/service/frames"
	"tufayon/service/identities"
	"tufayon/service/records"
	"tufayon/service/serving"
	"tufayon/service/store"
	"tufayon/service/wire"
)

// What one call at a time is about: a volume of the upstream's, or the name of one that is to be made.
func keyOfID(id string) string     { return "id/" + id }
func keyOfName(name string) string { return "name/" + name }

// create reads a CreateVolume.
func (proxy *Proxy) create(call *call) (serving.Request, error) {
	fit, asked := fitting{}, wire.CreateVolumeRequest{}
	fit.read(call, &asked)
	body := frames.CreateVolume{Name: fit.text("name", asked.GetName(), frames.MaxName), Required: noRange}
	if bounds := asked.GetCapacityRange(); bounds.GetRequiredBytes() != 0 || bounds.GetLimitBytes() != 0 {
		fit.refuse("capacity", bounds.GetRequiredBytes() < 0 || bounds.GetLimitBytes() < 0)
		body.Required, body.Limit = uint64(bounds.GetRequiredBytes()), uint64(bounds.GetLimitBytes())
	}
	body.Capabilities = fit.capabilities(asked.GetVolumeCapabilities())
	request := serving.Request{Kind: frames.CreateVolumeKind, Key: keyOfName(body.Name)}
	request.Also = func() string { return proxy.madeKey(body.Name) }
	request.Bind = func(view serving.View) (serving.Bound, error) {
		bodies := []frames.Body{body}
		if !call.isNumbered {
			bodies = append(proxy.unmade(view), body)
		}
		return serving.Bound{Bodies: bodies, Texts: fit.kept}, nil
	}
	request.Keep = func(view serving.View, known serving.Known, gave any) ([]store.Text, error) {
		return proxy.keepMade(view, known.Volume, asked.GetName(), body.Name, gave)
	}
	return request, fit.err
}

// keepMade keeps the id that the upstream gave a volume. It refuses one that is another volume's, or that has changed.
func (proxy *Proxy) keepMade(view serving.View, volume uint64, name, short string, gave any) ([]store.Text, error) {
	response, err := responseOf(gave)
	if err != nil {
		return nil, err
	}
	var made wire.CreateVolumeResponse
	if err := proto.Unmarshal(response.Message, &made); err != nil {
		return nil, broken("its response isn't one of CreateVolume")
	}
	id, table := made.GetVolume().GetVolumeId(), view.Table()
	if id == "" || len(id) > mostText {
		return nil, broken(fmt.Sprintf("it gave %q an id of %d bytes", name, len(id)))
	}
	if own, there := table.Text(volume); there {
		if own != id {
			return nil, broken(fmt.Sprintf("the id of %q was %q, and is %q", name, own, id))
		}
		return nil, nil
	}
	var texts []store.Text
	if other, there := table.ID(id); there {
		row, err := records.ReadVolume(view.Row(other))
		if err != nil || row.Live {
			return nil, broken(fmt.Sprintf("it has one id, %q, for %q and for %q", id, table.Whole(row.Name), name))
		}
		texts = table.Taken(other) // of a volume that was deleted: the id is given anew
	}
	proxy.keepName(view, short, id)
	return append(texts, identities.Put(volume, id)), nil
}

// delete reads a DeleteVolume.
func (proxy *Proxy) delete(call *call) (serving.Request, error) {
	fit, asked := fitting{}, wire.DeleteVolumeRequest{}
	fit.read(call, &asked)
	id := fit.id(asked.GetVolumeId())
	request := serving.Request{Kind: frames.DeleteVolumeKind, Key: keyOfID(id), Always: true}
	request.Bind = func(view serving.View) (serving.Bound, error) {
		volume, asks := call.undoes(view, id)
		if !asks {
			return serving.Bound{}, nil
		}
		return serving.Bound{Bodies: []frames.Body{frames.DeleteVolume{ID: volume}}}, nil
	}
	return request, fit.err
}

// attach reads a ControllerPublishVolume.
func (proxy *Proxy) attach(call *call) (serving.Request, error) {
	fit, asked := fitting{}, wire.ControllerPublishVolumeRequest{}
	fit.read(call, &asked)
	id := fit.id(asked.GetVolumeId())
	body := frames.ControllerPublishVolume{
		Node:       fit.text("node_id", asked.GetNodeId(), frames.MaxNode),
		Capability: fit.capability("volume_capability", asked.GetVolumeCapability()), Readonly: asked.GetReadonly(),
	}
	if fit.err == nil && proxy.lost[asked.GetNodeId()] {
		fit.err = status.Error(codes.FailedPrecondition, "lost: "+asked.GetNodeId())
	}
	request := serving.Request{Kind: frames.ControllerPublishVolumeKind, Key: keyOfID(id)}
	request.Bind = func(view serving.View) (serving.Bound, error) {
		bound := serving.Bound{Texts: append([]store.Text(nil), fit.kept...)}
		volume, there := view.Table().ID(id)
		if there && proxy.options.Adopt {
			row, err := records.ReadVolume(view.Row(volume))
			there = err == nil && (row.Live || call.isNumbered) // of one that was deleted the plugin says whether the call is stale
		}
		switch {
		case there:
			body.ID = volume
		case proxy.options.Adopt:
			body.ID = view.Next()
			made, texts := adopt(id, volume, body, view.Table())
			bound.Bodies, bound.Texts = []frames.Body{made}, append(bound.Texts, texts...)
		default:
			body.ID = nobody
			bound.Bodies = []frames.Body{body} // the plugin finds no such volume
			return bound, nil
		}
		bound.Bodies = append(bound.Bodies, body)
		var err error
		bound.Make, err = proxy.nodes.with(body.Node, view)
		return bound, err
	}
	return request, fit.err
}

// adopt has a volume made in the ledger that the upstream has, in the capability in which it is attached.
func adopt(id string, before uint64, body frames.ControllerPublishVolume, table *identities.Table) (frames.CreateVolume, []store.Text) {
	name := identities.Adopted(id, frames.MaxName)
	made := frames.CreateVolume{Name: name.Text, Required: noRange, Capabilities: []frames.Capability{body.Capability}}
	texts := append(name.Kept, table.Taken(before)...)
	return made, append(texts, identities.Put(body.ID, id))
}

// detach reads a ControllerUnpublishVolume.
func (proxy *Proxy) detach(call *call) (serving.Request, error) {
	fit, asked := fitting{}, wire.ControllerUnpublishVolumeRequest{}
	fit.read(call, &asked)
	id, node := fit.id(asked.GetVolumeId()), ""
	if asked.GetNodeId() != "" || call.isNumbered { // one number is one call
		node = fit.text("node_id", asked.GetNodeId(), frames.MaxNode)
	}
	request := serving.Request{Kind: frames.ControllerUnpublishVolumeKind, Key: keyOfID(id), Always: true}
	request.Bind = func(view serving.View) (serving.Bound, error) {
		volume, asks := call.undoes(view, id)
		if !asks {
			return serving.Bound{}, nil
		}
		nodes := []string{node}
		if node == "" {
			row, err := records.ReadVolume(view.Row(volume))
			if err != nil {
				return serving.Bound{}, status.Error(codes.Internal, err.Error())
			}
			nodes = row.Nodes
		}
		var bound serving.Bound
		for _, it := range nodes {
			bound.Bodies = append(bound.Bodies, frames.ControllerUnpublishVolume{ID: volume, Node: it})
		}
		return bound, nil
	}
	return request, fit.err
}
