package upstream

import (
	"context"
	"math"
	"strconv"
	"sync"

	"github.com/golang/protobuf/proto"
	"google.golang.org/grpc/codes"
	"google.golang.org/grpc/status"

	"tufayon/service/passing"
	"tufayon/service/records"
	"tufayon/service/serving"
	"tufayon/service/wire"
)

const (
	capabilitiesCall = "/csi.v1.Controller/ControllerGetCapabilities"
	listCall         = "/csi.v1.Controller/ListVolumes"
	getCall          = "/csi.v1.Controller/ControllerGetVolume"
	probeCall        = "/csi.v1.Identity/Probe"
)

// mostPage is how many bytes a page of the ledger's with several volumes has: half of what clients of gRPC take.
const mostPage = 2 << 20

// What the ledger can tell where an upstream can't.
var told = []wire.ControllerServiceCapability_RPC_Type{
	wire.ControllerServiceCapability_RPC_LIST_VOLUMES, wire.ControllerServiceCapability_RPC_LIST_VOLUMES_PUBLISHED_NODES,
	wire.ControllerServiceCapability_RPC_GET_VOLUME,
}

// capabilities are an upstream's, as it told them last.
type capabilities struct {
	mutex sync.Mutex
	asked bool
	has   map[wire.ControllerServiceCapability_RPC_Type]bool
}

func (known *capabilities) keep(message []byte) error {
	var response wire.ControllerGetCapabilitiesResponse
	if err := proto.Unmarshal(message, &response); err != nil {
		return broken("its response isn't one of ControllerGetCapabilities")
	}
	known.mutex.Lock()
	defer known.mutex.Unlock()
	known.asked, known.has = true, map[wire.ControllerServiceCapability_RPC_Type]bool{}
	for _, it := range response.GetCapabilities() {
		known.has[it.GetRpc().GetType()] = true
	}
	return nil
}

func (known *capabilities) of(it wire.ControllerServiceCapability_RPC_Type) (has, asked bool) {
	known.mutex.Lock()
	defer known.mutex.Unlock()
	return known.has[it], known.asked
}

// own gives what answers a call that isn't only passed on: nil for any other.
func (server *server) own(method string) func(context.Context, []byte) (passing.Response, error) {
	if method == probeCall {
		return server.probe
	}
	if server.proxy.options.Node != "" {
		return nil
	}
	switch method {
	case capabilitiesCall:
		return server.tellCapabilities
	case listCall:
		return server.list
	case getCall:
		return server.get
	}
	return nil
}

// pass passes a call on.
func (server *server) pass(ctx context.Context, method string, request []byte) (passing.Response, error) {
	return passing.Call(passing.Onward(ctx, ctx), server.proxy.behind, method, request)
}

// probe says that it isn't ready while the plugin waits for its store, and else what the upstream says.
func (server *server) probe(ctx context.Context, request []byte) (passing.Response, error) {
	if _, err := server.core(); err != nil {
		return passing.Response{Message: notReady}, nil
	}
	return server.pass(ctx, probeCall, request)
}

// notReady is a ProbeResponse whose ready is false: field 1, a message without fields.
var notReady = []byte{0x0a, 0x00}

// tellCapabilities adds to the upstream's capabilities those of the ledger.
func (server *server) tellCapabilities(ctx context.Context, request []byte) (passing.Response, error) {
	response, err := server.pass(ctx, capabilitiesCall, request)
	if err != nil {
		return response, err
	}
	if err := server.proxy.known.keep(response.Message); err != nil {
		return passing.Response{}, err
	}
	more := wire.ControllerGetCapabilitiesResponse{}
	for _, it := range told {
		if has, _ := server.proxy.known.of(it); !has {
			rpc := &wire.ControllerServiceCapability_Rpc{Rpc: &wire.ControllerServiceCapability_RPC{Type: it}}
			more.Capabilities = append(more.Capabilities, &wire.ControllerServiceCapability{Type: rpc})
		}
	}
	added, err := proto.Marshal(&more)
	response.Message = append(response.Message, added...) // of two messages one behind the other the lists are one
	return response, err
}

// has says whether the upstream has a capability, which is asked for once.
func (server *server) has(ctx context.Context, it wire.ControllerServiceCapability_RPC_Type) (bool, error) {
	has, asked := server.proxy.known.of(it)
	if asked {
		return has, nil
	}
	response, err := server.pass(ctx, capabilitiesCall, nil)
	if err != nil {
		return false, err
	}
	if err := server.proxy.known.keep(response.Message); err != nil {
		return false, err
	}
	has, _ = server.proxy.known.of(it)
	return has, nil
}

// list lists volumes: by the upstream where it tells at which nodes they are published; with the ledger's nodes added where it only lists them; and else by
// the ledger.
func (server *server) list(ctx context.Context, raw []byte) (passing.Response, error) {
	hasNodes, err := server.has(ctx, wire.ControllerServiceCapability_RPC_LIST_VOLUMES_PUBLISHED_NODES)
	if err != nil {
		return passing.Response{}, err
	}
	hasList, err := server.has(ctx, wire.ControllerServiceCapability_RPC_LIST_VOLUMES)
	if err != nil {
		return passing.Response{}, err
	}
	if hasList {
		response, err := server.pass(ctx, listCall, raw)
		if err == nil && !hasNodes {
			err = server.addNodes(ctx, &response)
		}
		return response, err
	}
	var request wire.ListVolumesRequest
	if err := proto.Unmarshal(raw, &request); err != nil {
		return passing.Response{}, status.Error(codes.Internal, "the request isn't one of this call")
	}
	listed, err := server.listLedger(ctx, &request)
	if err != nil {
		return passing.Response{}, err
	}
	message, err := proto.Marshal(listed)
	return passing.Response{Message: message}, err
}

// listLedger lists what the ledger has of the upstream's volumes, by rising id of the plugin's, from the one on that the token says, as many as are asked for
// and fit into a message.
func (server *server) listLedger(ctx context.Context, request *wire.ListVolumesRequest) (*wire.ListVolumesResponse, error) {
	from, most := uint64(0), int(request.GetMaxEntries())
	if request.GetMaxEntries() < 0 {
		return nil, status.Error(codes.InvalidArgument, "max_entries")
	}
	if most == 0 {
		most = math.MaxInt32
	}
	if token := request.GetStartingToken(); token != "" {
		var err error
		if from, err = strconv.ParseUint(token, 10, 64); err != nil {
			return nil, status.Error(codes.Aborted, "starting_token")
		}
	}
	listed, size := &wire.ListVolumesResponse{}, 0
	err := server.look(ctx, func(view serving.View) {
		for _, volume := range view.Volumes() {
			id, there := view.Table().Text(volume)
			row, err := records.ReadVolume(view.Row(volume))
			if volume < from || !there || err != nil || !row.Live {
				continue
			}
			status := &wire.ListVolumesResponse_VolumeStatus{PublishedNodeIds: nodesOf(view, row)}
			it := &wire.ListVolumesResponse_Entry{Volume: &wire.Volume{VolumeId: id}, Status: status}
			if size += proto.Size(it); len(listed.Entries) == most || size > mostPage && len(listed.Entries) > 0 {
				listed.NextToken = strconv.FormatUint(volume, 10)
				break
			}
			listed.Entries = append(listed.Entries, it)
		}
	})
	return listed, err
}

// addNodes adds to the entries of a list the nodes that the ledger has.
func (server *server) addNodes(ctx context.Context, response *passing.Response) error {
	var listed wire.ListVolumesResponse
	if err := proto.Unmarshal(response.Message, &listed); err != nil {
		return broken("its response isn't one of ListVolumes")
	}
	err := server.look(ctx, func(view serving.View) {
		for _, it := range listed.GetEntries() {
			volume, _ := view.Table().ID(it.GetVolume().GetVolumeId())
			if row, err := records.ReadVolume(view.Row(volume)); volume != 0 && err == nil {
				if it.Status == nil {
					it.Status = &wire.ListVolumesResponse_VolumeStatus{}
				}
				it.Status.PublishedNodeIds = nodesOf(view, row)
			}
		}
	})
	if err != nil {
		return err
	}
	response.Message, err = proto.Marshal(&listed)
	return err
}

// get tells of one volume, by the upstream or by the ledger.
func (server *server) get(ctx context.Context, raw []byte) (passing.Response, error) {
	has, err := server.has(ctx, wire.ControllerServiceCapability_RPC_GET_VOLUME)
	if err != nil {
		return passing.Response{}, err
	}
	if has {
		return server.pass(ctx, getCall, raw)
	}
	var request wire.ControllerGetVolumeRequest
	if err := proto.Unmarshal(raw, &request); err != nil {
		return passing.Response{}, status.Error(codes.Internal, "the request isn't one of this call")
	}
	if id := request.GetVolumeId(); id == "" || len(id) > mostText {
		return passing.Response{}, status.Error(codes.InvalidArgument, "volume_id")
	}
	got := &wire.ControllerGetVolumeResponse{Volume: &wire.Volume{VolumeId: request.GetVolumeId()}, Status: &wire.ControllerGetVolumeResponse_VolumeStatus{}}
	isThere := false
	err = server.look(ctx, func(view serving.View) {
		volume, _ := view.Table().ID(request.GetVolumeId())
		row, err := records.ReadVolume(view.Row(volume))
		isThere = volume != 0 && err == nil && row.Live
		got.Status.PublishedNodeIds = nodesOf(view, row)
	})
	if err != nil {
		return passing.Response{}, err
	}
	if !isThere {
		return passing.Response{}, status.Error(codes.NotFound, "volume")
	}
	message, err := proto.Marshal(got)
	return passing.Response{Message: message}, err
}

// look has a look at the ledger.
func (server *server) look(ctx context.Context, look func(serving.View)) error {
	core, err := server.core()
	if err != nil {
		return err
	}
	return core.Look(ctx, look)
}

// nodesOf are the nodes to which a volume is attached, as requests name them.
func nodesOf(view serving.View, row records.Volume) []string {
	var nodes []string
	for _, it := range row.Nodes {
		nodes = append(nodes, view.Table().Whole(it))
	}
	return nodes
}
