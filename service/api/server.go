// Package api serves tufayon.v1.Orchestrator: what programs ask of an orchestrator that runs as a service, each by its role.
package api

import (
	"context"
	"errors"
	"net"
	"sync"
	"time"

	"github.com/golang/protobuf/proto"
	"go.uber.org/zap"
	"google.golang.org/grpc"
	"google.golang.org/grpc/codes"
	"google.golang.org/grpc/credentials"
	"google.golang.org/grpc/health"
	"google.golang.org/grpc/health/grpc_health_v1"
	"google.golang.org/grpc/keepalive"
	"google.golang.org/grpc/metadata"
	"google.golang.org/grpc/reflection"
	"google.golang.org/grpc/status"

	"tufayon/service/api/terms"
	"tufayon/service/api/wire"
	"tufayon/service/carrying"
	"tufayon/service/history"
	"tufayon/service/host"
	"tufayon/service/limiting"
	"tufayon/service/records"
	"tufayon/service/tracing"
)

const (
	mostListed = 1000    // volumes that a page of a list has at most
	mostBytes  = 2 << 20 // of a page with several volumes: half of what clients of gRPC take
	mostWatch  = 1024    // streams of Watch at once: each is told of each event

	mostConnections = 1024
	mostStreams     = 8192 // of a connection: twice as many as there are volumes, so that it may wait for each
)

// Plugins says how it stands with the plugins: carrying.Carrier is one.
type Plugins interface {
	States() map[string]carrying.State
	// Unmounted says why a volume isn't mounted at a node where the record has it: nothing where it is, or that isn't known.
	Unmounted(node string, volume uint64) string
}

// Server serves an orchestrator, once this process leads.
type Server struct {
	plugins Plugins
	leader  func(context.Context) string
	health  *health.Server
	limits  *limiting.Limits
	mutex   sync.RWMutex
	leads   *host.Host // nil while this process doesn't lead
	history *history.History
}

// New makes a server, which doesn't lead, and a gRPC server of its service, its health and its reflection, for what Listen gives. Who may call what, the roles
// say. The address of the service that leads is nothing where it isn't known, or nil where there is no other service. Interceptors among other options come
// before all else.
func New(
	plugins Plugins, leader func(context.Context) string, roles *Roles, known credentials.TransportCredentials, log *zap.Logger, more ...grpc.ServerOption,
) (*Server, *grpc.Server) {
	guard := &guard{roles: roles, log: log}
	limits := &limiting.Limits{Connections: mostConnections, Streams: mostStreams, Refusal: "too many connections"}
	made := grpc.NewServer(append(append(more, limits.Options()...),
		grpc.Creds(known), grpc.ChainUnaryInterceptor(limits.Intercept, guard.unary), grpc.ChainStreamInterceptor(limits.InterceptStream, guard.stream),
		grpc.KeepaliveEnforcementPolicy(keepalive.EnforcementPolicy{MinTime: 5 * time.Second, PermitWithoutStream: true}),
		grpc.KeepaliveParams(keepalive.ServerParameters{Time: 30 * time.Second, Timeout: 10 * time.Second}),
	)...)
	if leader == nil {
		leader = func(context.Context) string { return "" }
	}
	server := &Server{plugins: plugins, leader: leader, health: health.NewServer(), limits: limits}
	server.tell(grpc_health_v1.HealthCheckResponse_NOT_SERVING)
	wire.RegisterOrchestratorServer(made, server)
	grpc_health_v1.RegisterHealthServer(made, server.health)
	reflection.Register(made)
	return server, made
}

// Listen gives a listener whose connections are counted, for the gRPC server: calls of those above the limit are refused.
func (server *Server) Listen(inner net.Listener) net.Listener { return server.limits.Listen(inner) }

func (server *Server) tell(how grpc_health_v1.HealthCheckResponse_ServingStatus) {
	server.health.SetServingStatus("", how)
	server.health.SetServingStatus(terms.Service, how)
}

// Lead has the server serve an orchestrator from now on.
func (server *Server) Lead(leads *host.Host) {
	server.mutex.Lock()
	defer server.mutex.Unlock()
	server.leads = leads
	server.tell(grpc_health_v1.HealthCheckResponse_SERVING)
}

// Leave has its health say that it serves no more. What came is answered.
func (server *Server) Leave() { server.tell(grpc_health_v1.HealthCheckResponse_NOT_SERVING) }

// host is the orchestrator, if this process leads. Else the call is refused, and its trailer says where the one is that leads.
func (server *Server) host(ctx context.Context) (*host.Host, error) {
	server.mutex.RLock()
	leads := server.leads
	server.mutex.RUnlock()
	if leads != nil {
		return leads, nil
	}
	leader, message := server.leader(ctx), "this service doesn't lead"
	if leader != "" {
		message += ": " + leader + " does"
	}
	_ = grpc.SetTrailer(ctx, metadata.Pairs(terms.LeaderKey, leader)) // fails where gRPC isn't what calls
	return nil, status.Error(codes.Unavailable, message)
}

// current fails unless what was read of an orchestrator was no older copy: this process led after that.
func current(ctx context.Context, leads *host.Host) error {
	if err := leads.Confirm(ctx); err != nil {
		return statusOf(err)
	}
	return nil
}

// answered is the status of what a host answered. Where nothing was committed for that, since it was met or refused, this process has to lead still.
func answered(ctx context.Context, leads *host.Host, isMet bool, err error) error {
	var refusal host.Refusal
	if isMet || errors.As(err, &refusal) {
		if unsure := current(ctx, leads); unsure != nil {
			return unsure
		}
	}
	if err != nil {
		return statusOf(err)
	}
	return nil
}

// do has a command carried out.
func (server *Server) do(ctx context.Context, command host.Command) (*wire.Volume, error) {
	leads, err := server.host(ctx)
	if err != nil {
		return nil, err
	}
	command.Trace = tracing.From(ctx)
	answer, err := leads.Do(ctx, command)
	if err := answered(ctx, leads, answer.Met, err); err != nil {
		return nil, err
	}
	volume := server.volumeOf(answer.Volume)
	volume.Met, volume.Reached = answer.Met, answer.Reached && (command.Kind != host.Use || unmountedAt(volume, command.Node) == "")
	return volume, nil
}

// Create asks for a volume of a name.
func (server *Server) Create(ctx context.Context, request *wire.CreateRequest) (*wire.Volume, error) {
	judged := judge{}
	judged.text("name", request.Name, maxName)
	command := host.Command{
		Kind: host.Create, Name: request.Name, Required: request.Required, Limit: request.Limit,
		Capabilities: judged.capabilities(request.Capabilities), AtRest: request.Wait == wire.Wait_AT_REST,
	}
	if judged.err != nil {
		return nil, judged.err
	}
	return server.do(ctx, command)
}

// Use asks that a volume is published at a target of a node.
func (server *Server) Use(ctx context.Context, request *wire.UseRequest) (*wire.Volume, error) {
	judged := judge{}
	judged.text("name", request.Name, maxName)
	judged.text("node", request.Node, maxNode)
	judged.text("target", request.Target, maxTarget)
	command := host.Command{
		Kind: host.Use, Name: request.Name, Node: request.Node, Target: request.Target,
		Capability: judged.capability("capability", request.Capability), Readonly: request.Readonly, AtRest: request.Wait == wire.Wait_AT_REST,
	}
	if judged.err != nil {
		return nil, judged.err
	}
	return server.do(ctx, command)
}

// Stop asks that it is used there no more.
func (server *Server) Stop(ctx context.Context, request *wire.StopRequest) (*wire.Volume, error) {
	judged := judge{}
	judged.text("name", request.Name, maxName)
	judged.text("node", request.Node, maxNode)
	judged.text("target", request.Target, maxTarget)
	if judged.err != nil {
		return nil, judged.err
	}
	return server.do(ctx, host.Command{
		Kind: host.Stop, Name: request.Name, Node: request.Node, Target: request.Target, AtRest: request.Wait == wire.Wait_AT_REST,
	})
}

// Delete asks that a volume is deleted.
func (server *Server) Delete(ctx context.Context, request *wire.DeleteRequest) (*wire.Volume, error) {
	judged := judge{}
	judged.text("name", request.Name, maxName)
	if judged.err != nil {
		return nil, judged.err
	}
	return server.do(ctx, host.Command{Kind: host.Delete, Name: request.Name, AtRest: request.Wait == wire.Wait_AT_REST})
}

// Restart has the next session begin, with the same nodes.
func (server *Server) Restart(ctx context.Context, _ *wire.RestartRequest) (*wire.RestartResponse, error) {
	leads, err := server.host(ctx)
	if err != nil {
		return nil, err
	}
	session, err := leads.Begin(ctx, nil, "a caller asked for it")
	if err != nil {
		return nil, statusOf(err)
	}
	return &wire.RestartResponse{Session: session}, nil
}

// Lose declares a node lost. The request has to have the promise that this is.
func (server *Server) Lose(ctx context.Context, request *wire.LoseRequest) (*wire.LoseResponse, error) {
	judged := judge{}
	judged.text("node", request.Node, maxNode)
	if request.Promise != terms.Promise {
		judged.refuse("promise")
	}
	if judged.err != nil {
		return nil, judged.err
	}
	leads, err := server.host(ctx)
	if err != nil {
		return nil, err
	}
	session, err := leads.Lose(ctx, request.Node)
	if err != nil {
		return nil, statusOf(err)
	}
	return &wire.LoseResponse{Session: session}, nil
}

// Get gives a volume as it is, or once nothing is wanted of it any more.
func (server *Server) Get(ctx context.Context, request *wire.GetRequest) (*wire.Volume, error) {
	leads, err := server.host(ctx)
	if err != nil {
		return nil, err
	}
	if request.Wait == wire.Wait_AT_REST {
		answer, err := leads.AtRest(ctx, request.Name)
		if err := answered(ctx, leads, false, err); err != nil {
			return nil, err
		}
		return server.volumeOf(answer.Volume), current(ctx, leads)
	}
	volume, isThere := leads.Get(request.Name)
	if err := current(ctx, leads); err != nil {
		return nil, err
	}
	if !isThere {
		return nil, status.Error(codes.NotFound, "NoSuchVolume")
	}
	return server.volumeOf(volume), nil
}

// List gives a page of volumes.
func (server *Server) List(ctx context.Context, request *wire.ListRequest) (*wire.ListResponse, error) {
	leads, err := server.host(ctx)
	if err != nil {
		return nil, err
	}
	most := int(request.Most)
	if most == 0 || most > mostListed {
		most = mostListed
	}
	volumes, more := leads.List(request.After, most, func(volume host.Volume) bool {
		if request.Wanted && volume.Goal == records.None {
			return false
		}
		_, isThere := volume.Where(request.Node)
		return request.Node == "" || isThere || volume.Goal != records.None && volume.Row.Node == request.Node
	})
	return server.page(volumes, more), current(ctx, leads)
}

// page is what fits into a message of the first of these volumes, at least one, and the name behind which the next page begins, if there is one.
func (server *Server) page(volumes []host.Volume, more bool) *wire.ListResponse {
	response, size := &wire.ListResponse{}, 0
	for _, it := range volumes {
		volume := server.volumeOf(it)
		if size += proto.Size(volume); size > mostBytes && len(response.Volumes) > 0 {
			more = true
			break
		}
		response.Volumes = append(response.Volumes, volume)
	}
	if more {
		response.Next = response.Volumes[len(response.Volumes)-1].Name
	}
	return response
}

// Watch gives what happens, until the caller goes.
func (server *Server) Watch(request *wire.WatchRequest, stream wire.Orchestrator_WatchServer) error {
	ctx := stream.Context()
	leads, err := server.host(ctx)
	if err != nil {
		return err
	}
	if leads.Counts().Watchers >= mostWatch {
		return status.Error(codes.ResourceExhausted, "too many watch")
	}
	watching := leads.Watch(request.Current, request.Name)
	defer watching.End()
	if err := current(ctx, leads); err != nil {
		return err
	}
	if err := stream.SendHeader(metadata.MD{}); err != nil { // so that a caller knows from when on it sees all
		return err
	}
	events := watching.Current
	watching.Current = nil
	for {
		for _, event := range events {
			if err := stream.Send(server.eventOf(event)); err != nil {
				return err
			}
		}
		if events, err = watching.Next(ctx); err != nil {
			return statusOf(err)
		}
		if err := current(ctx, leads); err != nil {
			return err
		}
	}
}

// Nodes says how it stands with the controller and the nodes.
func (server *Server) Nodes(ctx context.Context, _ *wire.NodesRequest) (*wire.NodesResponse, error) {
	leads, err := server.host(ctx)
	if err != nil {
		return nil, err
	}
	attached := map[string]uint32{}
	leads.List("", 0, func(volume host.Volume) bool {
		for _, at := range volume.At {
			if at.Attached != records.No {
				attached[at.Node]++
			}
		}
		return false
	})
	states := server.plugins.States()
	response := &wire.NodesResponse{Session: leads.Session()}
	add := func(id, plugin string) {
		state := states[plugin]
		if state.Trouble == "" {
			state.Trouble = leads.Trouble(plugin)
		}
		if state.Trouble == "" {
			state.Trouble = state.Amiss
		}
		response.Nodes = append(response.Nodes, &wire.Node{
			Id: id, Address: state.Address, Connection: state.Connection, UnderWay: uint32(state.UnderWay), Queued: uint32(state.Queued),
			Attached: attached[id], Trouble: state.Trouble,
		})
	}
	add("", carrying.Controller)
	for _, id := range leads.Nodes() {
		add(id, carrying.NodeName(id))
	}
	return response, current(ctx, leads)
}
