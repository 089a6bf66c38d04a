package api_test

import (
	"context"
	"errors"
	"fmt"
	"net"
	"os"
	"path/filepath"
	"testing"
	"time"

	"go.uber.org/zap"
	"google.golang.org/grpc"
	"google.golang.org/grpc/codes"
	"google.golang.org/grpc/credentials"
	"google.golang.org/grpc/health/grpc_health_v1"
	"google.golang.org/grpc/metadata"
	"google.golang.org/grpc/reflection/grpc_reflection_v1alpha"
	"google.golang.org/grpc/status"

	"tufayon/service/api"
	"tufayon/service/api/terms"
	"tufayon/service/api/wire"
	"tufayon/service/carrying"
	"tufayon/service/host"
	"tufayon/service/host/hosttest"
	"tufayon/service/numbers"
	"tufayon/service/secure"
	"tufayon/service/secure/securetest"
	"tufayon/service/store"
)

var (
	ctx   = context.Background()
	block = &wire.Capability{Mode: 1}
)

type plugins map[string]carrying.State

func (it plugins) States() map[string]carrying.State { return it }

// Unmounted says of a node that says anything of itself that no volume is mounted there.
func (it plugins) Unmounted(node string, _ uint64) string { return it[carrying.NodeName(node)].Amiss }

// A carrier that is one of these says itself how it stands with the plugins.
type telling struct {
	host.Carrier
	plugins
}

// serve serves a new orchestrator of nodes n1, n2 and so on at a listener.
func serve(t testing.TB, kept store.Store, carrier host.Carrier, nodes int, listener net.Listener, known credentials.TransportCredentials, roles *api.Roles) *host.Host {
	t.Helper()
	return serveBy(t, host.Options{Store: kept, Carrier: carrier, Log: zap.NewNop()}, nodes, listener, known, roles)
}

// serveBy serves one by these options, and those of the server.
func serveBy(
	t testing.TB, options host.Options, nodes int, listener net.Listener, known credentials.TransportCredentials, roles *api.Roles, more ...grpc.ServerOption,
) *host.Host {
	t.Helper()
	options.Times = host.Times{Patience: time.Minute, Retry: time.Millisecond, MostRetry: time.Second}
	var states api.Plugins = plugins{
		carrying.Controller: {Address: "unix:///c", Connection: "READY"}, "node:n1": {Address: "unix:///n1", Queued: 3, Trouble: "gone"},
	}
	if its, is := options.Carrier.(telling); is {
		states = its
	}
	for at := 1; at <= nodes; at++ {
		options.Nodes = append(options.Nodes, fmt.Sprint("n", at))
	}
	made, err := host.Open(ctx, options)
	if err != nil {
		t.Fatal(err)
	}
	leading, server := api.New(states, nil, roles, known, options.Log, more...)
	leading.Lead(made)
	go server.Serve(listener)
	t.Cleanup(func() { server.Stop(); made.Close() })
	return made
}

func dial(t testing.TB, address string, known credentials.TransportCredentials) *grpc.ClientConn {
	t.Helper()
	connection, err := grpc.Dial(address, grpc.WithTransportCredentials(known))
	if err != nil {
		t.Fatal(err)
	}
	t.Cleanup(func() { connection.Close() })
	return connection
}

// serveLocal serves at a Unix socket, to this user by a role, and gives a connection.
func serveLocal(t testing.TB, kept store.Store, carrier host.Carrier, nodes int, role api.Role) (*grpc.ClientConn, *host.Host, *api.Roles) {
	t.Helper()
	listener, err := secure.Listen(filepath.Join(t.TempDir(), "socket"))
	if err != nil {
		t.Fatal(err)
	}
	roles := &api.Roles{}
	own := uint32(os.Geteuid())
	roles.Set(nil, map[uint32]api.Role{own: role})
	made := serve(t, kept, carrier, nodes, listener, secure.Local{May: roles.MayConnect}, roles)
	connection := dial(t, "unix://"+listener.Addr().String(), secure.Local{May: func(uid uint32) bool { return uid == own }})
	return connection, made, roles
}

// local serves an orchestrator of one node over a store in memory, whose plugins answer at once.
func local(t testing.TB, role api.Role) (*grpc.ClientConn, *host.Host, *api.Roles) {
	t.Helper()
	return serveLocal(t, hosttest.NewStore(), &hosttest.Carrier{}, 1, role)
}

func wants(t *testing.T, what string, err error, code codes.Code, message string) {
	t.Helper()
	if its := status.Convert(err); its.Code() != code || its.Message() != message {
		t.Errorf("%s: %v, not %v %s", what, err, code, message)
	}
}

// Commands are answered once they are committed, or once the volume is at rest, and refusals have their names.
func TestCommands(t *testing.T) {
	connection, _, _ := local(t, api.Loses)
	client := wire.NewOrchestratorClient(connection)
	volume, err := client.Create(ctx, &wire.CreateRequest{Name: "v", Required: 10, Limit: 20, Capabilities: []*wire.Capability{block}, Wait: wire.Wait_AT_REST})
	if err != nil || !volume.Reached || volume.Id != 1 || volume.Exists != wire.Known_YES || volume.Goal != "" || volume.Limit != 20 {
		t.Errorf("created: %v, %v", volume, err)
	}
	volume, err = client.Use(ctx, &wire.UseRequest{Name: "v", Node: "n1", Target: "/a", Capability: block})
	if err != nil || volume.Reached || volume.Goal != "use" || volume.GoalNode != "n1" || volume.GoalTarget != "/a" || volume.WantedSince == 0 || volume.Tries != 1 {
		t.Errorf("to be used: %v, %v", volume, err)
	}
	volume, err = client.Get(ctx, &wire.GetRequest{Name: "v", Wait: wire.Wait_AT_REST})
	if err != nil || volume.Goal != "" || len(volume.At) != 1 || volume.At[0].Targets[0].Published != wire.Known_YES {
		t.Errorf("used: %v, %v", volume, err)
	}
	list, err := client.List(ctx, &wire.ListRequest{Node: "n1"})
	if err != nil || len(list.Volumes) != 1 || list.Next != "" {
		t.Errorf("at n1: %v, %v", list, err)
	}
	if list, err = client.List(ctx, &wire.ListRequest{Wanted: true}); err != nil || len(list.Volumes) != 0 {
		t.Errorf("wanted: %v, %v", list, err)
	}
	nodes, err := client.Nodes(ctx, &wire.NodesRequest{})
	if err != nil || len(nodes.Nodes) != 2 || nodes.Nodes[1].Id != "n1" || nodes.Nodes[1].Attached != 1 || nodes.Nodes[1].Queued != 3 || nodes.Session != 1 {
		t.Errorf("the nodes: %v, %v", nodes, err)
	}
	_, err = client.Create(ctx, &wire.CreateRequest{Name: "v", Capabilities: []*wire.Capability{block}})
	wants(t, "created again", err, codes.AlreadyExists, "NameUsed")
	_, err = client.Delete(ctx, &wire.DeleteRequest{Name: "v"})
	wants(t, "deleted while used", err, codes.FailedPrecondition, "InUse")
	_, err = client.Delete(ctx, &wire.DeleteRequest{Name: "w"})
	wants(t, "another deleted", err, codes.NotFound, "NoSuchVolume")
	_, err = client.Get(ctx, &wire.GetRequest{Name: "w"})
	wants(t, "another got", err, codes.NotFound, "NoSuchVolume")
	_, err = client.Stop(ctx, &wire.StopRequest{Name: "v", Node: "n1", Target: "/b"})
	wants(t, "stopped elsewhere", err, codes.NotFound, "NoSuchTarget")
	_, err = client.Use(ctx, &wire.UseRequest{Name: "v", Node: "n2", Target: "/b", Capability: block})
	wants(t, "used elsewhere", err, codes.NotFound, "NoSuchNode")
	for field, request := range map[string]*wire.UseRequest{
		"name": {Node: "n1", Target: "/a", Capability: block}, "node": {Name: "v", Target: "/a", Capability: block},
		"target": {Name: "v", Node: "n1", Target: "/a\x00", Capability: block}, "capability": {Name: "v", Node: "n1", Target: "/a"},
	} {
		_, err = client.Use(ctx, request)
		wants(t, "without "+field, err, codes.InvalidArgument, field)
	}
	_, err = client.Create(ctx, &wire.CreateRequest{Name: "w", Capabilities: []*wire.Capability{{Mode: 8}}})
	wants(t, "in mode 8", err, codes.InvalidArgument, "capabilities")
	_, err = client.Lose(ctx, &wire.LoseRequest{Node: "n1", Promise: "it is off"})
	wants(t, "lost with another promise", err, codes.InvalidArgument, "promise")
	lost, err := client.Lose(ctx, &wire.LoseRequest{Node: "n1", Promise: terms.Promise})
	if err != nil || lost.Session != 2 {
		t.Errorf("lost: %v, %v", lost, err)
	}
	if again, err := client.Restart(ctx, &wire.RestartRequest{}); err != nil || again.Session != 3 {
		t.Errorf("restarted: %v, %v", again, err)
	}
}

// A use that is so as the record has it, but not at the node, whose machine was started again, isn't reached, and the volume says why.
func TestUnmounted(t *testing.T) {
	carrier := telling{&hosttest.Carrier{}, plugins{"node:n2": {Address: "unix:///n2", Connection: "READY", Amiss: "nothing is mounted"}}}
	connection, _, _ := serveLocal(t, hosttest.NewStore(), carrier, 2, api.Loses)
	client := wire.NewOrchestratorClient(connection)
	shared := &wire.Capability{Mode: 5}
	if _, err := client.Create(ctx, &wire.CreateRequest{Name: "v", Capabilities: []*wire.Capability{shared}, Wait: wire.Wait_AT_REST}); err != nil {
		t.Fatal(err)
	}
	for _, node := range []string{"n1", "n2"} {
		for _, isMet := range []bool{false, true} {
			volume, err := client.Use(ctx, &wire.UseRequest{Name: "v", Node: node, Target: "/a", Capability: shared, Wait: wire.Wait_AT_REST})
			if err != nil || volume.Met != isMet || volume.Reached != (node == "n1") || volume.Exists != wire.Known_YES {
				t.Errorf("at %s, so already %v: %v, %v", node, isMet, volume, err)
			}
		}
	}
	said := map[string]string{}
	list, err := client.List(ctx, &wire.ListRequest{})
	if err != nil || len(list.Volumes) != 1 {
		t.Fatal(list, err)
	}
	for _, at := range list.Volumes[0].At {
		said[at.Node] = at.Unmounted
	}
	if len(said) != 2 || said["n1"] != "" || said["n2"] != "nothing is mounted" {
		t.Errorf("not mounted: %v", said)
	}
	volume, err := client.Stop(ctx, &wire.StopRequest{Name: "v", Node: "n2", Target: "/a", Wait: wire.Wait_AT_REST})
	if err != nil || !volume.Reached {
		t.Errorf("stopped: %v, %v", volume, err)
	}
}

// A service that doesn't lead says so, to each caller and by its health.
func TestWaits(t *testing.T) {
	listener, err := secure.Listen(filepath.Join(t.TempDir(), "socket"))
	if err != nil {
		t.Fatal(err)
	}
	roles, own := &api.Roles{}, uint32(os.Geteuid())
	roles.Set(nil, map[uint32]api.Role{own: api.Loses})
	where := ""
	_, server := api.New(plugins{}, func(context.Context) string { return where }, roles, secure.Local{May: roles.MayConnect}, zap.NewNop())
	go server.Serve(listener)
	defer server.Stop()
	connection := dial(t, "unix://"+listener.Addr().String(), secure.Local{May: func(uid uint32) bool { return uid == own }})
	client := wire.NewOrchestratorClient(connection)
	_, err = client.Delete(ctx, &wire.DeleteRequest{Name: "v"})
	wants(t, "a command", err, codes.Unavailable, "this service doesn't lead")
	where = "10.0.0.2:7101"
	var trailer metadata.MD
	_, err = client.Nodes(ctx, &wire.NodesRequest{}, grpc.Trailer(&trailer))
	wants(t, "the nodes", err, codes.Unavailable, "this service doesn't lead: 10.0.0.2:7101 does")
	if said := trailer.Get(terms.LeaderKey); len(said) != 1 || said[0] != where {
		t.Errorf("the trailer says %v", said)
	}
	for _, service := range []string{"", terms.Service} {
		told, err := grpc_health_v1.NewHealthClient(connection).Check(ctx, &grpc_health_v1.HealthCheckRequest{Service: service})
		if err != nil || told.Status != grpc_health_v1.HealthCheckResponse_NOT_SERVING {
			t.Errorf("its health: %v, %v", told, err)
		}
	}
}

// A service whose store is another's by now answers no reader, whatever it has in memory, and no command that changes nothing: it ends. One that doesn't
// know is unsure.
func TestLate(t *testing.T) {
	kept := hosttest.NewStore()
	carrier := &hosttest.Carrier{Opens: func(ctx context.Context, _ string, _ numbers.Opening) error { // so that nothing is committed meanwhile
		<-ctx.Done()
		return ctx.Err()
	}}
	connection, made, _ := serveLocal(t, kept, carrier, 1, api.Operates)
	client := wire.NewOrchestratorClient(connection)
	create := func() error {
		_, err := client.Create(ctx, &wire.CreateRequest{Name: "v", Capabilities: []*wire.Capability{block}})
		return err
	}
	if err := create(); err != nil {
		t.Fatal(err)
	}
	watch := func() error {
		stream, err := client.Watch(ctx, &wire.WatchRequest{Current: true})
		if err == nil {
			_, err = stream.Recv()
		}
		return err
	}
	kept.Fail(store.ErrUnknown)
	_, err := client.Get(ctx, &wire.GetRequest{Name: "v"})
	wants(t, "unsure", err, codes.Unavailable, "it isn't known whether this service leads: a commit's outcome isn't known")
	wants(t, "a watcher", watch(), codes.Unavailable, "it isn't known whether this service leads: a commit's outcome isn't known")
	wants(t, "a name that is used", create(), codes.Unavailable, "it isn't known whether this service leads: a commit's outcome isn't known")
	_, err = client.Get(ctx, &wire.GetRequest{Name: "w", Wait: wire.Wait_AT_REST})
	wants(t, "no volume", err, codes.Unavailable, "it isn't known whether this service leads: a commit's outcome isn't known")
	kept.Fail(store.ErrLost)
	_, err = client.List(ctx, &wire.ListRequest{})
	wants(t, "late", err, codes.Unavailable, host.ErrEnded.Error())
	<-made.Done()
	if !errors.Is(made.Err(), store.ErrLost) {
		t.Errorf("it ended by %v", made.Err())
	}
}

// A page of a list says where the next one begins.
func TestPages(t *testing.T) {
	connection, _, _ := local(t, api.Operates)
	client := wire.NewOrchestratorClient(connection)
	for _, name := range []string{"c", "a", "b"} {
		if _, err := client.Create(ctx, &wire.CreateRequest{Name: name, Capabilities: []*wire.Capability{block}}); err != nil {
			t.Fatal(err)
		}
	}
	var names string
	request := &wire.ListRequest{Most: 2}
	for {
		page, err := client.List(ctx, request)
		if err != nil {
			t.Fatal(err)
		}
		for _, it := range page.Volumes {
			names += it.Name
		}
		if names += ";"; page.Next == "" {
			break
		}
		request.After = page.Next
	}
	if names != "ab;c;" {
		t.Errorf("the pages are %s", names)
	}
}

// So many watch at once and no more, until one of them ends.
func TestManyWatch(t *testing.T) {
	connection, made, _ := local(t, api.Reads)
	client := wire.NewOrchestratorClient(connection)
	var all []*host.Watching
	for at := 0; at < 1024; at++ {
		all = append(all, made.Watch(false, ""))
	}
	watch := func() error {
		ctx, cancel := context.WithTimeout(ctx, 10*time.Second)
		defer cancel()
		stream, err := client.Watch(ctx, &wire.WatchRequest{})
		if err == nil {
			_, err = stream.Header()
		}
		if err == nil && len(all) == 1024 {
			_, err = stream.Recv()
		}
		return err
	}
	wants(t, "one more", watch(), codes.ResourceExhausted, "too many watch")
	all[0].End()
	all = all[1:]
	wants(t, "one more later", watch(), codes.OK, "")
}

// Who has lost its role is told nothing more, by a stream that it has either.
func TestWatchWithoutRole(t *testing.T) {
	connection, made, roles := local(t, api.Operates)
	client := wire.NewOrchestratorClient(connection)
	if _, err := client.Create(ctx, &wire.CreateRequest{Name: "v", Capabilities: []*wire.Capability{block}, Wait: wire.Wait_AT_REST}); err != nil {
		t.Fatal(err)
	}
	stream, err := client.Watch(ctx, &wire.WatchRequest{})
	if err == nil {
		_, err = stream.Header()
	}
	if err != nil {
		t.Fatal(err)
	}
	roles.Set(nil, nil)
	if _, err := made.Begin(ctx, nil, "a test"); err != nil {
		t.Fatal(err)
	}
	if event, err := stream.Recv(); status.Code(err) != codes.PermissionDenied {
		t.Errorf("it is told %v, %v", event, err)
	}
}

// A watcher gets a volume as it is, and then what becomes of it.
func TestWatch(t *testing.T) {
	connection, made, _ := local(t, api.Operates)
	client := wire.NewOrchestratorClient(connection)
	if _, err := client.Create(ctx, &wire.CreateRequest{Name: "v", Capabilities: []*wire.Capability{block}, Wait: wire.Wait_AT_REST}); err != nil {
		t.Fatal(err)
	}
	stream, err := client.Watch(ctx, &wire.WatchRequest{Current: true})
	if err != nil {
		t.Fatal(err)
	}
	event, err := stream.Recv()
	if err != nil || event.GetVolume().GetId() != 1 || event.Session != 1 {
		t.Fatalf("%v, %v", event, err)
	}
	if _, err := client.Delete(ctx, &wire.DeleteRequest{Name: "v", Wait: wire.Wait_AT_REST}); err != nil {
		t.Fatal(err)
	}
	if _, err := made.Begin(ctx, nil, "a test"); err != nil {
		t.Fatal(err)
	}
	for event.GetForgotten() == "" {
		if event, err = stream.Recv(); err != nil {
			t.Fatal(err)
		}
	}
	if event.GetForgotten() != "v" || event.Session != 2 {
		t.Errorf("%v", event)
	}
	made.Close()
	for err == nil {
		_, err = stream.Recv()
	}
	if status.Code(err) != codes.Unavailable {
		t.Errorf("it ended by %v", err)
	}
	_, err = client.Delete(ctx, &wire.DeleteRequest{Name: "v"})
	if status.Code(err) != codes.Unavailable {
		t.Errorf("a command after the end: %v", err)
	}
}

// Each role may do what it may, and no more; another role counts from the next call on.
func TestRoles(t *testing.T) {
	connection, _, roles := local(t, api.Reads)
	client := wire.NewOrchestratorClient(connection)
	own := uint32(os.Geteuid())
	check := func(role string, mayRead, mayOperate, mayLose bool) {
		t.Helper()
		_, read := client.List(ctx, &wire.ListRequest{})
		_, operate := client.Delete(ctx, &wire.DeleteRequest{Name: "w"})
		_, restart := client.Restart(ctx, &wire.RestartRequest{})
		_, lose := client.Lose(ctx, &wire.LoseRequest{Node: "n9", Promise: terms.Promise})
		for _, it := range []struct {
			err error
			may bool
		}{{read, mayRead}, {operate, mayOperate}, {restart, mayOperate}, {lose, mayLose}} {
			if (status.Code(it.err) != codes.PermissionDenied) != it.may {
				t.Errorf("%s: %v", role, it.err)
			}
		}
		stream, err := client.Watch(ctx, &wire.WatchRequest{Current: true})
		if err == nil && !mayRead {
			_, err = stream.Recv()
			wants(t, role, err, codes.PermissionDenied, fmt.Sprintf("uid:%d may not call Watch", own))
		}
	}
	check("read", true, false, false)
	roles.Set(nil, map[uint32]api.Role{own: api.Operates})
	check("operate", true, true, false)
	roles.Set(nil, map[uint32]api.Role{own: api.Loses})
	check("lose", true, true, true)
	roles.Set(nil, nil)
	check("nobody", false, false, false)
	if _, err := grpc_health_v1.NewHealthClient(connection).Check(ctx, &grpc_health_v1.HealthCheckRequest{Service: terms.Service}); err != nil {
		t.Errorf("health: %v", err)
	}
	stream, err := grpc_reflection_v1alpha.NewServerReflectionClient(connection).ServerReflectionInfo(ctx)
	if err != nil {
		t.Fatal(err)
	}
	stream.Send(&grpc_reflection_v1alpha.ServerReflectionRequest{
		MessageRequest: &grpc_reflection_v1alpha.ServerReflectionRequest_FileContainingSymbol{FileContainingSymbol: terms.Service},
	})
	if came, err := stream.Recv(); err != nil || came.GetFileDescriptorResponse() == nil {
		t.Errorf("reflection: %v, %v", came, err)
	}
}

// Over TCP a caller is who its certificate names, and has the role that stands under that name.
func TestTLS(t *testing.T) {
	authority, end := securetest.NewAuthority(t), time.Now().Add(time.Hour)
	listener, err := net.Listen("tcp", "127.0.0.1:0")
	if err != nil {
		t.Fatal(err)
	}
	files := authority.Issue(t, t.TempDir(), end, "tufayon://s1/orchestrator")
	roles := &api.Roles{}
	roles.Set(map[string]api.Role{"ann": api.Operates}, nil)
	serve(t, hosttest.NewStore(), &hosttest.Carrier{}, 1, listener, files.Server(secure.Those("s1", secure.Client, secure.Controller), nil), roles)
	for uri, code := range map[string]codes.Code{
		"tufayon://s1/client/ann": codes.NotFound, "tufayon://s1/client/eve": codes.PermissionDenied, "tufayon://s1/controller": codes.PermissionDenied,
		"tufayon://s2/client/ann": codes.Unavailable, "tufayon://s1/node/n1": codes.Unavailable,
	} {
		its := authority.Issue(t, t.TempDir(), end, uri)
		connection := dial(t, listener.Addr().String(), its.Client(secure.Name{Set: "s1", Role: secure.Orchestrator}, nil))
		_, err := wire.NewOrchestratorClient(connection).Delete(ctx, &wire.DeleteRequest{Name: "w"})
		if status.Code(err) != code {
			t.Errorf("%s: %v", uri, err)
		}
	}
}
