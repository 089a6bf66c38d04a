package carrying

import (
	"fmt"
	"strings"
	"time"

	"google.golang.org/grpc"
	"google.golang.org/grpc/backoff"
	"google.golang.org/grpc/credentials"
	_ "google.golang.org/grpc/health" // has connections watch what a server says of its health
	"google.golang.org/grpc/keepalive"
	"google.golang.org/grpc/resolver"
	"google.golang.org/grpc/resolver/manual"

	"tufayon/service/secure"
)

// healthy has a connection count as there only while its server says that it serves, if it says anything of that: one that waits to lead doesn't.
const healthy = `{"loadBalancingConfig":[{"round_robin":{}}],"healthCheckConfig":{"serviceName":""}}`

// IsLocal says whether an address is a Unix socket's, unix://PATH, and not HOST:PORT.
func IsLocal(address string) bool { return strings.HasPrefix(address, "unix://") }

// Peers says how plugins are known at the ends of connections: over TCP by the names of a set, at Unix sockets by the user.
type Peers struct {
	Set     string
	Files   *secure.Files // nil where there are only Unix sockets
	May     func(uid uint32) bool
	Refused func(plugin string) secure.Refused
}

// Dial makes a connection to a plugin, which takes no other one for it. Of several addresses, with commas between, calls go where it serves, as its health
// says.
func (peers Peers) Dial(plugin, address string, connects func() uint64) (*grpc.ClientConn, error) {
	known, err := peers.credentials(plugin, address)
	if err != nil {
		return nil, err
	}
	options := []grpc.DialOption{
		grpc.WithTransportCredentials(counting{known, connects}),
		grpc.WithDefaultServiceConfig(healthy),
		grpc.WithConnectParams(grpc.ConnectParams{
			Backoff:           backoff.Config{BaseDelay: 100 * time.Millisecond, Multiplier: 1.6, Jitter: 0.2, MaxDelay: 3 * time.Second},
			MinConnectTimeout: 5 * time.Second,
		}),
	}
	if !IsLocal(address) { // a kernel tells at once that a socket's server is gone; a network doesn't
		options = append(options, grpc.WithKeepaliveParams(keepalive.ClientParameters{Time: 10 * time.Second, Timeout: 5 * time.Second, PermitWithoutStream: true}))
	}
	target, more := Target(address)
	return grpc.Dial(target, append(options, more...)...)
}

// Target is what gRPC dials to reach whoever serves at an address, or at those of several, with commas between.
func Target(address string) (string, []grpc.DialOption) {
	options := secure.ToSocket(address)
	addresses := strings.Split(address, ",")
	if len(addresses) == 1 {
		return address, options
	}
	var state resolver.State
	for _, it := range addresses {
		state.Addresses = append(state.Addresses, resolver.Address{Addr: it})
	}
	all := manual.NewBuilderWithScheme("tufayon")
	all.InitialState(state)
	return "tufayon:///several", append(options, grpc.WithResolvers(all))
}

func (peers Peers) credentials(plugin, address string) (credentials.TransportCredentials, error) {
	refused := peers.Refused(plugin)
	if IsLocal(address) {
		return secure.Local{May: peers.May, Refused: refused}, nil
	}
	if peers.Files == nil {
		return nil, fmt.Errorf("%w: over TCP there have to be certificates", secure.ErrNone)
	}
	return peers.Files.Client(NameOf(peers.Set, plugin), refused), nil
}

// NameOf is a plugin's name in its certificate.
func NameOf(set, plugin string) secure.Name {
	if id := strings.TrimPrefix(plugin, NodeName("")); id != plugin {
		return secure.Name{Set: set, Role: secure.Node, ID: id}
	}
	return secure.Name{Set: set, Role: secure.Controller}
}
