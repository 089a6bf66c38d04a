package main

import (
	"context"
	"fmt"
	"os"
	"path/filepath"
	"strings"
	"syscall"
	"time"

	"google.golang.org/grpc"
	"google.golang.org/grpc/codes"
	"google.golang.org/grpc/credentials"
	_ "google.golang.org/grpc/health" // has connections watch what a server says of its health
	"google.golang.org/grpc/keepalive"
	"google.golang.org/grpc/status"

	"tufayon/service/api/terms"
	"tufayon/service/api/wire"
	"tufayon/service/carrying"
	"tufayon/service/secure"
)

const defaultAddress = "unix:///run/tufayon/orchestrator.sock"

// connecting is how the service is reached.
type connecting struct {
	address, set string
	files        secure.Files
	timeout      time.Duration
}

// leading has a connection of several addresses go to the service that leads, by its health.
const leading = `{"loadBalancingConfig":[{"round_robin":{}}],"healthCheckConfig":{"serviceName":"` + terms.Service + `"}}`

// client gives a client of the service, a context for its calls, and what ends both. Of several addresses, with commas between, it is that of the service
// that leads, which is waited for; of one that doesn't lead it is that which it says.
func (it *connecting) client(ctx context.Context) (wire.OrchestratorClient, context.Context, func(), error) {
	following := &following{known: map[string]*grpc.ClientConn{}, dial: func(address string) (*grpc.ClientConn, error) { return it.dial(address) }}
	if strings.Contains(it.address, ",") {
		following.several = it.address
	}
	connection, err := it.dial(it.address, grpc.WithUnaryInterceptor(following.unary), grpc.WithStreamInterceptor(following.stream))
	if err != nil {
		return nil, nil, nil, err
	}
	cancel := context.CancelFunc(func() {})
	if it.timeout > 0 {
		ctx, cancel = context.WithTimeout(ctx, it.timeout)
	}
	return wire.NewOrchestratorClient(connection), ctx, func() { cancel(); following.close(); connection.Close() }, nil
}

// dial connects to an address, or to that of several whose service leads.
func (it *connecting) dial(address string, more ...grpc.DialOption) (*grpc.ClientConn, error) {
	addresses := strings.Split(address, ",")
	known, err := it.credentials(addresses)
	if err != nil {
		return nil, err
	}
	target, options := carrying.Target(address)
	options = append(append(options, more...), grpc.WithTransportCredentials(known))
	if !carrying.IsLocal(address) {
		options = append(options, grpc.WithKeepaliveParams(keepalive.ClientParameters{Time: 10 * time.Second, Timeout: 5 * time.Second}))
	}
	if len(addresses) > 1 {
		options = append(options, grpc.WithDefaultServiceConfig(leading))
	}
	connection, err := grpc.Dial(target, options...)
	if err != nil {
		return nil, status.Error(codes.Unavailable, err.Error())
	}
	return connection, nil
}

func (it *connecting) credentials(addresses []string) (credentials.TransportCredentials, error) {
	for _, address := range addresses {
		if carrying.IsLocal(address) != carrying.IsLocal(addresses[0]) {
			return nil, fmt.Errorf("%w: addresses are all of Unix sockets, or none", errUsage)
		}
	}
	if carrying.IsLocal(addresses[0]) {
		folder := filepath.Dir(strings.TrimPrefix(addresses[0], "unix://"))
		return secure.Local{May: func(uid uint32) bool { return uid == 0 || int(uid) == os.Geteuid() || isOwner(folder, uid) }}, nil
	}
	name := secure.Name{Set: it.set, Role: secure.Orchestrator}
	if it.set == "" || it.files.Certificate == "" || it.files.Key == "" || it.files.Authorities == "" {
		return nil, errTLS
	}
	return it.files.Client(name, nil), nil
}

// isOwner says whether a folder is a user's: who can put a socket there.
func isOwner(folder string, uid uint32) bool {
	found, err := os.Stat(folder)
	if err != nil {
		return false
	}
	owner, ok := found.Sys().(*syscall.Stat_t)
	return ok && owner.Uid == uid
}
