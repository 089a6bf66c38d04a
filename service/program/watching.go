package program

import (
	"context"
	"fmt"
	"net"
	"os"
	"path/filepath"
	"strings"
	"time"

	"go.uber.org/zap"
	"google.golang.org/grpc"

	"tufayon/service/carrying"
	"tufayon/service/daemon"
	"tufayon/service/driver"
	"tufayon/service/metrics"
	"tufayon/service/secure"
	"tufayon/service/settings"
	"tufayon/service/upstream"
	"tufayon/service/web"
)

// A Watch says where and to whom a process tells how it does.
type Watch struct {
	Address string
	Files   *secure.Files         // over TCP beyond this machine
	Admit   secure.Admit          // who may ask there
	Seen    secure.Seen           // is told who did; may be nil
	May     func(uid uint32) bool // who may at a Unix socket
	Log     *zap.Logger
}

// Serve serves, until what it gives is called. Without an address it does nothing.
func (watch Watch) Serve(options web.Options) (end func(), err error) {
	if watch.Address == "" {
		return func() {}, nil
	}
	listener, err := Listen(watch.Address)
	if err != nil {
		return nil, err
	}
	switch {
	case carrying.IsLocal(watch.Address):
		options.Known = secure.Local{May: watch.May, Refused: func(from net.Addr, why error) {
			watch.Log.Warn("who would watch is refused", zap.Stringer("from", from), zap.Error(why))
		}}
	case !web.IsLoopback(watch.Address):
		options.TLS, options.Judge = watch.Files.HTTPS(watch.Admit, watch.Seen), watch.Files.Judging(watch.Admit)
	}
	options.Log = watch.Log
	server := web.New(options)
	ended := make(chan struct{})
	go func() {
		defer close(ended)
		if err := server.Serve(listener); err != nil {
			watch.Log.Error("nobody can watch any more", zap.Error(err))
		}
	}()
	watch.Log.Info("can be watched", zap.String("address", watch.Address))
	return func() { server.Close(); <-ended }, nil
}

// Ends tells when the certificate of a process of this name ends, and the one for etcd, by their files: nothing where there are none.
func Ends(place *settings.Place, name secure.Name) func() map[string]time.Time {
	return func() map[string]time.Time {
		ends := map[string]time.Time{}
		add := func(file string, until time.Time, err error) {
			if err != nil {
				until = time.Unix(0, 0) // it counts as one that has ended
			}
			ends[file] = until
		}
		if files := place.EtcdFiles(); files != nil {
			until, err := files.CheckOwn()
			add(files.Certificate, until, err)
		}
		if files := place.Files(); files != nil {
			until, err := files.Check(name)
			add(files.Certificate, until, err)
		}
		return ends
	}
}

// ServerEnds tells when the certificates of etcd's servers end, by their HOST:PORT, as they showed them last: nothing where there is no etcd.
func ServerEnds(place *settings.Place) func() map[string]time.Time {
	if place.Etcd == nil {
		return nil
	}
	return etcdOf(place.Etcd).ServerEnds().Known
}

// watchers see each call of a plugin.
func watchers(told *metrics.Driver, log *zap.Logger) []grpc.UnaryServerInterceptor {
	return []grpc.UnaryServerInterceptor{told.Intercept, driver.Logging(log)}
}

// watchedOptions are those of a plugin's server that is watched.
func watchedOptions(told *metrics.Driver, log *zap.Logger) []grpc.ServerOption {
	return []grpc.ServerOption{grpc.ChainUnaryInterceptor(watchers(told, log)...)}
}

// watchUpstream has the calls of a driver before another one seen, and its nodes counted.
func watchUpstream(behind *upstream.Proxy, told *metrics.Driver, log *zap.Logger) {
	behind.Watch(watchers(told, log)...)
	told.Nodes = behind.Nodes()
}

// WatchPlugin has a plugin of csi-driver's watched at an address, a Unix socket's or one on loopback. It gives what the plugin's life and servers need,
// and what ends it. Behind is the upstream where the plugin stands before one, or nil.
func WatchPlugin(program, plugin string, behind *upstream.Proxy, address, level string) (*metrics.Driver, []grpc.ServerOption, func(), error) {
	log, err := daemon.Logger(level)
	if err != nil {
		return nil, nil, nil, fmt.Errorf("%w: %v", ErrUsage, err)
	}
	if level == "" {
		log = zap.NewNop()
	}
	log = log.With(zap.String("plugin", plugin))
	told := metrics.NewDriver(program, plugin)
	if address != "" && !carrying.IsLocal(address) && !web.IsLoopback(address) {
		return nil, nil, nil, fmt.Errorf("%w: %q is neither a Unix socket nor on loopback", ErrUsage, address)
	}
	if behind != nil {
		watchUpstream(behind, told, log)
	}
	if carrying.IsLocal(address) { // the folder may be the endpoint's, which is this user's alone
		if err := os.MkdirAll(filepath.Dir(strings.TrimPrefix(address, "unix://")), 0o700); err != nil {
			return nil, nil, nil, err
		}
	}
	end, err := Watch{Address: address, May: IsOwn, Log: log}.Serve(web.Options{Metrics: told.Handler(), Ready: told.Ready})
	if err != nil {
		return nil, nil, nil, err
	}
	return told, watchedOptions(told, log), func() { end(); log.Sync() }, nil
}

// Alive tells systemd how a plugin does, until the context ends.
func alive(ctx context.Context, told *metrics.Driver) {
	daemon.Watchdog(ctx, func() bool { return told.Committing() < mostCommitting })
}

// mostCommitting is how long a commit may take until systemd's watchdog ends the process: etcd is asked for 60 s at most.
const mostCommitting = 2 * time.Minute
