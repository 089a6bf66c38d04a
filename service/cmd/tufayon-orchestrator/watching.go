package main

import (
	"context"
	"fmt"
	"sync"
	"time"

	"google.golang.org/grpc"

	"tufayon/service/api"
	"tufayon/service/daemon"
	"tufayon/service/history"
	"tufayon/service/host"
	"tufayon/service/metrics"
	"tufayon/service/program"
	"tufayon/service/secure"
	"tufayon/service/settings"
	"tufayon/service/web"
)

// watching is what tells of the service: its metrics, its history and its page.
type watching struct {
	metrics *metrics.Orchestrator
	history *history.History
	page    *web.Page
	end     func()

	mutex sync.Mutex
	read  *settings.Settings
	leads *host.Host                   // nil while this process doesn't lead
	finds func(context.Context) string // who leads else: nil where there is nobody else
}

// watch begins to tell of the service.
func (running *service) watch() (*watching, error) {
	read := running.settings
	made := &watching{metrics: metrics.NewOrchestrator(), read: read}
	var err error
	if made.history, err = history.Open(read.Process.History, history.Usual, running.log); err != nil {
		return nil, err
	}
	made.history.Configure(read.Set.Config())
	made.page = web.NewPage(web.Source{
		Set: read.Set.Name, Host: made.host, Leader: made.leader, Plugins: running.carrier.States, Slots: made.slots, History: made.history,
		Draws: read.Process.Draws,
	})
	source := metrics.Source{
		Set: read.Set.Name, Host: made.host, Plugins: running.carrier.States, Slots: made.slots, Ends: program.Ends(&read.Process.Place, read.Name()),
		Servers: program.ServerEnds(&read.Process.Place), Clients: running.clients.ends, Streams: made.page.Streams, History: made.history.Count,
	}
	if read.Process.Etcd != nil {
		source.Lease = time.Duration(read.Process.Etcd.Lease) * time.Second
	}
	made.metrics.Watch(source)
	made.end, err = program.Watch{
		Address: read.Process.Watch, Files: read.Process.Files(), May: running.roles.MayConnect, Log: running.log,
		Admit: func(name secure.Name) error {
			if err := secure.Those(read.Set.Name, secure.Client)(name); err != nil {
				return err
			}
			if running.roles.Of(secure.Peer{Name: name}) < api.Reads {
				return fmt.Errorf("%w: %s has no role", secure.ErrName, name)
			}
			return nil
		},
		Seen: running.clients.seen,
	}.Serve(web.Options{Metrics: made.metrics.Handler(), Ready: func() bool { return made.host() != nil }, Page: made.page})
	if err != nil {
		made.history.Close()
	}
	return made, err
}

// options are those of the server of the API.
func (made *watching) options() []grpc.ServerOption {
	return []grpc.ServerOption{
		grpc.ChainUnaryInterceptor(made.metrics.Server.Unary), grpc.ChainStreamInterceptor(made.metrics.Server.Stream),
	}
}

func (made *watching) observers() []host.Observer { return []host.Observer{made.metrics, made.history} }

func (made *watching) host() *host.Host {
	made.mutex.Lock()
	defer made.mutex.Unlock()
	return made.leads
}

// lead notes that this process leads, by a host, or doesn't any more.
func (made *watching) lead(leads *host.Host) {
	made.mutex.Lock()
	defer made.mutex.Unlock()
	made.leads = leads
}

// configure notes that the files were read anew.
func (made *watching) configure(read *settings.Settings) {
	made.history.Configure(read.Set.Config())
	made.mutex.Lock()
	defer made.mutex.Unlock()
	made.read = read
}

// find has the page ask who leads, while this process doesn't.
func (made *watching) find(leader func(context.Context) string) {
	made.mutex.Lock()
	defer made.mutex.Unlock()
	made.finds = leader
}

// leader is who leads, as far as this process knows.
func (made *watching) leader() string {
	made.mutex.Lock()
	leads, finds, address := made.leads, made.finds, made.read.Process.Address
	made.mutex.Unlock()
	switch {
	case leads != nil:
		return "this one, " + address
	case finds == nil:
		return ""
	}
	ctx, cancel := context.WithTimeout(context.Background(), 2*time.Second)
	defer cancel()
	return finds(ctx)
}

func (made *watching) slots() map[string]uint64 {
	made.mutex.Lock()
	defer made.mutex.Unlock()
	slots := make(map[string]uint64, len(made.read.Set.Nodes))
	for _, it := range made.read.Set.Nodes {
		slots[it.ID] = it.Slots
	}
	return slots
}

// mostCommitting is how long a commit may take until systemd's watchdog ends the process: etcd is asked for 60 s at most.
const mostCommitting = 2 * time.Minute

// alive has systemd be told that the process is alive, until the context ends.
func (made *watching) alive(ctx context.Context) {
	daemon.Watchdog(ctx, func() bool {
		leads := made.host()
		return leads == nil || leads.Counts().Committing < mostCommitting
	})
}

// close ends it. No host may tell anything any more.
func (made *watching) close() {
	made.end()
	made.history.Close()
}
