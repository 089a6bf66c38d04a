// Package etcd keeps a plugin's record in etcd, where the one process commits that leads: docs/DRIVER.md, "A store in etcd".
package etcd

import (
	"context"
	"errors"
	"fmt"
	"math"
	"os"
	"time"

	"go.etcd.io/etcd/clientv3"
	"go.etcd.io/etcd/clientv3/concurrency"
	"go.uber.org/zap"

	"tufayon/service/store"
)

const (
	dialWithin = 5 * time.Second
	within     = 10 * time.Second // what a lease may take
	pingAfter  = 10 * time.Second // of silence: a server that is cut off is left then, and another one asked
	pingWithin = 3 * time.Second
	again      = 500 * time.Millisecond // until what failed is tried again
	giveBack   = 3 * time.Second        // what it may take, once it is to end, to give back the lease, or a place among those who wait to lead
)

// readWithin is what reading may take for who has the store: long enough that another server is asked where one doesn't answer.
const readWithin = pingAfter + pingWithin + 5*time.Second

// Config says where a store is in etcd, and how this process leads.
type Config struct {
	Endpoints            []string
	Prefix               string
	CA, Certificate, Key string // files of TLS
	LeaseSeconds         int
	Texts                bool   // a keeper's: texts beside the record, without which it is refused, or with which
	Says                 string // what this process says of itself while it waits or leads: where it is. Nothing is the machine and the process
}

// leading is a store that this process leads: a commit is a transaction under the condition that it still does.
type leading struct {
	client  *clientv3.Client
	session *concurrency.Session
	end     context.CancelFunc // of the session's life
	leads   clientv3.Cmp       // holds as long as this process leads
	never   clientv3.Cmp       // with leads: holds never
	prefix  string
	count   uint64 // of transactions that changed something
	last    string // what the last one left under the key of their count
}

// Open waits until this process leads, and gives a store, which keeps texts (store.Keeper) where that is asked for.
// It tries that etcd takes the largest transaction, and finishes a commit that an earlier process left half way.
func (config Config) Open(ctx context.Context) (store.Store, error) {
	client, err := config.client()
	if err != nil {
		return nil, err
	}
	led := make(chan struct{})
	go closeLate(ctx, client, led)
	opened, err := config.lead(ctx, client)
	close(led)
	if err == nil {
		if err = opened.begin(ctx); err == nil {
			err = opened.judge(ctx, config.Texts)
		}
		if err == nil {
			return opened, nil
		}
		opened.Close()
		return nil, err
	}
	client.Close()
	return nil, fmt.Errorf("%w: %v", store.ErrNotOpened, err)
}

// client makes a client of etcd, which connects by itself.
func (config Config) client() (*clientv3.Client, error) {
	secure, err := config.secure()
	if err != nil {
		return nil, fmt.Errorf("%w: %v", store.ErrNotOpened, err)
	}
	client, err := clientv3.New(clientv3.Config{
		Endpoints: config.Endpoints, TLS: secure, DialTimeout: dialWithin, MaxCallSendMsgSize: math.MaxInt32, LogConfig: silent(),
		DialKeepAliveTime: pingAfter, DialKeepAliveTimeout: pingWithin, PermitWithoutStream: true,
	})
	if err != nil {
		return nil, fmt.Errorf("%w: %v", store.ErrNotOpened, err)
	}
	return client, nil
}

// closeLate closes a client some time after the context has ended, unless leading is decided by then. Who waits to lead gives its place back, for which only
// the client's end is an end: else a process would wait for an etcd that is gone until that is back. The place goes with the lease then.
func closeLate(ctx context.Context, client *clientv3.Client, led <-chan struct{}) {
	select {
	case <-led:
		return
	case <-ctx.Done():
	}
	select {
	case <-led:
	case <-time.After(giveBack):
		client.Close()
	}
}

// errWaited says that what a process waited with is over: it begins to wait again.
var errWaited = errors.New("the lease ended while this process waited to lead")

// lead waits until this process leads. It fails where etcd can't be reached at first, and where the context ends.
func (config Config) lead(ctx context.Context, client *clientv3.Client) (*leading, error) {
	for hasWaited := false; ; hasWaited = true {
		opened, err := config.campaign(ctx, client)
		if err == nil || ctx.Err() != nil || !errors.Is(err, errWaited) && !(hasWaited && mayCome(err)) {
			return opened, err
		}
		for ; err != nil; err = config.reach(ctx, client) {
			select {
			case <-ctx.Done():
				return nil, ctx.Err()
			case <-time.After(again):
			}
		}
	}
}

// reach asks etcd for something, to see whether it is there.
func (config Config) reach(ctx context.Context, client *clientv3.Client) error {
	ctx, cancel := context.WithTimeout(ctx, within)
	defer cancel()
	_, err := client.Get(ctx, config.leaderKey(), clientv3.WithCountOnly())
	return err
}

// campaign waits with one lease.
func (config Config) campaign(ctx context.Context, client *clientv3.Client) (*leading, error) {
	// The lease outlives ctx once this process leads: who ends the process gives it back then.
	life, end := context.WithCancel(context.Background())
	session, err := config.lease(ctx, life, client)
	if err != nil {
		end()
		return nil, err
	}
	waiting, stop := context.WithCancel(clientv3.WithRequireLeader(ctx)) // a server that is cut off from the others says so
	go func() {
		select {
		case <-session.Done():
		case <-waiting.Done():
		}
		stop()
	}()
	defer stop()
	election := concurrency.NewElection(session, config.leaderKey())
	if err := election.Campaign(waiting, config.says()); err != nil {
		session.Close()
		end()
		return nil, fmt.Errorf("%w: %v", errWaited, err)
	}
	return &leading{
		client:  client,
		session: session,
		end:     end,
		leads:   clientv3.Compare(clientv3.CreateRevision(election.Key()), "=", election.Rev()),
		never:   clientv3.Compare(clientv3.CreateRevision(election.Key()), "<", election.Rev()),
		prefix:  config.Prefix,
	}, nil
}

func (config Config) says() string {
	if config.Says != "" {
		return config.Says
	}
	host, _ := os.Hostname()
	return fmt.Sprintf("%s %d", host, os.Getpid())
}

// lease begins a session with a lease, if etcd can be reached.
func (config Config) lease(ctx, life context.Context, client *clientv3.Client) (*concurrency.Session, error) {
	ctx, cancel := context.WithTimeout(ctx, within)
	defer cancel()
	lease, err := client.Grant(ctx, int64(config.LeaseSeconds))
	if err != nil {
		return nil, err
	}
	return concurrency.NewSession(client, concurrency.WithLease(lease.ID), concurrency.WithTTL(config.LeaseSeconds), concurrency.WithContext(life))
}

// silent has etcd's client write nothing: what fails is told by errors.
func silent() *zap.Config {
	return &zap.Config{Level: zap.NewAtomicLevelAt(zap.FatalLevel), Encoding: "json", EncoderConfig: zap.NewProductionEncoderConfig()}
}

// Lost is closed once the lease is over.
func (leading *leading) Lost() <-chan struct{} { return leading.session.Done() }

// Close gives the lease back, so that another may lead at once. Where etcd doesn't take it soon, the lease ends by itself, and isn't waited for.
func (leading *leading) Close() error {
	late := time.AfterFunc(giveBack, leading.end)
	defer late.Stop()
	leading.session.Close()
	leading.end()
	return leading.client.Close()
}
