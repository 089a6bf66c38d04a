package etcd

import (
	"context"
	"sync"
	"time"

	"go.etcd.io/etcd/clientv3"
)

const (
	findWithin = 2 * time.Second        // how long etcd may take to say who leads
	findAgain  = 500 * time.Millisecond // how long what it said is told to others too
)

func (config Config) leaderKey() string { return config.Prefix + "/leader" }

// A Finder finds who leads. Its methods may be called side by side.
type Finder struct {
	client *clientv3.Client
	key    string

	mutex sync.Mutex
	said  string
	asked time.Time
}

// Finder makes one, with a client of its own, which doesn't connect yet.
func (config Config) Finder() (*Finder, error) {
	client, err := config.client()
	if err != nil {
		return nil, err
	}
	return &Finder{client: client, key: config.leaderKey()}, nil
}

// Leader is what who leads says of itself (Config.Says), as etcd had it half a second ago or later. It is nothing where nobody leads, or etcd doesn't say;
// that a caller gave up meanwhile says nothing of etcd, and isn't told to others.
func (finder *Finder) Leader(ctx context.Context) string {
	finder.mutex.Lock()
	defer finder.mutex.Unlock()
	if time.Since(finder.asked) < findAgain {
		return finder.said
	}
	asking, cancel := context.WithTimeout(ctx, findWithin)
	defer cancel()
	got, err := finder.client.Get(asking, finder.key+"/", clientv3.WithFirstCreate()...) // who waits has a key of later
	if err != nil && ctx.Err() != nil {
		return ""
	}
	finder.said = ""
	if err == nil && len(got.Kvs) > 0 {
		finder.said = string(got.Kvs[0].Value)
	}
	finder.asked = time.Now()
	return finder.said
}

// Close ends it.
func (finder *Finder) Close() { finder.client.Close() }
