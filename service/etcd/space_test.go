package etcd

import (
	"bytes"
	"context"
	"errors"
	"fmt"
	"strings"
	"sync"
	"testing"

	"go.etcd.io/etcd/clientv3"
	"go.etcd.io/etcd/clientv3/concurrency"
	"go.etcd.io/etcd/etcdserver/api/v3rpc/rpctypes"
	"go.etcd.io/etcd/etcdserver/etcdserverpb"
	"go.etcd.io/etcd/mvcc/mvccpb"
	"google.golang.org/grpc"
	"google.golang.org/grpc/codes"
	"google.golang.org/grpc/status"

	"tufayon/service/etcd/etcdtest"
	"tufayon/service/store"
)

// A full server does transactions by these words, one after another, and any later one as it should: "-" refuses it since there is no space, "+" does it, and
// answers so nevertheless, as etcd does what it took before it knew; "?" is gone, and "!" is without space, while another process put its count.
type full struct {
	etcdserverpb.KVServer
	mutex sync.Mutex
	words string
	keys  map[string][]byte
}

func (it *full) Txn(_ context.Context, asked *etcdserverpb.TxnRequest) (*etcdserverpb.TxnResponse, error) {
	it.mutex.Lock()
	defer it.mutex.Unlock()
	word := byte(' ')
	if it.words != "" {
		word, it.words = it.words[0], it.words[1:]
	}
	switch word {
	case '?':
		return nil, status.Error(codes.Unavailable, "it is gone")
	case '!':
		it.keys["/t/commits"] = []byte("7 7")
	case '+', ' ':
		for _, each := range asked.Success {
			if put := each.GetRequestPut(); put != nil {
				it.keys[string(put.Key)] = put.Value
			}
		}
	}
	if word != ' ' {
		return nil, rpctypes.ErrGRPCNoSpace
	}
	return &etcdserverpb.TxnResponse{Header: &etcdserverpb.ResponseHeader{}, Succeeded: true}, nil
}

func (it *full) Range(_ context.Context, asked *etcdserverpb.RangeRequest) (*etcdserverpb.RangeResponse, error) {
	it.mutex.Lock()
	defer it.mutex.Unlock()
	found := &etcdserverpb.RangeResponse{Header: &etcdserverpb.ResponseHeader{}}
	if value, has := it.keys[string(asked.Key)]; has {
		found.Kvs = append(found.Kvs, &mvccpb.KeyValue{Key: asked.Key, Value: value})
	}
	return found, nil
}

// A confirmation for which there is no space looks at nothing of the commit that is made beside it.
func TestNoSpaceBeside(t *testing.T) {
	leading, changed := &leading{last: "1 a"}, make(chan struct{})
	go func() {
		defer close(changed)
		leading.last = "2 a"
	}()
	if _, err := leading.withoutSpace(context.Background(), "", false, rpctypes.ErrNoSpace); !errors.Is(err, store.ErrNoSpace) {
		t.Error(err)
	}
	<-changed
}

// What etcd has no space for isn't made, and is told so: but where it is made all the same, or may be.
func TestNoSpace(t *testing.T) {
	small, large := []store.Change{{Key: 1, Value: []byte("a")}}, make([]store.Change, 200) // in two pieces
	for at := range large {
		large[at] = store.Change{Key: uint64(at), Value: []byte("a")}
	}
	for _, it := range []struct {
		words   string
		changes []store.Change
		want    error
		count   uint64 // of transactions that changed something
	}{
		{"-", small, store.ErrNoSpace, 0},
		{"-", nil, store.ErrNoSpace, 0},
		{"+", small, nil, 1},
		{"?-", small, store.ErrUnknown, 0}, // what was asked for first may still come
		{"?+", small, nil, 1},
		{"!", small, store.ErrUnknown, 0},
		{"  -", large, store.ErrNoSpace, 2},     // what is put before it is made counts for nothing
		{"   -", large, store.ErrNoSpace, 3},    // what makes it
		{"    -", large, store.ErrUnknown, 4},   // it is made, and isn't carried over
		{"      -", large, store.ErrUnknown, 6}, // it is carried over, and what was put before is left
		{"+++++++", large, nil, 7},
	} {
		server := &full{words: it.words, keys: map[string][]byte{}}
		client := at(t, func(its *grpc.Server) { etcdserverpb.RegisterKVServer(its, server) })
		session, err := concurrency.NewSession(client, concurrency.WithLease(1)) // it isn't over for seconds
		if err != nil {
			t.Fatal(err)
		}
		kept := &leading{client: client, session: session, prefix: "/t"}
		err = kept.Commit(context.Background(), false, it.changes)
		if !errors.Is(err, it.want) || kept.count != it.count {
			t.Errorf("%q: %d transactions, %v", it.words, kept.count, err)
		}
		if errors.Is(err, store.ErrNoSpace) && (errors.Is(err, store.ErrUnknown) || server.keys["/t/parts/0000000000000001"] != nil) {
			t.Errorf("%q: it is made: %v", it.words, err)
		}
		if err := kept.Commit(context.Background(), false, small); errors.Is(it.want, store.ErrNoSpace) && err != nil {
			t.Errorf("%q: with space again: %v", it.words, err)
		}
	}
}

// An etcd that is full refuses a commit, small or large, of which nothing is made, and a process that would lead. With space again all goes on.
func TestFull(t *testing.T) {
	ctx := context.Background()
	config := Config{Endpoints: []string{etcdtest.Start(t, "--quota-backend-bytes", fmt.Sprint(16<<20))}, Prefix: "/t", LeaseSeconds: 60}
	kept := open(t, config)
	defer func() { kept.Close() }()
	put := func(count int, value string) (changes []store.Change) {
		for key := 0; key < count; key++ {
			changes = append(changes, store.Change{Key: uint64(key), Value: []byte(value)})
		}
		return changes
	}
	side := func(value string) []store.Side { return []store.Side{{Name: "s", Value: []byte(value)}} }
	if err := kept.CommitWith(ctx, side("before"), put(2, "before")); err != nil {
		t.Fatal(err)
	}
	for filled := error(nil); !errors.Is(filled, rpctypes.ErrNoSpace); {
		if _, filled = kept.client.Put(ctx, "/filled", strings.Repeat(" ", 1<<20)); filled != nil && !errors.Is(filled, rpctypes.ErrNoSpace) {
			t.Fatal(filled)
		}
	}
	wantsBefore := func() {
		t.Helper()
		kept.wants(t, map[uint64]string{0: "before", 1: "before"})
		if sides, err := kept.Sides(ctx); err != nil || !bytes.Equal(sides["s"], []byte("before")) {
			t.Errorf("beside it: %q, %v", sides, err)
		}
	}
	for _, count := range []int{0, 2, 500} {
		if err := kept.CommitWith(ctx, side("after"), put(count, "after")); !errors.Is(err, store.ErrNoSpace) || errors.Is(err, store.ErrUnknown) {
			t.Errorf("%d changes: %v", count, err)
		}
		wantsBefore()
	}
	if err := kept.Commit(ctx, false, nil); err != nil {
		t.Errorf("it isn't confirmed that this process leads: %v", err)
	}
	if _, err := config.Open(ctx); !errors.Is(err, store.ErrNotOpened) {
		t.Errorf("opened: %v", err)
	}
	got, err := kept.client.Delete(ctx, "/filled")
	if err == nil {
		_, err = kept.client.Compact(ctx, got.Header.Revision, clientv3.WithCompactPhysical())
	}
	if err == nil {
		_, err = kept.client.Defragment(ctx, config.Endpoints[0])
	}
	if err == nil {
		_, err = kept.client.AlarmDisarm(ctx, &clientv3.AlarmMember{})
	}
	if err != nil {
		t.Fatal(err)
	}
	wantsBefore()
	if err := kept.CommitWith(ctx, side("after"), put(2, "after")); err != nil {
		t.Errorf("with space again: %v", err)
	}
	kept.wants(t, map[uint64]string{0: "after", 1: "after"})
}
