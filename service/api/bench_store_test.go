package api_test

import (
	"context"
	"fmt"
	"testing"

	"go.etcd.io/etcd/clientv3"

	"tufayon/service/store"
)

// measured is a store that counts what is committed. One goroutine commits.
type measured struct {
	store.Sided
	commits, changes, bytes int64 // changes are sides too
	sides                   int64
}

func (it *measured) Commit(ctx context.Context, anew bool, changes []store.Change) error {
	it.count(nil, changes)
	return it.Sided.Commit(ctx, anew, changes)
}

func (it *measured) CommitWith(ctx context.Context, sides []store.Side, changes []store.Change) error {
	it.count(sides, changes)
	return it.Sided.CommitWith(ctx, sides, changes)
}

func (it *measured) count(sides []store.Side, changes []store.Change) {
	if len(sides)+len(changes) == 0 {
		return
	}
	it.commits++
	it.changes += int64(len(changes) + len(sides))
	it.sides += int64(len(sides))
	for _, change := range changes {
		it.bytes += int64(8 + len(change.Value))
	}
	for _, side := range sides {
		it.bytes += int64(len(side.Name) + len(side.Value))
	}
}

func (it *measured) reset() { it.commits, it.changes, it.bytes, it.sides = 0, 0, 0, 0 }

// perCommit is how many changes a commit had.
func (it *measured) perCommit() int { return perCommit(it.changes, it.commits) }

func perCommit(count, commits int64) int {
	if commits == 0 {
		return 1
	}
	return int((count + commits/2) / commits)
}

// repeat commits changes as many and as large as a commit had, under keys that no record has, and as many of them as sides.
func (it *measured) repeat(b *testing.B, size, times int) {
	count, besides := it.perCommit(), perCommit(it.sides, it.commits)
	for at := 0; at < times; at++ {
		var changes []store.Change
		var sides []store.Side
		for row := 0; row < count; row++ {
			if value := make([]byte, size/count+1); row < besides {
				sides = append(sides, store.Side{Name: fmt.Sprint("alone/", row), Value: value})
			} else {
				changes = append(changes, store.Change{Key: 1<<62 + uint64(row), Value: value})
			}
		}
		if err := it.Sided.CommitWith(ctx, sides, changes); err != nil {
			b.Fatal(err)
		}
	}
}

// transactions carries out transactions of so many puts and bytes, under one condition, as etcd's own client does, one after another.
func transactions(b *testing.B, endpoints []string, prefix string, count, size, times int) {
	client, err := clientv3.New(clientv3.Config{Endpoints: endpoints})
	if err != nil {
		b.Fatal(err)
	}
	defer client.Close()
	value := string(make([]byte, size/count+1))
	for at := 0; at < times; at++ {
		var puts []clientv3.Op
		for row := 0; row < count; row++ {
			puts = append(puts, clientv3.OpPut(fmt.Sprintf("%s/%d", prefix, row), value))
		}
		absent := clientv3.Compare(clientv3.CreateRevision(prefix+"/nobody"), "=", 0)
		if came, err := client.Txn(ctx).If(absent).Then(puts...).Commit(); err != nil || !came.Succeeded {
			b.Fatal(came, err)
		}
	}
}
