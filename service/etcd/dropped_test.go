package etcd

import (
	"context"
	"net"
	"sync/atomic"
	"testing"
	"time"

	"go.etcd.io/etcd/clientv3"
	"go.etcd.io/etcd/clientv3/concurrency"
	"go.etcd.io/etcd/etcdserver/etcdserverpb"
	"google.golang.org/grpc"
	"google.golang.org/grpc/codes"
	"google.golang.org/grpc/status"
)

// dropping is a server that drops transactions, for these reasons one after another, before it carries out any.
type dropping struct {
	etcdserverpb.KVServer
	reasons []string
	asked   int32
}

func (it *dropping) Txn(context.Context, *etcdserverpb.TxnRequest) (*etcdserverpb.TxnResponse, error) {
	at := int(atomic.AddInt32(&it.asked, 1)) - 1
	if at < len(it.reasons) {
		return nil, status.Error(codes.Unknown, it.reasons[at]) // as etcd tells what it has no code for
	}
	return &etcdserverpb.TxnResponse{Header: &etcdserverpb.ResponseHeader{}, Succeeded: true}, nil
}

// at is a client at a server of these services.
func at(t *testing.T, register func(*grpc.Server)) *clientv3.Client {
	t.Helper()
	listener, err := net.Listen("tcp", "127.0.0.1:0")
	if err != nil {
		t.Fatal(err)
	}
	server := grpc.NewServer()
	register(server)
	go server.Serve(listener)
	client, err := Config{Endpoints: []string{"http://" + listener.Addr().String()}}.client()
	if err != nil {
		t.Fatal(err)
	}
	t.Cleanup(func() { client.Close(); server.Stop() })
	return client
}

// What a server drops, while it hands on that it leads, or since it has too much to do, is asked for again. Anything else that it has no code for isn't.
func TestDropped(t *testing.T) {
	for _, it := range []struct {
		reasons []string
		isDone  bool
	}{
		{[]string{"raft proposal dropped", "etcdserver: too many requests", "raft proposal dropped"}, true},
		{[]string{"raft proposal dropped", "another reason"}, false},
	} {
		client := at(t, func(server *grpc.Server) { etcdserverpb.RegisterKVServer(server, &dropping{reasons: it.reasons}) })
		session, err := concurrency.NewSession(client, concurrency.WithLease(1)) // it isn't over for seconds
		if err != nil {
			t.Fatal(err)
		}
		asking := &leading{client: client, session: session, prefix: "/t"}
		done, err := asking.transact(context.Background(), "", []clientv3.Op{clientv3.OpPut("/t/a", "1")})
		if done != it.isDone || (err == nil) != it.isDone {
			t.Errorf("%q: %v, %v", it.reasons, done, err)
		}
	}
}

// flapping is a server whose first lease is over at once, that drops who asks for another one, and has nobody lead.
type flapping struct {
	etcdserverpb.KVServer
	etcdserverpb.LeaseServer
	asked int32
}

func (it *flapping) LeaseGrant(context.Context, *etcdserverpb.LeaseGrantRequest) (*etcdserverpb.LeaseGrantResponse, error) {
	asked := atomic.AddInt32(&it.asked, 1)
	if asked == 2 {
		return nil, status.Error(codes.Unknown, dropped)
	}
	return &etcdserverpb.LeaseGrantResponse{Header: &etcdserverpb.ResponseHeader{}, ID: int64(asked), TTL: 5}, nil
}

func (it *flapping) LeaseRevoke(context.Context, *etcdserverpb.LeaseRevokeRequest) (*etcdserverpb.LeaseRevokeResponse, error) {
	return &etcdserverpb.LeaseRevokeResponse{Header: &etcdserverpb.ResponseHeader{}}, nil
}

func (it *flapping) LeaseKeepAlive(stream etcdserverpb.Lease_LeaseKeepAliveServer) error {
	for {
		asked, err := stream.Recv()
		if err != nil {
			return err
		}
		answer := &etcdserverpb.LeaseKeepAliveResponse{Header: &etcdserverpb.ResponseHeader{}, ID: asked.ID}
		if asked.ID > 1 {
			answer.TTL = 5
		}
		if err := stream.Send(answer); err != nil {
			return err
		}
	}
}

func (it *flapping) Txn(ctx context.Context, _ *etcdserverpb.TxnRequest) (*etcdserverpb.TxnResponse, error) {
	if atomic.LoadInt32(&it.asked) == 1 {
		<-ctx.Done() // until the lease is over
		return nil, ctx.Err()
	}
	return &etcdserverpb.TxnResponse{Header: &etcdserverpb.ResponseHeader{Revision: 7}, Succeeded: true}, nil
}

func (it *flapping) Range(context.Context, *etcdserverpb.RangeRequest) (*etcdserverpb.RangeResponse, error) {
	return &etcdserverpb.RangeResponse{Header: &etcdserverpb.ResponseHeader{}}, nil
}

// Who waits to lead goes on waiting where its lease is over, and etcd, which is there again, gives it none at once.
func TestFlapping(t *testing.T) {
	ctx, cancel := context.WithTimeout(context.Background(), 20*time.Second)
	defer cancel()
	its := &flapping{}
	client := at(t, func(server *grpc.Server) {
		etcdserverpb.RegisterKVServer(server, its)
		etcdserverpb.RegisterLeaseServer(server, its)
	})
	leads, err := Config{Prefix: "/t", LeaseSeconds: 5}.lead(ctx, client)
	if err != nil {
		t.Fatal(err)
	}
	if leads.session.Lease() != 3 {
		t.Errorf("it leads with lease %d", leads.session.Lease())
	}
	leads.end()
}
