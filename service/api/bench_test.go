package api_test

import (
	"fmt"
	"os"
	"path/filepath"
	"sort"
	"strings"
	"sync"
	"sync/atomic"
	"testing"
	"time"

	"google.golang.org/grpc"

	"tufayon/service/api"
	"tufayon/service/api/wire"
	"tufayon/service/daemon"
	"tufayon/service/etcd"
	"tufayon/service/host/hosttest"
	"tufayon/service/store"
)

// endpointsKey names the environment's variable with the endpoints of etcd, with commas between, over which it is measured too.
const endpointsKey = "TUFAYON_BENCH_ETCD"

// BenchmarkUse has volumes used and stopped by callers at once, from the API to rest, over SQLite on a disk, and over etcd where its endpoints are told, with
// plugins that answer at once: commands a second, and the median time of one; how many changes and bytes a commit had; and what a commit, or a transaction of
// etcd, of that size takes by itself, one after another, just after that.
func BenchmarkUse(b *testing.B) {
	for _, over := range []string{"sqlite", "etcd"} {
		if over == "etcd" && os.Getenv(endpointsKey) == "" {
			continue
		}
		for _, nodes := range []int{1, 8, 64} {
			for _, callers := range []int{1, 8, 64, 256} {
				b.Run(fmt.Sprintf("store=%s/nodes=%d/callers=%d", over, nodes, callers), func(b *testing.B) { benchmarkUse(b, over, nodes, callers) })
			}
		}
	}
}

var prefixes int64 // that were given to stores in etcd

// open opens a new store, and gives what carries out so many transactions of this size by themselves.
func open(b *testing.B, over string) (*measured, func(size, times int)) {
	if over == "sqlite" {
		kept, err := store.OpenSQLite(ctx, filepath.Join(b.TempDir(), "o.db"))
		if err != nil {
			b.Fatal(err)
		}
		it := &measured{Sided: kept.(store.Sided)}
		return it, func(size, times int) { it.repeat(b, size, times) }
	}
	endpoints := strings.Split(os.Getenv(endpointsKey), ",")
	prefix := fmt.Sprintf("/bench/%d/%d", os.Getpid(), atomic.AddInt64(&prefixes, 1))
	kept, err := etcd.Config{Endpoints: endpoints, Prefix: prefix, LeaseSeconds: 60}.Open(ctx)
	if err != nil {
		b.Fatal(err)
	}
	it := &measured{Sided: kept.(store.Sided)}
	return it, func(size, times int) { transactions(b, endpoints, prefix+"/alone", it.perCommit(), size, times) }
}

// A caller uses and stops one volume.
type caller struct {
	client     wire.OrchestratorClient
	name, node string
}

func (it caller) turn(t testing.TB, note func(time.Duration)) bool {
	for _, ask := range []func() (*wire.Volume, error){
		func() (*wire.Volume, error) {
			return it.client.Use(ctx, &wire.UseRequest{Name: it.name, Node: it.node, Target: "/a", Capability: block, Wait: wire.Wait_AT_REST})
		},
		func() (*wire.Volume, error) {
			return it.client.Stop(ctx, &wire.StopRequest{Name: it.name, Node: it.node, Target: "/a", Wait: wire.Wait_AT_REST})
		},
	} {
		began := time.Now()
		volume, err := ask()
		if err != nil || !volume.Reached {
			t.Errorf("%v, %v", volume, err)
			return false
		}
		note(time.Since(began))
	}
	return true
}

// callersOf are callers with a volume each, in turn at these nodes.
func callersOf(t testing.TB, connection *grpc.ClientConn, nodes, callers int) (all []caller) {
	t.Helper()
	for at := 0; at < callers; at++ {
		it := caller{wire.NewOrchestratorClient(connection), fmt.Sprint("v", at), fmt.Sprint("n", 1+at%nodes)}
		request := &wire.CreateRequest{Name: it.name, Capabilities: []*wire.Capability{block}, Wait: wire.Wait_AT_REST}
		if _, err := it.client.Create(ctx, request); err != nil {
			t.Fatal(err)
		}
		all = append(all, it)
	}
	return all
}

// What is measured comes to be, at each node.
func TestCallers(t *testing.T) {
	connection, _, _ := serveLocal(t, hosttest.NewStore(), &hosttest.Carrier{}, 8, api.Loses)
	for _, it := range callersOf(t, connection, 8, 16) {
		it.turn(t, func(time.Duration) {})
	}
}

func benchmarkUse(b *testing.B, over string, nodes, callers int) {
	daemon.CollectSeldom() // as the program does
	kept, alone := open(b, over)
	defer kept.Close()
	connection, made, _ := serveLocal(b, kept, &hosttest.Carrier{}, nodes, api.Loses)
	defer made.Close()
	all := callersOf(b, connection, nodes, callers)
	kept.reset()
	b.ResetTimer()
	took, lasted := atOnce(b, all)
	b.StopTimer()
	if len(took) == 0 {
		return
	}
	b.ReportMetric(float64(len(took))/lasted.Seconds(), "commands/s")
	b.ReportMetric(float64(took[len(took)/2])/1e6, "median-ms")
	b.ReportMetric(float64(took[len(took)*99/100])/1e6, "p99-ms")
	b.ReportMetric(float64(kept.commits)/lasted.Seconds(), "commits/s")
	b.ReportMetric(float64(kept.perCommit()), "changes/commit")
	b.ReportMetric(float64(kept.bytes)/float64(kept.commits), "bytes/commit")
	const times = 100
	began := time.Now()
	alone(int(kept.bytes/kept.commits), times)
	b.ReportMetric(float64(time.Since(began))/1e6/times, "alone-ms")
}

// atOnce has callers share b.N turns: how long each command took, from the shortest on, and all of it.
func atOnce(b *testing.B, all []caller) ([]time.Duration, time.Duration) {
	var mutex sync.Mutex
	var group sync.WaitGroup
	var took []time.Duration
	left, began := int64(b.N), time.Now()
	for _, it := range all {
		group.Add(1)
		go func(it caller) {
			defer group.Done()
			for atomic.AddInt64(&left, -1) >= 0 && it.turn(b, func(one time.Duration) {
				mutex.Lock()
				defer mutex.Unlock()
				took = append(took, one)
			}) {
			}
		}(it)
	}
	group.Wait()
	lasted := time.Since(began)
	sort.Slice(took, func(i, j int) bool { return took[i] < took[j] })
	return took, lasted
}
