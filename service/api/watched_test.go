package api_test

import (
	"bufio"
	"encoding/json"
	"fmt"
	"io"
	"net"
	"net/http"
	"os"
	"os/exec"
	"path/filepath"
	"runtime"
	"strconv"
	"sync"
	"testing"
	"time"

	"go.uber.org/zap"
	"google.golang.org/grpc"

	"tufayon/service/api"
	"tufayon/service/api/wire"
	"tufayon/service/carrying"
	"tufayon/service/carrying/carryingtest"
	"tufayon/service/daemon"
	"tufayon/service/history"
	"tufayon/service/host"
	"tufayon/service/measuring"
	"tufayon/service/metrics"
	"tufayon/service/secure"
	"tufayon/service/store"
	"tufayon/service/web"
)

// BenchmarkWatched has callers use and stop volumes at two services in turn, of which one is watched: its metrics are counted and scraped each second, its
// history and its log go to files, and a page follows. Each is a process of its own, over SQLite on the disk of TMPDIR; callers, plugins that say OK, and who
// scrapes and follows are another one, and all speak gRPC over Unix sockets. In a turn callers work for 0.7 s, of which the last half second is measured: what
// was put off before that is done in it, and what is put off in it is done in the rest behind it, which isn't. Before a turn garbage is collected. It tells how
// much longer a use with its stop takes there, of two turns one after the other: `ratio` by the clock, `processor-ratio` of the processors' time of the
// service. Both are medians, of which `ratio-error` and `processor-error` are the standard errors. There are pairs of turns until both errors are below
// 0.006, at least 24 and at most 64, 1.7 seconds each, or as many as the environment's TUFAYON_BENCH_PAIRS says.
func BenchmarkWatched(b *testing.B) {
	for _, callers := range []int{1, 16, 64} {
		b.Run(fmt.Sprint("callers=", callers), func(b *testing.B) { benchmarkWatched(b, callers) })
	}
}

const (
	// What the environment tells this program where it is a service of BenchmarkWatched: the folder with the plugins' sockets, and whether it is watched.
	servedIn  = "TUFAYON_BENCH_SERVED"
	isWatched = "TUFAYON_BENCH_WATCHED"

	// The environment's folder for profiles of these services, if it names one: unwatched-1, watched-1, ..
	profilesKey = "TUFAYON_BENCH_PROFILES"

	// The environment's number of pairs of turns.
	pairsKey = "TUFAYON_BENCH_PAIRS"

	fewest    = 24 // pairs of turns
	most      = 64
	exact     = 0.006
	turnLasts = 700 * time.Millisecond
	isCounted = 500 * time.Millisecond // of a turn, its end
	turnRests = 150 * time.Millisecond
)

func benchmarkWatched(b *testing.B, callers int) {
	folder := b.TempDir()
	for _, it := range []string{"c", "n1"} {
		(&carryingtest.Plugin{Node: "n1", Forgets: true}).Serve(b, "unix://"+filepath.Join(folder, it), nil)
	}
	services := [2]*served{startServed(b, folder, "unwatched", callers), startServed(b, folder, "watched", callers)}
	services[1].follow(b)
	var ratios, spent, unwatched, took []float64
	asked, _ := strconv.Atoi(os.Getenv(pairsKey))
	isEnough := func(pairs int) bool {
		if asked > 0 {
			return pairs >= asked
		}
		return pairs >= most || pairs >= fewest && measuring.ErrorOf(ratios) < exact && measuring.ErrorOf(spent) < exact
	}
	for pair := 0; !isEnough(pair); pair++ {
		var turns [2]turn
		for _, which := range [][]int{{0, 1}, {1, 0}}[pair%2] {
			if which == 1 && pair%2 == 0 {
				services[1].scrape()
			}
			turns[which] = services[which].turn(b, callers)
		}
		ratios = append(ratios, turns[1].seconds/turns[0].seconds)
		spent = append(spent, turns[1].spent/turns[0].spent)
		unwatched, took = append(unwatched, turns[0].seconds), append(took, turns[0].spent)
		b.Logf("%.2f and %.2f ms, %.0f and %.0f us", 1e3*turns[0].seconds, 1e3*turns[1].seconds, 1e6*turns[0].spent, 1e6*turns[1].spent)
	}
	b.ReportMetric(measuring.Median(ratios), "ratio")
	b.ReportMetric(measuring.ErrorOf(ratios), "ratio-error")
	b.ReportMetric(measuring.Median(spent), "processor-ratio")
	b.ReportMetric(measuring.ErrorOf(spent), "processor-error")
	b.ReportMetric(1e3*measuring.Median(unwatched), "ms")
	b.ReportMetric(1e6*measuring.Median(took), "processor-us")
	b.ReportMetric(float64(len(ratios)), "pairs")
	b.ReportMetric(0, "ns/op") // which would be that of pairs of turns
}

// A served is a service that is a process of its own, with a volume for each caller.
type served struct {
	running *exec.Cmd
	asks    io.WriteCloser
	answers *json.Decoder
	watched string // where it is watched
	client  wire.OrchestratorClient
}

func startServed(b *testing.B, folder, name string, callers int) *served {
	running := exec.Command(os.Args[0], "-test.run", "^TestServed$")
	if folder := os.Getenv(profilesKey); folder != "" {
		running.Args = append(running.Args, "-test.cpuprofile", filepath.Join(folder, fmt.Sprint(name, "-", callers)))
	}
	running.Env = append(os.Environ(), servedIn+"="+folder)
	if name == "watched" {
		running.Env = append(running.Env, isWatched+"=yes")
	}
	running.Stderr = os.Stderr
	asks, err := running.StdinPipe()
	if err != nil {
		b.Fatal(err)
	}
	from, to, err := os.Pipe()
	if err != nil {
		b.Fatal(err)
	}
	running.ExtraFiles = []*os.File{to}
	if err := running.Start(); err != nil {
		b.Fatal(err)
	}
	to.Close()
	it := &served{running: running, asks: asks, answers: json.NewDecoder(from)}
	b.Cleanup(func() { asks.Close(); running.Wait(); from.Close() })
	var at [2]string
	if err := it.answers.Decode(&at); err != nil {
		b.Fatal(err)
	}
	it.watched = at[1]
	it.client = wire.NewOrchestratorClient(dial(b, "unix://"+at[0], secure.Local{May: func(uid uint32) bool { return int(uid) == os.Geteuid() }}))
	for caller := 0; caller < callers; caller++ {
		request := &wire.CreateRequest{Name: fmt.Sprint("v", caller), Capabilities: []*wire.Capability{block}, Wait: wire.Wait_AT_REST}
		if _, err := it.client.Create(ctx, request); err != nil {
			b.Fatal(err)
		}
	}
	return it
}

// scrape scrapes it while it has its turn, in what is counted.
func (it *served) scrape() {
	time.AfterFunc(turnLasts-isCounted/2, func() {
		if answer, err := http.Get("http://" + it.watched + "/metrics"); err == nil {
			io.Copy(io.Discard, answer.Body)
			answer.Body.Close()
		}
	})
}

// follow follows as a page, until it ends.
func (it *served) follow(b *testing.B) {
	answer, err := http.Get("http://" + it.watched + "/events")
	if err != nil {
		b.Fatal(err)
	}
	go func() {
		io.Copy(io.Discard, answer.Body)
		answer.Body.Close()
	}()
}

// A turn is what came of one: how long a use with its stop took in the mean, of those that ended in what is counted, in seconds by the clock and of the
// service's processors.
type turn struct{ seconds, spent float64 }

// turn has callers use and stop a volume each, again and again.
func (it *served) turn(b *testing.B, callers int) turn {
	it.collect(b)
	var mutex sync.Mutex
	var group sync.WaitGroup
	var took []time.Duration
	end := time.Now().Add(turnLasts)
	counts := end.Add(-isCounted)
	for caller := 0; caller < callers; caller++ {
		group.Add(1)
		go func(name string) {
			defer group.Done()
			var its []time.Duration
			for began := time.Now(); began.Before(end); {
				_, err := it.client.Use(ctx, &wire.UseRequest{Name: name, Node: "n1", Target: "/a", Capability: block, Wait: wire.Wait_AT_REST})
				if err == nil {
					_, err = it.client.Stop(ctx, &wire.StopRequest{Name: name, Node: "n1", Target: "/a", Wait: wire.Wait_AT_REST})
				}
				if err != nil {
					b.Error(err)
					return
				}
				now := time.Now()
				if now.After(counts) && now.Before(end) {
					its = append(its, now.Sub(began))
				}
				began = now
			}
			mutex.Lock()
			defer mutex.Unlock()
			took = append(took, its...)
		}(fmt.Sprint("v", caller))
	}
	time.Sleep(time.Until(counts))
	spent := measuring.Processors(b, it.running.Process.Pid)
	time.Sleep(time.Until(end))
	spent = measuring.Processors(b, it.running.Process.Pid) - spent
	group.Wait()
	time.Sleep(turnRests)
	all := time.Duration(0)
	for _, it := range took {
		all += it
	}
	return turn{all.Seconds() / float64(len(took)), spent.Seconds() / float64(len(took))}
}

// collect has it collect its garbage.
func (it *served) collect(b *testing.B) {
	runtime.GC() // here too
	var done bool
	if _, err := it.asks.Write([]byte("\n")); err != nil {
		b.Fatal(err)
	}
	if err := it.answers.Decode(&done); err != nil {
		b.Fatal(err)
	}
}

// TestServed is no test: it is a service of BenchmarkWatched, until its standard input ends. For each line that comes it collects its garbage.
func TestServed(t *testing.T) {
	folder := os.Getenv(servedIn)
	if folder == "" {
		t.Skip("only for BenchmarkWatched")
	}
	daemon.CollectSeldom() // as the program does
	kept, err := store.OpenSQLite(ctx, filepath.Join(t.TempDir(), "o.db"))
	if err != nil {
		t.Fatal(err)
	}
	t.Cleanup(func() { kept.Close() })
	listener, err := secure.Listen(filepath.Join(t.TempDir(), "socket"))
	if err != nil {
		t.Fatal(err)
	}
	own := uint32(os.Geteuid())
	roles := &api.Roles{}
	roles.Set(nil, map[uint32]api.Role{own: api.Loses})
	known := secure.Local{May: roles.MayConnect}
	peers := carrying.Peers{May: func(uid uint32) bool { return uid == own }, Refused: func(string) secure.Refused { return nil }}
	limits := carrying.Limits{AtController: 64, AtNode: 32, Answer: time.Minute, Reach: time.Minute}
	carrier := carrying.New(limits, "/staging", peers.Dial)
	t.Cleanup(carrier.Close)
	sockets := map[string]string{carrying.Controller: "unix://" + filepath.Join(folder, "c"), carrying.NodeName("n1"): "unix://" + filepath.Join(folder, "n1")}
	if err := carrier.Set(sockets); err != nil {
		t.Fatal(err)
	}
	at := [2]string{listener.Addr().String()}
	if os.Getenv(isWatched) != "" {
		at[1] = watched(t, kept, carrier, listener, known, roles)
	} else {
		serve(t, kept, carrier, 1, listener, known, roles)
	}
	to := json.NewEncoder(os.NewFile(3, "answers"))
	to.Encode(at)
	for asked := bufio.NewScanner(os.Stdin); asked.Scan(); {
		runtime.GC()
		to.Encode(true)
	}
}

// watched serves one with all that tells of it, and says where.
func watched(b testing.TB, kept store.Store, carrier *carrying.Carrier, listener net.Listener, known secure.Local, roles *api.Roles) (address string) {
	told := metrics.NewOrchestrator()
	keeps, err := history.Open(filepath.Join(b.TempDir(), "history"), history.Usual, zap.NewNop())
	if err != nil {
		b.Fatal(err)
	}
	file, err := os.Create(filepath.Join(b.TempDir(), "log"))
	if err != nil {
		b.Fatal(err)
	}
	log := daemon.LoggerTo(file, zap.InfoLevel)
	b.Cleanup(func() { keeps.Close(); log.Sync(); file.Close() })
	made := serveBy(b, host.Options{Store: kept, Carrier: carrier, Log: log, Observers: []host.Observer{told, keeps}}, 1, listener, known, roles,
		grpc.ChainUnaryInterceptor(told.Server.Unary), grpc.ChainStreamInterceptor(told.Server.Stream))
	leads := func() *host.Host { return made }
	slots := func() map[string]uint64 { return nil }
	page := web.NewPage(web.Source{Set: "s1", Host: leads, Leader: func() string { return "" }, Plugins: carrier.States, Slots: slots, History: keeps})
	told.Watch(metrics.Source{
		Set: "s1", Host: leads, Plugins: carrier.States, Slots: slots, Ends: func() map[string]time.Time { return nil }, Streams: page.Streams, History: keeps.Count,
	})
	server := web.New(web.Options{Metrics: told.Handler(), Ready: func() bool { return true }, Page: page})
	at, err := net.Listen("tcp", "127.0.0.1:0")
	if err != nil {
		b.Fatal(err)
	}
	go server.Serve(at)
	b.Cleanup(func() { server.Close() })
	return at.Addr().String()
}
