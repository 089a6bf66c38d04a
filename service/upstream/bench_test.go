package upstream_test

import (
	"bufio"
	"context"
	"fmt"
	"net"
	"os"
	"os/exec"
	"path/filepath"
	"sort"
	"strconv"
	"sync"
	"testing"
	"time"

	"github.com/golang/protobuf/proto"
	"golang.org/x/sys/unix"
	"google.golang.org/grpc"

	"tufayon/service/measuring"
	"tufayon/service/passing"
	"tufayon/service/upstream/upstreamtest"
)

// works are what an upstream's deed takes.
var works = map[string]func(t testing.TB) func(){
	"nothing": func(testing.TB) func() { return nil },
	"sync": func(t testing.TB) func() {
		file, err := os.Create(filepath.Join(t.TempDir(), "state"))
		if err != nil {
			t.Fatal(err)
		}
		t.Cleanup(func() { file.Close() })
		return func() {
			if _, err := file.WriteAt(make([]byte, 4096), 0); err != nil {
				t.Error(err)
			}
			file.Sync()
		}
	},
	"1ms": sleeps(time.Millisecond), "2ms": sleeps(2 * time.Millisecond), "5ms": sleeps(5 * time.Millisecond), "10ms": sleeps(10 * time.Millisecond),
}

func sleeps(long time.Duration) func(testing.TB) func() {
	return func(testing.TB) func() { return func() { time.Sleep(long) } }
}

// BenchmarkAttach has volumes attached and detached by clients at once, in turn at an upstream alone, through a driver before it, whose store is on the
// disk of TMPDIR, with a log that has grown to its size, and through the same driver by a name that it doesn't know, so that the call passes unread. Clients,
// driver and upstream are three processes. A turn is of 0.4 s, of which the last 0.3 s are measured. Of each it tells the median time of a call, calls a
// second, and how long each process has the processors for a call; `times` is the median, over rounds of three turns, of how many times the time through the
// driver is that at the upstream alone, with its standard error, and `unread-times` that of a call that passes unread. There are 12 rounds, or as many as the
// environment's TUFAYON_BENCH_ROUNDS says.
func BenchmarkAttach(b *testing.B) {
	for _, work := range []string{"nothing", "sync", "1ms", "2ms", "5ms", "10ms"} {
		for _, clients := range []int{1, 16, 64} {
			b.Run(fmt.Sprintf("work=%s/clients=%d", work, clients), func(b *testing.B) { benchmarkAttach(b, work, clients) })
		}
	}
}

const (
	rounds    = 12
	turnLasts = 400 * time.Millisecond
	isCounted = 300 * time.Millisecond // of a turn, its end

	// grown is after how many commits SQLite's log is as large as it gets, 1,000 pages: from then on it is written over, which a disk syncs in half the time.
	grown = 600

	workIs = "TUFAYON_TEST_WORK" // what the environment tells this program where it is an upstream that a benchmark runs: what a deed takes

	// The environment's folder for the driver's profile, if it names one.
	profilesKey = "TUFAYON_BENCH_PROFILES"

	roundsKey = "TUFAYON_BENCH_ROUNDS" // the environment's number of rounds
)

// TestUpstream is no test: it is the upstream of BenchmarkAttach, until its standard input ends.
func TestUpstream(t *testing.T) {
	work := works[os.Getenv(workIs)]
	if work == nil {
		t.Skip("only for BenchmarkAttach")
	}
	behind := upstreamtest.Start(t, filepath.Join(os.Getenv(driverIn), "upstream.sock"))
	behind.Forgets, behind.Work, behind.ID = true, work(t), func(name string) string { return name }
	bufio.NewReader(os.Stdin).ReadByte()
}

// startUpstream starts one as a process of its own, in a folder.
func startUpstream(b *testing.B, folder, work string) *exec.Cmd {
	running := exec.Command(os.Args[0], "-test.run", "^TestUpstream$")
	running.Env = append(os.Environ(), workIs+"="+work, driverIn+"="+folder)
	running.Stderr = os.Stderr
	input, err := running.StdinPipe()
	if err == nil {
		err = running.Start()
	}
	if err != nil {
		b.Fatal(err)
	}
	b.Cleanup(func() { input.Close(); running.Wait() })
	for end := time.Now().Add(within); ; time.Sleep(time.Millisecond) {
		connection, err := net.Dial("unix", filepath.Join(folder, "upstream.sock"))
		if err == nil {
			connection.Close()
			return running
		}
		if time.Now().After(end) {
			b.Fatal(err)
		}
	}
}

// A turn is what came of one: how long calls took, how many there were in a second, and how long clients, upstream and driver had the processors for one.
type turn struct {
	took    []float64 // in milliseconds, in order
	persec  float64
	microes [3]float64
}

func call(b *testing.B, client *grpc.ClientConn, method string, message proto.Message) {
	request, err := proto.Marshal(message)
	if err == nil {
		_, err = passing.Call(context.Background(), client, method, request)
	}
	if err != nil {
		b.Error(err)
	}
}

// A way is how calls come to the upstream: at whose socket, and what stands before their names.
type way struct {
	name   string
	client *grpc.ClientConn
	before string
}

// turn has clients attach and detach a volume each, again and again.
func (way way) turn(b *testing.B, clients int, processes [3]int) (came turn) {
	var mutex sync.Mutex
	var all sync.WaitGroup
	end := time.Now().Add(turnLasts)
	counts := end.Add(-isCounted)
	for at := 0; at < clients; at++ {
		all.Add(1)
		go func(id string) {
			defer all.Done()
			var took []float64
			for isAttach, began := true, time.Now(); began.Before(end) || !isAttach; isAttach = !isAttach {
				if isAttach {
					call(b, way.client, way.before+attachCall, attaches(id, "n1", writer))
				} else {
					call(b, way.client, way.before+detachCall, detaches(id, "n1"))
				}
				now := time.Now()
				if now.After(counts) && now.Before(end) {
					took = append(took, float64(now.Sub(began))/1e6)
				}
				began = now
			}
			mutex.Lock()
			defer mutex.Unlock()
			came.took = append(came.took, took...)
		}(fmt.Sprint("v", at))
	}
	time.Sleep(time.Until(counts))
	var before, behind [3]time.Duration
	for at, it := range processes {
		before[at] = measuring.Processors(b, it)
	}
	time.Sleep(time.Until(end))
	for at, it := range processes {
		behind[at] = measuring.Processors(b, it)
	}
	all.Wait()
	sort.Float64s(came.took)
	came.persec = float64(len(came.took)) / isCounted.Seconds()
	for at := range processes {
		came.microes[at] = float64(behind[at]-before[at]) / 1e3 / float64(len(came.took))
	}
	return came
}

func benchmarkAttach(b *testing.B, work string, clients int) {
	box := &box{TB: b, folder: b.TempDir(), config: noNodes, end: func() {}}
	behind := startUpstream(b, box.folder, work)
	driver := box.run()
	b.Cleanup(func() { driver.Process.Signal(unix.SIGTERM); driver.Wait() })
	through := upstreamtest.Dial(b, filepath.Join(box.folder, "d", "csi.sock"))
	alone := upstreamtest.Dial(b, filepath.Join(box.folder, "upstream.sock"))
	ways := [3]way{{"alone", alone, ""}, {"through", through, ""}, {"unread", through, upstreamtest.Unread}}
	var made sync.WaitGroup
	for volume := 0; volume < clients; volume++ {
		call(b, through, createCall, creates(fmt.Sprint("v", volume)))
		made.Add(1)
		go func(id string) {
			defer made.Done()
			for count := 0; count < grown/2; count += clients {
				call(b, through, attachCall, attaches(id, "n1", writer))
				call(b, through, detachCall, detaches(id, "n1"))
			}
		}(fmt.Sprint("v", volume))
	}
	made.Wait()
	processes := [3]int{os.Getpid(), behind.Process.Pid, driver.Process.Pid}
	count, err := strconv.Atoi(os.Getenv(roundsKey))
	if err != nil {
		count = rounds
	}
	var took, persec, times [3][]float64
	var microes [3][3][]float64
	for round := 0; round < count; round++ {
		var middles [3]float64
		for turn := range ways {
			which := (round + turn) % 3
			came := ways[which].turn(b, clients, processes)
			if len(came.took) == 0 {
				b.Fatal("no call ended in a turn")
			}
			middles[which] = measuring.Median(came.took)
			took[which], persec[which] = append(took[which], middles[which]), append(persec[which], came.persec)
			for of, micro := range came.microes {
				microes[which][of] = append(microes[which][of], micro)
			}
		}
		for which, middle := range middles {
			times[which] = append(times[which], middle/middles[0])
		}
	}
	b.ReportMetric(0, "ns/op") // which would be that of rounds
	for which, way := range ways {
		b.ReportMetric(measuring.Median(took[which]), way.name+"-ms")
		b.ReportMetric(measuring.Median(persec[which]), way.name+"-calls/s")
		for at, its := range []string{"client", "upstream", "driver"} {
			if which > 0 || at < 2 {
				b.ReportMetric(measuring.Median(microes[which][at]), way.name+"-"+its+"-us")
			}
		}
	}
	b.ReportMetric(measuring.Median(times[1]), "times")
	b.ReportMetric(measuring.ErrorOf(times[1]), "times-error")
	b.ReportMetric(measuring.Median(times[2]), "unread-times")
	b.ReportMetric(measuring.ErrorOf(times[2]), "unread-times-error")
}
