package upstream_test

import (
	"context"
	"fmt"
	"math/rand"
	"os"
	"os/exec"
	"path/filepath"
	"strconv"
	"syscall"
	"testing"
	"time"

	"tufayon/service/etcd/etcdtest"
	"tufayon/service/upstream"
	"tufayon/service/upstream/upstreamtest"
	"tufayon/service/wire"
)

// Two drivers over etcd before one upstream: where the one that leads is killed, or ends, the other one goes on, and all holds that is drawn above.
func TestTakeovers(t *testing.T) {
	if testing.Short() {
		t.Skip("it takes its time")
	}
	box := newBox(t, upstream.Options{})
	box.etcd = etcdtest.Start(t)
	count := 1000
	if set, err := strconv.Atoi(os.Getenv("TUFAYON_TEST_DRAWN")); err == nil {
		count = set / 5
	}
	if err := os.Mkdir(filepath.Join(box.folder, "d"), 0o700); err != nil {
		t.Fatal(err)
	}
	started, taken := 0, 0
	start := func() *exec.Cmd {
		started++
		box.socket = filepath.Join(box.folder, fmt.Sprint("driver", started), "s")
		return box.run() // it waits
	}
	first := box.leads(start())
	second := start()
	seed := time.Now().UnixNano()
	t.Logf("seed %d", seed)
	draw := rand.New(rand.NewSource(seed))
	(&drawn{box: box, ids: map[string]string{}}).play(draw, count, first, func(running *exec.Cmd) *exec.Cmd {
		if taken++; taken%3 == 0 {
			running.Process.Signal(syscall.SIGTERM)
		} else {
			running.Process.Kill()
		}
		running.Wait()
		running = box.leads(second)
		second = start()
		return running
	})
	second.Process.Kill()
	second.Wait()
	t.Logf("%d takeovers", taken)
}

// leads waits until a driver leads, and has the box's socket be its.
func (box *box) leads(running *exec.Cmd) *exec.Cmd {
	box.Helper()
	socket := box.sockets[running]
	client := upstreamtest.Dial(box.TB, socket)
	for until := time.Now().Add(within); ; time.Sleep(10 * time.Millisecond) {
		probed, err := wire.NewIdentityClient(client).Probe(context.Background(), &wire.ProbeRequest{})
		if err == nil && probed.GetReady() == nil { // the upstream's answer
			break
		}
		if time.Now().After(until) {
			box.Fatalf("it doesn't lead: %v, %v", probed, err)
		}
	}
	link := filepath.Join(box.folder, "d", "csi.sock")
	os.Remove(link)
	if err := os.Symlink(socket, link); err != nil {
		box.Fatal(err)
	}
	return running
}
