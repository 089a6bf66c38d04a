package upstream_test

import (
	"bytes"
	"context"
	"fmt"
	"math/rand"
	"os"
	"os/exec"
	"path/filepath"
	"reflect"
	"sort"
	"strconv"
	"sync"
	"syscall"
	"testing"
	"time"

	"github.com/golang/protobuf/proto"
	"google.golang.org/grpc"
	"google.golang.org/grpc/codes"
	"google.golang.org/grpc/status"

	"tufayon/service/numbering"
	"tufayon/service/upstream"
	"tufayon/service/upstream/upstreamtest"
	"tufayon/service/wire"
)

const (
	clients  = 16
	perRound = 200 // calls between two times at which all is compared
	names    = 12
	nodeIDs  = 4
)

// drawn has clients call a driver that is killed, before an upstream that dies.
type drawn struct {
	*box
	mutex    sync.Mutex
	ids      map[string]string // the latest of each name
	maybe    map[string]bool   // what was attached or detached in this round by a call that wasn't answered by OK, and wasn't refused
	calls    int
	okay     int
	sessions uint64
}

// 16 clients make drawn calls, while driver and upstream are killed: the upstream is never told to attach a volume twice; each response is the upstream's,
// byte for byte; what is attached there the ledger has, and what it has besides was under way; and where that is asked for again both are the same.
func TestDrawn(t *testing.T) {
	count := 800
	if testing.Short() {
		count = 200
	}
	if set, err := strconv.Atoi(os.Getenv("TUFAYON_TEST_DRAWN")); err == nil {
		count = set
	}
	for _, isNumbered := range []bool{false, true} {
		box := newBox(t, upstream.Options{})
		box.metadata = isNumbered
		seed := time.Now().UnixNano()
		t.Logf("seed %d", seed)
		running := box.run()
		(&drawn{box: box, ids: map[string]string{}}).play(rand.New(rand.NewSource(seed)), count, running, func(running *exec.Cmd) *exec.Cmd {
			running.Process.Kill()
			running.Wait()
			return box.run()
		})
	}
}

// play has clients make so many calls, and kills the driver at times, as kill does, which gives the next one.
func (drawn *drawn) play(draw *rand.Rand, count int, running *exec.Cmd, kill func(*exec.Cmd) *exec.Cmd) {
	for drawn.calls < count && !drawn.Failed() {
		drawn.maybe = map[string]bool{}
		drawn.session()
		drawn.breaks(rand.New(rand.NewSource(draw.Int63())))
		var all sync.WaitGroup
		for at := 0; at < clients; at++ {
			all.Add(1)
			go func(draw *rand.Rand) {
				defer all.Done()
				for at := 0; at < perRound/clients; at++ {
					drawn.call(draw)
				}
			}(rand.New(rand.NewSource(draw.Int63())))
		}
		time.Sleep(time.Duration(draw.Intn(40)) * time.Millisecond)
		if draw.Intn(2) == 0 {
			running = kill(running)
		}
		time.Sleep(time.Duration(draw.Intn(40)) * time.Millisecond)
		if draw.Intn(2) == 0 {
			drawn.behind.Die()
			drawn.behind.Restart()
		}
		all.Wait()
		drawn.compare()
	}
	running.Process.Signal(syscall.SIGTERM)
	running.Wait()
	drawn.Logf("%d calls, of which %d were OK", drawn.calls, drawn.okay)
}

// session begins the next session of who calls.
func (drawn *drawn) session() {
	drawn.Helper()
	drawn.sessions++
	var options []grpc.DialOption
	if drawn.metadata {
		options = append(options, grpc.WithUnaryInterceptor(numbering.New(drawn.sessions).Intercept))
	}
	if drawn.client != nil {
		drawn.client.Close()
	}
	drawn.client = upstreamtest.Dial(drawn.TB, filepath.Join(drawn.folder, "d", "csi.sock"), options...)
}

// breaks has the upstream fail at times.
func (drawn *drawn) breaks(draw *rand.Rand) {
	var mutex sync.Mutex
	drawn.behind.Set(func(string) upstreamtest.Fault {
		mutex.Lock()
		defer mutex.Unlock()
		its := status.Error(codes.Code(1+draw.Intn(16)), "the upstream's")
		switch draw.Intn(20) {
		case 0:
			return upstreamtest.Fault{Refuse: its}
		case 1:
			return upstreamtest.Fault{Fail: its}
		case 2:
			return upstreamtest.Fault{Before: time.Duration(draw.Intn(60)) * time.Millisecond}
		case 3:
			return upstreamtest.Fault{After: time.Duration(draw.Intn(60)) * time.Millisecond}
		}
		return upstreamtest.Fault{}
	})
}

func modeOf(name string) wire.VolumeCapability_AccessMode_Mode {
	if name[len(name)-1]%3 == 0 {
		return writers
	}
	return writer
}

// call makes a drawn call.
func (drawn *drawn) call(draw *rand.Rand) {
	name, node := fmt.Sprint("v", draw.Intn(names)), fmt.Sprint("n", draw.Intn(nodeIDs))
	drawn.mutex.Lock()
	id := drawn.ids[name]
	drawn.calls++
	tag := fmt.Sprint("drawn ", drawn.calls)
	drawn.mutex.Unlock()
	within := 10 * time.Second
	if draw.Intn(8) == 0 {
		within = time.Duration(draw.Intn(30)) * time.Millisecond
	}
	ctx, cancel := context.WithTimeout(context.Background(), within)
	defer cancel()
	pair := id + " " + node
	switch what := draw.Intn(10); {
	case id == "" || what < 2:
		if id, isOK := drawn.creates(ctx, name, tag); isOK {
			drawn.mutex.Lock()
			drawn.ids[name] = id
			drawn.mutex.Unlock()
		}
	case what < 6:
		drawn.tries(ctx, attachCall, attaches(id, node, modeOf(name)), tag, pair)
	case what < 9:
		drawn.tries(ctx, detachCall, detaches(id, node), tag, pair)
	default:
		drawn.tries(ctx, deleteCall, deletes(id), tag, "")
	}
}

// tries makes a call, and judges its response.
func (drawn *drawn) tries(ctx context.Context, method string, message proto.Message, tag, pair string) ([]byte, bool) {
	request, response, err := upstreamtest.Call(ctx, drawn.client, method, message, tag, grpc.WaitForReady(true))
	drawn.mutex.Lock()
	defer drawn.mutex.Unlock()
	if err != nil {
		if len(response.Trailer.Get("tufayon-reply")) == 0 { // it isn't the plugin's refusal
			drawn.maybe[pair] = true
		}
		return nil, false
	}
	drawn.okay++
	for _, it := range drawn.behind.Responses(request) {
		if bytes.Equal(it, response.Message) {
			return response.Message, true
		}
	}
	drawn.Errorf("%s %v: the upstream gave no such response: %x", method, message, response.Message)
	return nil, false
}

func (drawn *drawn) creates(ctx context.Context, name, tag string) (string, bool) {
	message, isOK := drawn.tries(ctx, createCall, creates(name, modeOf(name)), tag, "")
	if !isOK {
		return "", false
	}
	var made wire.CreateVolumeResponse
	if err := proto.Unmarshal(message, &made); err != nil {
		drawn.Error(err)
	}
	return made.GetVolume().GetVolumeId(), true
}

// ledger is what the driver lists, of each volume the nodes.
func (drawn *drawn) ledger() map[string][]string {
	drawn.Helper()
	ctx, cancel := context.WithTimeout(context.Background(), within)
	defer cancel()
	for { // the driver finds an upstream again that died
		_, err := wire.NewControllerClient(drawn.client).ControllerGetCapabilities(ctx, &wire.ControllerGetCapabilitiesRequest{}, grpc.WaitForReady(true))
		if err == nil {
			break
		}
		if time.Sleep(10 * time.Millisecond); ctx.Err() != nil {
			drawn.Fatalf("the capabilities: %v", err)
		}
	}
	response := &wire.ListVolumesResponse{}
	if err := drawn.client.Invoke(ctx, "/csi.v1.Controller/ListVolumes", &wire.ListVolumesRequest{}, response, grpc.WaitForReady(true)); err != nil {
		drawn.Fatal(err)
	}
	found := map[string][]string{}
	for _, it := range response.GetEntries() {
		nodes := append([]string{}, it.GetStatus().GetPublishedNodeIds()...)
		sort.Strings(nodes)
		found[it.GetVolume().GetVolumeId()] = nodes
	}
	return found
}

// compare compares the ledger with the upstream, has what was under way asked for again, and compares them once more.
func (drawn *drawn) compare() {
	drawn.Helper()
	drawn.behind.Set(nil)
	drawn.behind.Rest()
	if wrong := drawn.behind.Wrong(); len(wrong) > 0 {
		drawn.Fatalf("the upstream was told what must not be: %q", wrong)
	}
	ledger, there := drawn.ledger(), drawn.behind.Attached()
	for id, nodes := range there {
		for _, node := range nodes {
			if !has(ledger[id], node) {
				drawn.Errorf("%q is attached at %s, and the ledger doesn't have it", id, node)
			}
		}
	}
	for id, nodes := range ledger {
		for _, node := range nodes {
			if !has(there[id], node) && !drawn.maybe[id+" "+node] {
				drawn.Errorf("the ledger has %q at %s, where it isn't, and nothing was under way", id, node)
			}
		}
	}
	drawn.settle(ledger, there)
	if ledger, there = drawn.ledger(), drawn.behind.Attached(); !reflect.DeepEqual(ledger, there) {
		drawn.Errorf("the ledger has %v, and the upstream has %v", ledger, there)
	}
}

// settle asks again for what was under way, until the ledger and the upstream have to be the same.
func (drawn *drawn) settle(ledger, there map[string][]string) {
	drawn.Helper()
	ctx, cancel := context.WithTimeout(context.Background(), within)
	defer cancel()
	again := 0
	settles := func(method string, message proto.Message) {
		drawn.Helper()
		again++
		if _, isOK := drawn.tries(ctx, method, message, fmt.Sprint("again ", drawn.calls, " ", again), ""); !isOK {
			drawn.Errorf("%s %v fails, and nothing is in its way", method, message)
		}
	}
	drawn.session()
	for id, nodes := range ledger {
		for _, node := range nodes {
			if !has(there[id], node) {
				settles(detachCall, detaches(id, node))
			}
		}
		if _, is := there[id]; !is {
			settles(deleteCall, deletes(id))
		}
	}
	drawn.session() // names are free again
	for at := 0; at < names; at++ {
		name := fmt.Sprint("v", at)
		settles(createCall, creates(name, modeOf(name)))
	}
}

func has(texts []string, text string) bool {
	for _, it := range texts {
		if it == text {
			return true
		}
	}
	return false
}
