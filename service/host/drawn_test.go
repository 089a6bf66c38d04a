package host_test

import (
	"context"
	"encoding/binary"
	"errors"
	"fmt"
	"math/rand"
	"reflect"
	"runtime"
	"sort"
	"strings"
	"sync"
	"testing"
	"time"

	"tufayon/service/carrying"
	"tufayon/service/frames"
	"tufayon/service/host"
	"tufayon/service/host/hosttest"
	"tufayon/service/numbers"
	"tufayon/service/plugin"
	"tufayon/service/records"
)

// A network has the library's plugins behind it. It loses, delays and repeats calls, and loses replies.
type network struct {
	t       *testing.T
	mutex   sync.Mutex
	random  *rand.Rand
	isBad   bool
	gone    map[string]bool // nodes that nobody reaches
	plugins map[string]*served
}

// served is a plugin with its record. One goroutine makes all its calls.
type served struct {
	jobs  chan func(made *plugin.Plugin)
	mutex sync.Mutex
	parts map[uint64][]byte
}

func serve(t *testing.T, maker plugin.Maker) *served {
	it := &served{jobs: make(chan func(*plugin.Plugin)), parts: map[uint64][]byte{}}
	began := make(chan error)
	go func() {
		runtime.LockOSThread()
		made, _, err := maker.Make(nil)
		began <- err
		if err != nil {
			return
		}
		defer made.Free()
		for job := range it.jobs {
			job(made)
		}
	}()
	if err := <-began; err != nil {
		t.Fatal(err)
	}
	return it
}

// answer has a call answered, and keeps what that changed.
func (it *served) answer(t *testing.T, frame []byte) []byte {
	came := make(chan []byte, 1)
	it.jobs <- func(made *plugin.Plugin) {
		reply, err := made.Answer(frame)
		if err != nil {
			t.Errorf("a frame: %v", err)
		}
		changes, _ := made.Changes()
		it.mutex.Lock()
		defer it.mutex.Unlock()
		for _, change := range changes {
			it.parts[change.Key] = change.Value
			if change.Out {
				delete(it.parts, change.Key)
			}
		}
		came <- reply
	}
	return <-came
}

var everywhere = frames.Capability{Mode: 5}

var errNobody = errors.New("nobody is there")

// chance says whether something bad happens, in one of so many cases.
func (net *network) chance(of int) bool { return net.isBad && net.random.Intn(of) == 0 }

func (net *network) Carry(ctx context.Context, call frames.Call, until time.Time) (frames.Reply, error) {
	net.mutex.Lock()
	name := call.Node
	plugin, isGone := net.plugins[name], net.gone[name]
	isLost, isLate, isTwice, isUnheard := net.chance(12), net.chance(12), net.chance(8), net.chance(12)
	delay, late := time.Duration(net.random.Intn(2000))*time.Microsecond, time.Duration(net.random.Intn(60))*time.Millisecond
	net.mutex.Unlock()
	if isGone {
		if until.IsZero() || time.Until(until) > 20*time.Millisecond {
			until = time.Now().Add(20 * time.Millisecond)
		}
		time.Sleep(time.Until(until))
		return frames.Reply{}, errNobody
	}
	frame, err := call.Encode()
	if err != nil {
		return frames.Reply{}, err
	}
	time.Sleep(delay)
	again := func() { time.AfterFunc(late, func() { plugin.answer(net.t, frame) }) }
	if isLost || isLate {
		if isLate {
			again()
		}
		return frames.Reply{}, errNobody
	}
	if isTwice {
		again()
	}
	reply, err := frames.DecodeReply(plugin.answer(net.t, frame))
	if isUnheard {
		return frames.Reply{}, errNobody
	}
	return reply, err
}

// Begin has every plugin that is reached begin each session: they know none.
func (net *network) Begin(ctx context.Context, name string, _ numbers.Opening) error {
	net.mutex.Lock()
	isGone := net.gone[strings.TrimPrefix(name, "node:")]
	net.mutex.Unlock()
	if isGone {
		return errNobody
	}
	return carrying.ErrNone
}

// set sets how bad the network is, and which node is gone.
func (net *network) set(isBad bool, gone ...string) {
	net.mutex.Lock()
	defer net.mutex.Unlock()
	net.isBad, net.gone = isBad, map[string]bool{}
	for _, it := range gone {
		net.gone[it] = true
	}
}

// holdings are the nodes to which a controller's row says that the volume is attached; a node's row tells whether it is staged, and where it is published:
// docs/RECORDS.md, "Records".
func holdings(row []byte) []string {
	at := 2 + 1 + int(row[2]) + 8
	skip := func() { // a capability
		if row[at] == 1 {
			at += 1 + int(row[at+1])
		}
		at += 2
	}
	count := int(row[at])
	for at++; count > 0; count-- {
		skip()
	}
	var nodes []string
	count = int(row[at])
	for at++; count > 0; count-- {
		size := int(row[at])
		nodes = append(nodes, string(row[at+1:at+1+size]))
		at += 1 + size
		skip()
		at++
	}
	sort.Strings(nodes)
	return nodes
}

func stagedAt(row []byte) (isStaged bool, targets []string) {
	if len(row) == 0 || row[1] == 0 {
		return false, nil
	}
	at := 4 // of a block device: its capability has two bytes
	count := int(row[at])
	for at++; count > 0; count-- {
		size := int(row[at])
		targets = append(targets, string(row[at+1:at+1+size]))
		at += 2 + size
	}
	sort.Strings(targets)
	return true, targets
}

// part gives a part of a plugin's record.
func (it *served) part(key uint64) []byte {
	it.mutex.Lock()
	defer it.mutex.Unlock()
	return it.parts[key]
}

// audit wants that what the orchestrator says of a volume at rest is what the plugins have.
func (net *network) audit(volume host.Volume) {
	var attached []string
	for _, at := range volume.At {
		if at.Attached == records.Yes {
			attached = append(attached, at.Node)
		}
	}
	sort.Strings(attached)
	row := net.plugins[""].part(volume.ID)
	isLive := len(row) > 0 && row[1] == 1
	if isLive != (volume.Exists == records.Yes) {
		net.t.Errorf("%s: live %v, and %+v", volume.Name, isLive, volume.Row)
	}
	if isLive && !reflect.DeepEqual(holdings(row), attached) {
		net.t.Errorf("%s: the controller has %v, and the orchestrator %v", volume.Name, holdings(row), attached)
	}
	for name, it := range net.plugins {
		if name == "" {
			continue
		}
		isStaged, targets := stagedAt(it.part(volume.ID))
		at, _ := volume.Where(name)
		var known []string
		for _, target := range at.Targets {
			known = append(known, target.Path)
		}
		sort.Strings(known)
		if isStaged != (at.Staged == records.Yes) || !reflect.DeepEqual(targets, known) {
			net.t.Errorf("%s at %s: staged %v, targets %v, and %+v", volume.Name, name, isStaged, targets, at)
		}
	}
}

// Callers at work over a bad network, a service that is ended and begun again, a node that goes for a while, and one that is lost and joins again: then all
// comes to rest, and what the orchestrator says is what the plugins have.
func TestDrawn(t *testing.T) {
	seeds := int64(3)
	if testing.Short() {
		seeds = 1
	}
	for seed := int64(1); seed <= seeds; seed++ {
		t.Run(fmt.Sprint("seed ", seed), func(t *testing.T) { drawn(t, seed) })
	}
}

func drawn(t *testing.T, seed int64) {
	ids := []string{"n1", "n2", "n3"}
	config := `{"greatest":1000,"nodes":[{"id":"n1","slots":9},{"id":"n2","slots":9},{"id":"n3","slots":9}]}`
	net := &network{t: t, random: rand.New(rand.NewSource(seed)), plugins: map[string]*served{
		"": serve(t, plugin.Maker{IsController: true, Name: []byte(config)}),
	}}
	for _, id := range ids {
		net.plugins[id] = serve(t, plugin.Maker{Name: []byte(id)})
	}
	kept := hosttest.NewStore()
	times := host.Times{Patience: 60 * time.Millisecond, Retry: time.Millisecond, MostRetry: 8 * time.Millisecond}
	made := open(t, kept, net, times, ids...)
	var mutex sync.RWMutex // of made
	present := func() *host.Host {
		mutex.RLock()
		defer mutex.RUnlock()
		return made
	}
	net.set(true)
	working, end := context.WithTimeout(ctx, 700*time.Millisecond)
	defer end()
	var group sync.WaitGroup
	for caller := int64(0); caller < 6; caller++ {
		group.Add(1)
		go func(random *rand.Rand) {
			defer group.Done()
			for working.Err() == nil {
				name, node, target := fmt.Sprint("v", random.Intn(8)), ids[random.Intn(3)], fmt.Sprint("/", random.Intn(2))
				command := use(name, node, target)
				if name > "v3" {
					command.Capability = everywhere
				}
				switch random.Intn(20) {
				case 0, 1, 2, 3:
					command = create(name)
					command.Capabilities = append(command.Capabilities, everywhere)
				case 4, 5, 6, 7, 8:
					command = stop(name, node, target)
				case 9:
					if name > "v1" {
						command = remove(name)
					}
				}
				limited, cancel := context.WithTimeout(working, time.Duration(random.Intn(100))*time.Millisecond)
				present().Do(limited, command)
				cancel()
			}
		}(rand.New(rand.NewSource(seed*100 + caller)))
	}
	time.Sleep(100 * time.Millisecond)
	again := func() {
		mutex.Lock()
		defer mutex.Unlock()
		made.Close()
		made = open(t, kept, net, times, ids...)
	}
	again()
	net.set(true, "n2")
	time.Sleep(150 * time.Millisecond)
	net.set(true)
	again()
	net.set(true, "n3") // for good
	time.Sleep(50 * time.Millisecond)
	session, err := made.Lose(ctx, "n3")
	if err != nil {
		t.Fatal(err)
	}
	net.mutex.Lock()
	net.plugins["n3"] = serve(t, plugin.Maker{Name: []byte("n3"), Session: session})
	net.mutex.Unlock()
	net.set(true)
	if _, err := made.Begin(ctx, ids, "n3 joins again"); err != nil {
		t.Error(err)
	}
	group.Wait()
	net.set(false)
	limited, cancel := context.WithTimeout(ctx, within)
	defer cancel()
	volumes, _ := made.List("", 100, func(host.Volume) bool { return true })
	for _, volume := range volumes {
		answer, err := made.AtRest(limited, volume.Name)
		if err != nil {
			t.Errorf("%s isn't at rest: %v, %+v", volume.Name, err, volume)
			continue
		}
		for _, at := range answer.Volume.At { // what is only attached, at the node that was lost, is detached by a stop
			if len(at.Targets) == 0 {
				does(t, made, stop(volume.Name, at.Node, "/0"))
			}
		}
	}
	time.Sleep(70 * time.Millisecond) // until the last late call has come
	volumes, _ = made.List("", 100, func(host.Volume) bool { return true })
	for _, volume := range volumes {
		net.audit(volume)
	}
	if head := net.plugins[""].part(records.HeadKey); binary.BigEndian.Uint64(head[len(head)-8:]) < 2 {
		t.Errorf("the controller's head is %x", head)
	}
}
