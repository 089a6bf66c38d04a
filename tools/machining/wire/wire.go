// wire is a switch between network namespaces, which can be made as bad as any network, on a kernel that has no means of its own for that.
//
//	wire SEED NAMESPACE=ADDRESS/BITS..
//
// gives each namespace (`.` is its own) a device eth0 with that address, and takes a line for each change, which it answers with `ok` once it holds, or with
// what is wrong with it. NAME is a namespace, or * for all:
//
//	delay NAME MILLISECONDS    each frame to or from it takes so long
//	jitter NAME MILLISECONDS   and up to so long besides, so that frames overtake each other
//	loss NAME PERCENT          so many frames get lost
//	twice NAME PERCENT         so many come twice
//	cut NAME                   nothing comes or goes
//	cut NAME OTHER             nothing goes from NAME to OTHER
//	heal                       all is well again
//	tape PORT                  what is sent to this port, by connections that begin from now on, is kept
//	write FOLDER               writes what was kept, of each connection a file
//	told                       how many frames passed, were lost, and came twice
//
// The devices go when it ends, which it does with its input.
package main

import (
	"bufio"
	"errors"
	"fmt"
	"math/rand"
	"os"
	"os/exec"
	"strconv"
	"strings"
	"sync"
	"time"

	"golang.org/x/sys/unix"
)

// port is a namespace's.
type port struct {
	name string
	file *os.File
	bad
}

// bad is what is wrong with a port.
type bad struct {
	delay, jitter time.Duration
	loss, twice   float64         // percent
	isCut         bool            // nothing comes or goes
	cutTo         map[string]bool // nothing goes to these
}

type wire struct {
	mutex               sync.Mutex
	drawn               *rand.Rand
	ports               []*port
	places              map[string]*port // where a device's address was seen last
	tapes               tapes
	passed, lost, twice int
}

var errWhat = errors.New("no such line")

func run(words ...string) error {
	if out, err := exec.Command(words[0], words[1:]...).CombinedOutput(); err != nil {
		return fmt.Errorf("%v: %w: %s", words, err, out)
	}
	return nil
}

// open makes a namespace's device.
func open(name, address string, at int) (*port, error) {
	fd, err := unix.Open("/dev/net/tun", unix.O_RDWR|unix.O_NONBLOCK|unix.O_CLOEXEC, 0)
	if err != nil {
		return nil, err
	}
	device := fmt.Sprintf("wire%d-%d", os.Getpid()%1000000, at)
	request, err := unix.NewIfreq(device)
	if err != nil {
		return nil, err
	}
	request.SetUint16(unix.IFF_TAP | unix.IFF_NO_PI)
	if err := unix.IoctlIfreq(fd, unix.TUNSETIFF, request); err != nil {
		return nil, fmt.Errorf("a device: %w", err)
	}
	in := []string{"ip"}
	if name != "." {
		if err := run("ip", "link", "set", device, "netns", name); err != nil {
			return nil, err
		}
		in = []string{"ip", "-n", name}
	}
	for _, words := range [][]string{
		{"link", "set", device, "name", "eth0"}, {"addr", "add", address, "dev", "eth0"}, {"link", "set", "eth0", "up"}, {"link", "set", "lo", "up"},
	} {
		if err := run(append(in[:len(in):len(in)], words...)...); err != nil {
			return nil, err
		}
	}
	return &port{name: name, file: os.NewFile(uintptr(fd), device)}, nil
}

// read takes a port's frames for good.
func (wire *wire) read(from *port) {
	for {
		frame := make([]byte, 2048)
		size, err := from.file.Read(frame)
		if err != nil {
			return
		}
		if size >= 14 {
			wire.take(from, frame[:size])
		}
	}
}

// take hands a frame to whom it is for, or to all where nobody is known who has its address.
func (wire *wire) take(from *port, frame []byte) {
	wire.mutex.Lock()
	defer wire.mutex.Unlock()
	wire.tapes.take(frame)
	wire.places[string(frame[6:12])] = from
	its := wire.places[string(frame[:6])]
	for _, to := range wire.ports {
		if to != from && (frame[0]&1 == 1 || its == nil || its == to) {
			wire.pass(from, to, frame)
		}
	}
}

// pass is asked with the lock: what becomes of a frame is decided by both its ends.
func (wire *wire) pass(from, to *port, frame []byte) {
	if from.isCut || to.isCut || from.cutTo[to.name] || wire.drawn.Float64()*100 < from.loss+to.loss {
		wire.lost++
		return
	}
	copies := 1
	if wire.drawn.Float64()*100 < from.twice+to.twice {
		copies = 2
		wire.twice++
	}
	wire.passed++
	for ; copies > 0; copies-- {
		wait := from.delay + to.delay + time.Duration(wire.drawn.Float64()*float64(from.jitter+to.jitter))
		if wait == 0 {
			to.file.Write(frame)
			continue
		}
		time.AfterFunc(wait, func() { to.file.Write(frame) })
	}
}

// change carries a line out.
func (wire *wire) change(words []string) error {
	wire.mutex.Lock()
	defer wire.mutex.Unlock()
	switch {
	case len(words) == 1 && words[0] == "heal":
		for _, it := range wire.ports {
			it.bad = bad{}
		}
		return nil
	case len(words) == 2 && words[0] == "tape":
		return wire.tapes.begin(words[1])
	case len(words) == 2 && words[0] == "write":
		return wire.tapes.write(words[1])
	case len(words) == 1 && words[0] == "told":
		fmt.Println(wire.passed, wire.lost, wire.twice)
		return nil
	}
	if len(words) < 2 {
		return errWhat
	}
	isThere := false
	for _, it := range wire.ports {
		if words[1] == "*" || words[1] == it.name {
			isThere = true
			if err := it.worsen(words); err != nil {
				return err
			}
		}
	}
	if !isThere {
		return fmt.Errorf("%w: there is no %s", errWhat, words[1])
	}
	return nil
}

// worsen has something be wrong with a port.
func (it *port) worsen(words []string) error {
	if words[0] == "cut" && len(words) == 2 {
		it.isCut = true
		return nil
	}
	if len(words) != 3 {
		return errWhat
	}
	if words[0] == "cut" {
		if it.cutTo == nil {
			it.cutTo = map[string]bool{}
		}
		it.cutTo[words[2]] = true
		return nil
	}
	value, err := strconv.ParseFloat(words[2], 64)
	if err != nil || value < 0 {
		return errWhat
	}
	switch words[0] {
	case "delay":
		it.delay = time.Duration(value * float64(time.Millisecond))
	case "jitter":
		it.jitter = time.Duration(value * float64(time.Millisecond))
	case "loss":
		it.loss = value
	case "twice":
		it.twice = value
	default:
		return errWhat
	}
	return nil
}

func serve(words []string) error {
	if len(words) < 2 {
		return errors.New("usage: wire SEED NAMESPACE=ADDRESS/BITS..")
	}
	seed, err := strconv.ParseInt(words[0], 10, 64)
	if err != nil {
		return err
	}
	wire := &wire{drawn: rand.New(rand.NewSource(seed)), places: map[string]*port{}}
	for at, word := range words[1:] {
		name, address, _ := strings.Cut(word, "=")
		made, err := open(name, address, at)
		if err != nil {
			return err
		}
		wire.ports = append(wire.ports, made)
	}
	for _, it := range wire.ports {
		go wire.read(it)
	}
	fmt.Println("ok")
	lines := bufio.NewScanner(os.Stdin)
	for lines.Scan() {
		if err := wire.change(strings.Fields(lines.Text())); err != nil {
			fmt.Printf("%v: %s\n", err, lines.Text())
			continue
		}
		fmt.Println("ok")
	}
	return lines.Err()
}

func main() {
	if err := serve(os.Args[1:]); err != nil {
		fmt.Fprintln(os.Stderr, "wire:", err)
		os.Exit(1)
	}
}
