package etcd

import (
	"context"
	"errors"
	"fmt"
	"io"
	"net"
	"reflect"
	"strings"
	"sync"
	"testing"
	"time"

	"go.etcd.io/etcd/clientv3"

	"tufayon/service/etcd/etcdtest"
	"tufayon/service/store"
)

// Transactions have so many operations and bytes at most; an operation that is larger than that is alone.
func TestSplit(t *testing.T) {
	operations := make([]clientv3.Op, 0, 1000)
	for at := 0; at < 300; at++ {
		operations = append(operations, clientv3.OpDelete(fmt.Sprint("k", at)))
	}
	operations = append(operations, clientv3.OpPut("k", strings.Repeat(" ", 2*mostBytes)), clientv3.OpPut("l", ""))
	var sizes []int
	for _, piece := range split(operations) {
		sizes = append(sizes, len(piece))
	}
	if want := []int{120, 120, 60, 1, 1}; !reflect.DeepEqual(sizes, want) {
		t.Errorf("the pieces have %v operations, not %v", sizes, want)
	}
}

func TestLastOfEach(t *testing.T) {
	changes := lastOfEach([]store.Change{{Key: 1, Out: true}, {Key: 2, Value: []byte{2}}, {Key: 1, Value: []byte{1}}, {Key: 2, Out: true}})
	if want := []store.Change{{Key: 1, Value: []byte{1}}, {Key: 2, Out: true}}; !reflect.DeepEqual(changes, want) {
		t.Errorf("it is %v", changes)
	}
}

// server is etcd as Debian starts it, on loopback.
func server(t *testing.T) Config {
	t.Helper()
	return Config{Endpoints: []string{etcdtest.Start(t)}, Prefix: "/t", LeaseSeconds: 5}
}

func open(t *testing.T, config Config) *leading {
	t.Helper()
	ctx, cancel := context.WithTimeout(context.Background(), 30*time.Second)
	defer cancel()
	for {
		kept, err := config.Open(ctx)
		if err == nil {
			return kept.(*leading)
		}
		if ctx.Err() != nil {
			t.Fatal(err)
		}
		time.Sleep(100 * time.Millisecond) // it starts still
	}
}

func (leading *leading) wants(t *testing.T, want map[uint64]string) {
	t.Helper()
	parts, err := leading.Load(context.Background())
	if err != nil {
		t.Fatal(err)
	}
	have := map[uint64]string{}
	for _, part := range parts {
		have[part.Key] = string(part.Value)
	}
	if !reflect.DeepEqual(have, want) {
		t.Errorf("the store has %d parts, not %d, or others", len(have), len(want))
	}
}

// Small commits and large ones, one that is cut short before and after it is made, and one whose outcome isn't known.
func TestCommit(t *testing.T) {
	ctx, config := context.Background(), server(t)
	kept := open(t, config)
	want := map[uint64]string{}
	put := func(count int, value string) (changes []store.Change) {
		for key := uint64(0); key < uint64(count); key++ {
			changes = append(changes, store.Change{Key: key, Value: []byte(value)})
		}
		return changes
	}
	commit := func(anew bool, changes []store.Change) {
		t.Helper()
		if err := kept.Commit(ctx, anew, changes); err != nil {
			t.Fatal(err)
		}
		if anew {
			want = map[uint64]string{}
		}
		for _, change := range changes {
			if delete(want, change.Key); !change.Out {
				want[change.Key] = string(change.Value)
			}
		}
		kept.wants(t, want)
	}
	commit(false, put(3, "small"))
	commit(false, nil)
	commit(false, []store.Change{{Key: 1, Out: true}, {Key: 2, Out: true}, {Key: 2, Value: []byte("again")}})
	commit(false, put(4097, "many"))
	commit(false, put(30, strings.Repeat("large", 20000)))
	commit(true, put(5, "anew"))
	// Cut short before it is made: nothing.
	changes := put(500, "next")
	for _, piece := range split([]clientv3.Op{clientv3.OpPut(kept.editsOf([]store.Change{{Key: 1}})[0].early, "+next")}) {
		if err := kept.change(ctx, piece); err != nil {
			t.Fatal(err)
		}
	}
	kept.Close()
	kept = open(t, config)
	kept.wants(t, want)
	commit(false, put(600, "others"))
	// Cut short once it is made: the next process carries it over.
	var notes []clientv3.Op
	for _, change := range changes {
		notes = append(notes, clientv3.OpPut(kept.editsOf([]store.Change{change})[0].early, "+next"))
		want[change.Key] = "next"
	}
	notes = append(notes, clientv3.OpPut(kept.editsOf([]store.Change{{Key: 550}})[0].early, "-"))
	delete(want, 550)
	for _, piece := range append(split(notes), []clientv3.Op{clientv3.OpPut(kept.wholeKey(), "")}) {
		if err := kept.change(ctx, piece); err != nil {
			t.Fatal(err)
		}
	}
	kept.Close()
	kept = open(t, config)
	kept.wants(t, want)
	for _, key := range []string{kept.wholeKey(), "/t/next/", "/t/nexttexts/"} {
		if got, err := kept.client.Get(ctx, key, clientv3.WithPrefix()); err != nil || len(got.Kvs) > 0 {
			t.Errorf("%s is left: %v", key, err)
		}
	}
	// Asked for again, since nobody told what became of it: carried out once.
	count, last := kept.count, kept.last
	commit(false, []store.Change{{Key: 7, Value: []byte("once")}})
	kept.count, kept.last = count, last
	if err := kept.Commit(ctx, false, []store.Change{{Key: 7, Value: []byte("twice")}}); err != nil {
		t.Errorf("it isn't told that it was carried out: %v", err)
	}
	kept.wants(t, want)
	// Who doesn't lead any more commits nothing.
	old := kept
	if _, err := old.client.Revoke(ctx, old.session.Lease()); err != nil {
		t.Fatal(err)
	}
	kept = open(t, config)
	for _, changes := range [][]store.Change{nil, {{Key: 8, Value: []byte("late")}}} {
		if err := old.Commit(ctx, false, changes); !errors.Is(err, store.ErrLost) && !errors.Is(err, store.ErrUnknown) {
			t.Errorf("the old one commits: %v", err)
		}
	}
	kept.wants(t, want)
	old.Close()
	kept.Close()
}

// Texts are committed with the record, by one transaction or in pieces; a store that keeps them is opened as one that does, and no other way.
func TestTexts(t *testing.T) {
	config, ctx := server(t), context.Background()
	config.Texts = true
	kept := open(t, config)
	record, texts := map[uint64]string{}, map[string]string{}
	wants := func() {
		t.Helper()
		kept.wants(t, record)
		found, err := kept.Texts(ctx)
		if err != nil || len(found) != len(texts) {
			t.Errorf("it has %d texts, %v, not %d", len(found), err, len(texts))
		}
		for _, it := range found {
			if value, is := texts[it.Key]; !is || value != it.Value {
				t.Errorf("text %q is %q, not %q", it.Key, it.Value, value)
			}
		}
	}
	for _, count := range []uint64{1, 30, 400} {
		var changes []store.Change
		var edits []store.Text
		for at := uint64(0); at < count; at++ {
			changes = append(changes, store.Change{Key: at, Value: []byte(fmt.Sprint(count))})
			edits = append(edits, store.Text{Key: fmt.Sprintf("volume/%d", at), Value: fmt.Sprint("a/b ", count)})
			record[at], texts[fmt.Sprintf("volume/%d", at)] = fmt.Sprint(count), fmt.Sprint("a/b ", count)
		}
		if err := kept.CommitBoth(ctx, changes, edits, nil); err != nil {
			t.Fatal(err)
		}
		wants()
	}
	delete(record, 3)
	delete(texts, "volume/3")
	if err := kept.CommitBoth(ctx, []store.Change{{Key: 3, Out: true}}, []store.Text{{Key: "volume/3", Out: true}}, nil); err != nil {
		t.Fatal(err)
	}
	wants()
	// Cut short once it is made: the next process carries both over.
	for _, it := range append(kept.editsOf([]store.Change{{Key: 5}}), kept.textEditsOf([]store.Text{{Key: "volume/5"}})...) {
		if err := kept.change(ctx, []clientv3.Op{clientv3.OpPut(it.early, "+later"), clientv3.OpPut(kept.wholeKey(), "")}); err != nil {
			t.Fatal(err)
		}
	}
	record[5], texts["volume/5"] = "later", "later"
	kept.Close()
	kept = open(t, config)
	wants()
	kept.Close()
	for _, other := range []Config{{Prefix: "/t"}, {Prefix: "/plain", Texts: true}} {
		other.Endpoints, other.LeaseSeconds = config.Endpoints, 5
		if other.Texts {
			plain := other
			plain.Texts = false
			opened := open(t, plain)
			if err := opened.Commit(ctx, false, []store.Change{{Key: 0, Value: []byte("h")}}); err != nil {
				t.Fatal(err)
			}
			opened.Close()
		}
		if _, err := other.Open(ctx); !errors.Is(err, store.ErrNotOpened) {
			t.Errorf("%+v is opened: %v", other, err)
		}
	}
}

// A process that waits to lead ends soon after it is told to, also where etcd is gone by then.
func TestWaitingAlone(t *testing.T) {
	config := server(t)
	kept := open(t, config)
	defer kept.Close()
	waiting := config
	way, cut := cable(t, config.Endpoints[0])
	waiting.Endpoints = []string{way}
	ctx, end := context.WithCancel(context.Background())
	defer end()
	ended := make(chan error, 1)
	go func() {
		_, err := waiting.Open(ctx)
		ended <- err
	}()
	for until := time.Now().Add(20 * time.Second); ; time.Sleep(20 * time.Millisecond) {
		got, err := kept.client.Get(ctx, config.leaderKey(), clientv3.WithPrefix(), clientv3.WithCountOnly())
		if err == nil && got.Count == 2 {
			break
		}
		if time.Now().After(until) {
			t.Fatalf("it doesn't wait: %v, %v", got, err)
		}
	}
	time.Sleep(200 * time.Millisecond) // now it watches who leads
	cut()
	time.Sleep(time.Second) // now it knows
	end()
	select {
	case err := <-ended:
		if !errors.Is(err, store.ErrNotOpened) {
			t.Errorf("it ended with %v", err)
		}
	case <-time.After(giveBack + 10*time.Second):
		t.Error("it doesn't end")
	}
}

// A process that leads ends soon after it is told to, also where etcd is gone by then, however long its lease is.
func TestLeadingAlone(t *testing.T) {
	config := server(t)
	config.LeaseSeconds = 60
	way, cut := cable(t, config.Endpoints[0])
	config.Endpoints = []string{way}
	kept := open(t, config)
	cut()
	closed := make(chan error, 1)
	go func() { closed <- kept.Close() }()
	select {
	case <-closed:
	case <-time.After(giveBack + 10*time.Second):
		t.Error("it doesn't end")
	}
}

// cable is a way to a server, until it is cut.
func cable(t *testing.T, endpoint string) (way string, cut func()) {
	t.Helper()
	listener, err := net.Listen("tcp", "127.0.0.1:0")
	if err != nil {
		t.Fatal(err)
	}
	var mutex sync.Mutex
	var ends []net.Conn
	isCut := false
	cut = func() {
		mutex.Lock()
		defer mutex.Unlock()
		isCut = true
		listener.Close()
		for _, it := range ends {
			it.Close()
		}
	}
	t.Cleanup(cut)
	go func() {
		for {
			from, err := listener.Accept()
			if err != nil {
				return
			}
			to, err := net.Dial("tcp", serverOf(endpoint))
			if err != nil {
				from.Close()
				continue
			}
			mutex.Lock()
			if ends = append(ends, from, to); isCut {
				from.Close()
				to.Close()
			}
			mutex.Unlock()
			go io.Copy(from, to)
			go io.Copy(to, from)
		}
	}()
	return "http://" + listener.Addr().String(), cut
}
