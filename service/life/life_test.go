package life

import (
	"context"
	"errors"
	"net"
	"path/filepath"
	"strings"
	"sync"
	"testing"
	"time"

	"google.golang.org/grpc"
	"google.golang.org/grpc/codes"
	"google.golang.org/grpc/metadata"
	"google.golang.org/grpc/status"

	"tufayon/service/driver"
	"tufayon/service/hooks"
	"tufayon/service/numbers"
	"tufayon/service/plugin"
	"tufayon/service/serving"
	"tufayon/service/store"
	"tufayon/service/wire"
)

const within = 10 * time.Second // what should come soon

// lived runs a node over a file of a folder, until the test ends, or what it gives is called, which gives what it ended by; and a client of it.
func lived(t *testing.T, folder, id string) (*Life, wire.NodeClient, func() error) {
	t.Helper()
	socket, said := filepath.Join(folder, "d", "s"), make(chan string, 9)
	life := New(Driver{
		Program: "a test", Name: "a.example", Maker: plugin.Maker{Name: []byte(id)}, Numbering: ByMetadata(1000), Notes: filepath.Join(folder, "n.db.driver"),
		Open: func(ctx context.Context) (store.Store, error) {
			return store.OpenSQLite(ctx, filepath.Join(folder, "n.db"))
		},
		Doors: []Door{{Address: socket, Listen: func() (net.Listener, error) { return driver.Listen(socket) }}},
		Say:   func(line string) { said <- line },
	})
	ctx, stop := context.WithCancel(context.Background())
	ended := make(chan error, 1)
	go func() { ended <- life.Run(ctx) }()
	end := func() error {
		stop()
		err := <-ended
		ended <- err
		return err
	}
	t.Cleanup(func() { end() })
	select {
	case line := <-said:
		if line != "serves at "+socket {
			t.Fatal(line)
		}
	case err := <-ended:
		ended <- err
		return life, nil, end
	}
	connection, err := grpc.Dial("unix://"+socket, grpc.WithInsecure())
	if err != nil {
		t.Fatal(err)
	}
	t.Cleanup(func() { connection.Close() })
	return life, wire.NewNodeClient(connection), end
}

func stage(client wire.NodeClient, number string) error {
	ctx, cancel := context.WithTimeout(metadata.AppendToOutgoingContext(context.Background(), numbers.Key, number), within)
	defer cancel()
	_, err := client.NodeStageVolume(ctx, &wire.NodeStageVolumeRequest{VolumeId: "1", StagingTargetPath: "/s", VolumeCapability: &wire.VolumeCapability{
		AccessType: &wire.VolumeCapability_Block{Block: &wire.VolumeCapability_BlockVolume{}},
		AccessMode: &wire.VolumeCapability_AccessMode{Mode: wire.VolumeCapability_AccessMode_SINGLE_NODE_WRITER},
	}})
	return err
}

// A plugin is made anew while it is served; one that can't be made of the record, or at all, leaves the one that was.
func TestRemake(t *testing.T) {
	folder := t.TempDir()
	life, client, end := lived(t, folder, "n1")
	if err := stage(client, "1.1"); err != nil {
		t.Fatal(err)
	}
	for id, want := range map[string]error{"n1": nil, "n2": plugin.BadRecord, strings.Repeat("n", 256): plugin.BadName} {
		err := life.Remake(context.Background(), plugin.Maker{Name: []byte(id)}, nil)
		if !errors.Is(err, want) {
			t.Errorf("as %s: %v, not %v", id, err, want)
		}
		if err := stage(client, "1.1"); err != nil {
			t.Errorf("after it was made as %s: %v", id, err)
		}
	}
	for _, passes := range []int{0, 1, 2} { // it is judged while it is served, and once it isn't any more
		its, judged, rows := errors.New("no"), 0, 0
		err := life.Remake(context.Background(), plugin.Maker{Name: []byte("n1")}, func(view serving.View) error {
			if judged++; judged > passes {
				return its
			}
			rows += view.Count()
			return nil
		})
		if passes < 2 && !errors.Is(err, its) || passes == 2 && err != nil || rows != passes {
			t.Errorf("judged to be wrong after %d: %v, %d rows", passes, err, rows)
		}
		if err := stage(client, "1.1"); err != nil {
			t.Errorf("judged after %d: %v", passes, err)
		}
	}
	if err := stage(client, "0.9"); status.Code(err) != codes.Aborted {
		t.Errorf("a call of before: %v", err)
	}
	if err := end(); err != nil {
		t.Errorf("it ended by %v", err)
	}
	if _, _, end := lived(t, folder, "n2"); !errors.Is(end(), plugin.BadRecord) {
		t.Error("another node's record")
	}
}

// A driver that is told to end while it begins ends so, and by no failure.
func TestToldToEnd(t *testing.T) {
	folder := t.TempDir()
	ctx, stop := context.WithCancel(context.Background())
	life := New(Driver{
		Program: "a test", Name: "a.example", Maker: plugin.Maker{Name: []byte("n1")}, Hooks: hooks.None{}, Starts: filepath.Join(folder, "n.db.boot"),
		Numbering: func(uint64) (numbers.Source, error) {
			stop() // there is a core by then, and what its machine's start took isn't mounted anew yet
			return numbers.Metadata{}, nil
		},
		Open: func(ctx context.Context) (store.Store, error) {
			return store.OpenSQLite(ctx, filepath.Join(folder, "n.db"))
		},
		Say: func(string) {},
	})
	if err := life.Run(ctx); err != nil {
		t.Errorf("it ended by %v", err)
	}
}

// Another configuration that comes while the driver waits to lead counts from then on, as at a start, if there may be such a one.
func TestRemakeWaiting(t *testing.T) {
	socket, opens, said := filepath.Join(t.TempDir(), "d", "s"), make(chan struct{}), make(chan string, 9)
	life := New(Driver{
		Program: "a test", Name: "a.example", Maker: plugin.Maker{Name: []byte("n1")}, Numbering: ByMetadata(1000), Waits: true,
		Open: func(ctx context.Context) (store.Store, error) {
			<-opens
			return store.OpenSQLite(ctx, filepath.Join(filepath.Dir(socket), "n.db"))
		},
		Doors: []Door{{Address: socket, Listen: func() (net.Listener, error) { return driver.Listen(socket) }}},
		Say:   func(line string) { said <- line },
	})
	ctx, stop := context.WithCancel(context.Background())
	ended := make(chan error, 1)
	go func() { ended <- life.Run(ctx) }()
	t.Cleanup(stop)
	if line := <-said; line != "waits at "+socket {
		t.Fatal(line)
	}
	soon, cancel := context.WithTimeout(ctx, 2*time.Second)
	defer cancel()
	for _, it := range []struct {
		id   string
		want error
	}{{"n2", nil}, {strings.Repeat("n", 256), plugin.BadName}} {
		if err := life.Remake(soon, plugin.Maker{Name: []byte(it.id)}, nil); !errors.Is(err, it.want) {
			t.Errorf("as %s: %v, not %v", it.id, err, it.want)
		}
	}
	close(opens)
	<-said
	if err := life.Remake(ctx, plugin.Maker{Name: []byte("n1")}, nil); !errors.Is(err, plugin.BadRecord) {
		t.Errorf("it isn't the record of the other one: %v", err)
	}
	stop()
	if err := <-ended; err != nil {
		t.Errorf("it ended by %v", err)
	}
}

// hangs is a store that can be read so often; then that hangs until it is let go on, and fails.
type hangs struct {
	store.Store
	loads                 int
	once                  sync.Once
	reads, goesOn, closed chan struct{}
	err                   error
}

func (hangs *hangs) Load(ctx context.Context) ([]store.Part, error) {
	if hangs.loads--; hangs.loads >= 0 {
		return hangs.Store.Load(ctx)
	}
	hangs.once.Do(func() { close(hangs.reads) })
	<-hangs.goesOn
	return nil, hangs.err
}

func (hangs *hangs) Close() error {
	defer close(hangs.closed)
	return hangs.Store.Close()
}

// hung is a life over such a store, and a channel that has something once it serves.
func hung(t *testing.T, loads int) (*Life, *hangs, <-chan string) {
	its := &hangs{loads: loads, reads: make(chan struct{}), goesOn: make(chan struct{}), closed: make(chan struct{}), err: errors.New("it can't be read")}
	socket, said := filepath.Join(t.TempDir(), "d", "s"), make(chan string, 9)
	return New(Driver{
		Program: "a test", Name: "a.example", Maker: plugin.Maker{Name: []byte("n1")}, Numbering: ByMetadata(1000),
		Open: func(ctx context.Context) (_ store.Store, err error) {
			its.Store, err = store.OpenSQLite(ctx, filepath.Join(filepath.Dir(filepath.Dir(socket)), "n.db"))
			return its, err
		},
		Doors: []Door{{Address: socket, Listen: func() (net.Listener, error) { return driver.Listen(socket) }}},
		Say:   func(line string) { said <- line },
	}), its, said
}

// What hangs holds up no end: the driver ends in time, and who has its plugin made anew isn't left waiting.
func TestHangs(t *testing.T) {
	life, its, said := hung(t, 1)
	life.most = 100 * time.Millisecond
	ctx, stop := context.WithCancel(context.Background())
	ran, remade := make(chan error, 1), make(chan error, 1)
	go func() { ran <- life.Run(ctx) }()
	<-said
	go func() { remade <- life.Remake(context.Background(), plugin.Maker{Name: []byte("n1")}, nil) }()
	<-its.reads
	stop()
	for ended, want := range map[<-chan error]error{ran: store.ErrDevice, remade: ErrEnded} {
		select {
		case err := <-ended:
			if !errors.Is(err, want) {
				t.Errorf("it ended by %v, not %v", err, want)
			}
		case <-time.After(2 * time.Second):
			t.Errorf("it hangs, and doesn't end by %v", want)
		}
	}
	close(its.goesOn)
	<-its.closed
}

// A plugin that is to be made anew isn't waited for any more once the driver has ended by itself.
func TestRemakeEnded(t *testing.T) {
	life, its, _ := hung(t, 0)
	ran, remade := make(chan error, 1), make(chan error, 1)
	go func() { ran <- life.Run(context.Background()) }()
	<-its.reads
	go func() { remade <- life.Remake(context.Background(), plugin.Maker{Name: []byte("n1")}, nil) }()
	select {
	case err := <-remade:
		t.Errorf("made anew before there is a record: %v", err)
	case <-time.After(20 * time.Millisecond):
	}
	close(its.goesOn)
	if err := <-ran; !errors.Is(err, its.err) {
		t.Errorf("it ended by %v", err)
	}
	select {
	case err := <-remade:
		if !errors.Is(err, ErrEnded) {
			t.Errorf("made anew: %v", err)
		}
	case <-time.After(within):
		t.Error("it waits for a driver that has ended")
	}
}

// Who connects and says nothing doesn't hold up the end of a driver.
func TestSilent(t *testing.T) {
	folder := t.TempDir()
	_, client, end := lived(t, folder, "n1")
	if err := stage(client, "1.1"); err != nil {
		t.Fatal(err)
	}
	silent, err := net.Dial("unix", filepath.Join(folder, "d", "s"))
	if err != nil {
		t.Fatal(err)
	}
	defer silent.Close()
	time.Sleep(100 * time.Millisecond) // until it is let in
	begun := time.Now()
	if err := end(); err != nil || time.Since(begun) > within {
		t.Errorf("it ended by %v, after %v", err, time.Since(begun))
	}
}
