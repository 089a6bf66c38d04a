package life

import (
	"context"
	"errors"
	"fmt"
	"net"
	"os"
	"path/filepath"
	"reflect"
	"sort"
	"strings"
	"sync"
	"testing"
	"time"

	"google.golang.org/grpc"
	"google.golang.org/grpc/codes"
	"google.golang.org/grpc/metadata"
	"google.golang.org/grpc/status"

	"tufayon/service/api/wire"
	"tufayon/service/driver"
	"tufayon/service/hooks"
	"tufayon/service/mounting"
	"tufayon/service/numbers"
	"tufayon/service/plugin"
	"tufayon/service/store"
	csi "tufayon/service/wire"
)

// A mounter keeps what it is asked to do, and fails, or waits, at some paths.
type mounter struct {
	mutex sync.Mutex
	did   []string
	fails map[string]error
	waits map[string]chan struct{}
}

func (mounter *mounter) Judge(hooks.Deed) error { return nil }

func (mounter *mounter) Do(ctx context.Context, deed hooks.Deed) (hooks.Answer, error) {
	text := fmt.Sprintf("%s %d %s", deed.Call, deed.Volume, deed.Staging)
	if deed.Target != "" {
		text += " " + deed.Target
	}
	if deed.Capability != nil {
		text += fmt.Sprintf(" %s %d", deed.Capability.FsType, deed.Capability.Mode)
	}
	if deed.Readonly {
		text += " readonly"
	}
	path := deed.Target
	if path == "" {
		path = deed.Staging
	}
	mounter.mutex.Lock()
	waits := mounter.waits[path]
	mounter.mutex.Unlock()
	if waits != nil {
		select {
		case <-waits:
		case <-ctx.Done():
			return hooks.Answer{}, ctx.Err()
		}
	}
	mounter.mutex.Lock()
	defer mounter.mutex.Unlock()
	mounter.did = append(mounter.did, text)
	return hooks.Answer{}, mounter.fails[path]
}

// takes gives what was done since, a volume's in order.
func (mounter *mounter) takes() []string {
	mounter.mutex.Lock()
	defer mounter.mutex.Unlock()
	did := mounter.did
	mounter.did = nil
	sort.SliceStable(did, func(i, j int) bool { return strings.Fields(did[i])[1] < strings.Fields(did[j])[1] })
	return did
}

func (mounter *mounter) fail(path string, why error) {
	mounter.mutex.Lock()
	defer mounter.mutex.Unlock()
	mounter.fails[path] = why
}

// A machine has a node's driver over its disk, a folder, and is started again and again.
type machine struct {
	*testing.T
	folder string
	does   hooks.Hooks
	start  string // this one
	call   int    // the number of the last one

	client   csi.NodeClient
	plugin   wire.PluginClient
	said     chan string
	troubles chan string
	end      func()
}

// runs runs the driver, until the test ends, or machine.end is called.
func (machine *machine) runs() {
	machine.Helper()
	socket := filepath.Join(machine.folder, "d", "s")
	said, troubles, start := make(chan string, 9), make(chan string, 99), machine.start
	machine.said, machine.troubles = said, troubles
	life := New(Driver{
		Program: "a test", Name: "a.example", Maker: plugin.Maker{Name: []byte("n1")}, Numbering: ByMetadata(1000),
		Notes: filepath.Join(machine.folder, "n.db.driver"), Starts: filepath.Join(machine.folder, "n.db.boot"), Start: func() string { return start },
		Open: func(ctx context.Context) (store.Store, error) {
			return store.OpenSQLite(ctx, filepath.Join(machine.folder, "n.db"))
		},
		Hooks: machine.does, Doors: []Door{{Address: socket, Listen: func() (net.Listener, error) { return driver.Listen(socket) }}},
		Say: func(line string) { said <- line }, Trouble: func(text string) { troubles <- text },
	})
	ctx, stop := context.WithCancel(context.Background())
	ended := make(chan error, 1)
	go func() { ended <- life.Run(ctx) }()
	connection, err := grpc.Dial("unix://"+socket, grpc.WithInsecure(), grpc.WithDefaultCallOptions(grpc.WaitForReady(true)))
	if err != nil {
		machine.Fatal(err)
	}
	machine.client, machine.plugin = csi.NewNodeClient(connection), wire.NewPluginClient(connection)
	var once sync.Once
	machine.end = func() {
		once.Do(func() {
			connection.Close()
			stop()
			if err := <-ended; err != nil {
				machine.Errorf("it ended by %v", err)
			}
		})
	}
	machine.Cleanup(machine.end)
}

func (machine *machine) serves() {
	machine.Helper()
	select {
	case <-machine.said:
	case <-time.After(within):
		machine.Fatal("it doesn't serve")
	}
}

// again ends the driver, and runs it in this start of the machine.
func (machine *machine) again(start string) {
	machine.Helper()
	machine.end()
	machine.start = start
	machine.runs()
	machine.must(machine.confirms(machine.call))
	machine.serves()
}

// confirms tells which call was acknowledged last.
func (machine *machine) confirms(call int) error {
	ctx, cancel := context.WithTimeout(context.Background(), within)
	defer cancel()
	_, err := machine.plugin.Confirm(ctx, &wire.ConfirmRequest{Heard: &wire.Number{Session: 1, Call: uint64(call)}})
	return err
}

// calls makes a call under the next number.
func (machine *machine) calls(call func(context.Context) error) error {
	machine.call++
	number := fmt.Sprintf("1.%d", machine.call)
	ctx, cancel := context.WithTimeout(metadata.AppendToOutgoingContext(context.Background(), numbers.Key, number), within)
	defer cancel()
	return call(ctx)
}

var shared = &csi.VolumeCapability{
	AccessType: &csi.VolumeCapability_Mount{Mount: &csi.VolumeCapability_MountVolume{FsType: "ext4"}},
	AccessMode: &csi.VolumeCapability_AccessMode{Mode: csi.VolumeCapability_AccessMode_MULTI_NODE_MULTI_WRITER},
}

func (machine *machine) stage(volume, path string) error {
	return machine.calls(func(ctx context.Context) error {
		_, err := machine.client.NodeStageVolume(ctx, &csi.NodeStageVolumeRequest{VolumeId: volume, StagingTargetPath: path, VolumeCapability: shared})
		return err
	})
}

func (machine *machine) unstage(volume, path string) error {
	return machine.calls(func(ctx context.Context) error {
		_, err := machine.client.NodeUnstageVolume(ctx, &csi.NodeUnstageVolumeRequest{VolumeId: volume, StagingTargetPath: path})
		return err
	})
}

func (machine *machine) publish(volume, staging, target string, readonly bool) error {
	return machine.calls(func(ctx context.Context) error {
		_, err := machine.client.NodePublishVolume(ctx, &csi.NodePublishVolumeRequest{
			VolumeId: volume, StagingTargetPath: staging, TargetPath: target, VolumeCapability: shared, Readonly: readonly,
		})
		return err
	})
}

func (machine *machine) unpublish(volume, target string) error {
	return machine.calls(func(ctx context.Context) error {
		_, err := machine.client.NodeUnpublishVolume(ctx, &csi.NodeUnpublishVolumeRequest{VolumeId: volume, TargetPath: target})
		return err
	})
}

func (machine *machine) must(errs ...error) {
	machine.Helper()
	for at, err := range errs {
		if err != nil {
			machine.Fatalf("call %d: %v", at, err)
		}
	}
}

// keeps fails unless the file soon says that in this start all is as the record has it; or that it was so in another one.
func (machine *machine) keeps(want string) {
	machine.Helper()
	var kept []byte
	for until := time.Now().Add(within); time.Now().Before(until); time.Sleep(5 * time.Millisecond) {
		if kept, _ = os.ReadFile(filepath.Join(machine.folder, "n.db.boot")); string(kept) == want {
			return
		}
	}
	machine.Errorf("the file has %q, not %q", kept, want)
}

// wantsTrouble waits until this is told.
func (machine *machine) wantsTrouble(want string) {
	machine.Helper()
	told := "nothing"
	for until := time.After(within); ; {
		select {
		case told = <-machine.troubles:
			if told == want {
				return
			}
		case <-until:
			machine.Fatalf("last it told %q, and never %q", told, want)
		}
	}
}

// newMachine has volume 1 published at /t1, and readonly at /t2; volume 2 staged; and volume 3, which was.
func newMachine(t *testing.T) (*machine, *mounter) {
	t.Helper()
	does := &mounter{fails: map[string]error{}, waits: map[string]chan struct{}{}}
	made := &machine{T: t, folder: t.TempDir(), does: does, start: "a"}
	made.runs()
	made.serves()
	made.must(
		made.stage("1", "/s1"), made.publish("1", "/s1", "/t1", false), made.publish("1", "/s1", "/t2", true),
		made.stage("2", "/s2"), made.stage("3", "/s3"), made.unstage("3", "/s3"),
	)
	does.takes()
	made.keeps("a")
	return made, does
}

var all = []string{
	"NodeStageVolume 1 /s1 ext4 5", "NodePublishVolume 1 /s1 /t1 ext4 5", "NodePublishVolume 1 /s1 /t2 ext4 5 readonly", "NodeStageVolume 2 /s2 ext4 5",
}

// After a start of the machine all is staged and published anew that the record has, once, before it is said that the driver serves.
func TestAnew(t *testing.T) {
	machine, does := newMachine(t)
	for _, it := range []struct {
		start string
		want  []string
	}{{"a", nil}, {"b", all}, {"b", nil}, {"", all}, {"", all}, {"c", all}, {"c", nil}} {
		machine.again(it.start)
		if did := does.takes(); !reflect.DeepEqual(did, it.want) {
			t.Errorf("in the start %q: %q", it.start, did)
		}
		machine.keeps(it.start)
	}
	if err := machine.publish("2", "/s2", "/t", false); err != nil {
		t.Error(err)
	}
}

// What fails is told, by its path, and tried again; other volumes, and other targets, go on. Until then the volume is published nowhere else.
func TestAnewFails(t *testing.T) {
	machine, does := newMachine(t)
	does.fail("/t1", errors.New("it isn't empty"))
	machine.again("b")
	if did := does.takes(); !reflect.DeepEqual(did, all) {
		t.Errorf("it did %q", did)
	}
	const why = "its machine was started again: volume 1 isn't mounted: /t1: it isn't empty"
	machine.wantsTrouble(why)
	stream, err := machine.plugin.Troubles(context.Background(), &wire.TroublesRequest{})
	machine.must(err)
	for said := ""; said != why; {
		response, err := stream.Recv()
		machine.must(err)
		said = response.Trouble
		if its := response.Unmounted; said == why && (len(its) != 1 || its[0].Volume != 1 || its[0].Why != "/t1: it isn't empty") {
			t.Errorf("not mounted: %v", its)
		}
	}
	if err := machine.publish("1", "/s1", "/t3", false); status.Code(err) != codes.Unavailable || !strings.Contains(err.Error(), "/t1: it isn't empty") {
		t.Errorf("published elsewhere: %v", err)
	}
	machine.must(machine.publish("2", "/s2", "/t4", false), machine.unpublish("2", "/t4"))
	machine.keeps("a")
	does.fail("/t1", nil)
	machine.wantsTrouble("")
	if response, err := stream.Recv(); err != nil || response.Trouble != "" || len(response.Unmounted) != 0 {
		t.Errorf("it says %v, %v", response, err)
	}
	machine.keeps("b")
	machine.must(machine.publish("1", "/s1", "/t3", false))
}

// What fails can be undone, and then nothing is left of it.
func TestAnewUndone(t *testing.T) {
	machine, does := newMachine(t)
	does.fail("/s1", errors.New("there is no device"))
	does.fail("/s2", errors.New("there is no device"))
	machine.again("b")
	machine.wantsTrouble("its machine was started again: volume 1 isn't mounted: /s1: there is no device (and others: 1)")
	machine.must(machine.unpublish("1", "/t1"), machine.unpublish("1", "/t2"))
	does.fail("/s1", nil)
	machine.must(machine.unstage("1", "/s1"))
	machine.wantsTrouble("its machine was started again: volume 2 isn't mounted: /s2: there is no device")
	machine.end()
	machine.keeps("a") // so the next start tries it again
	does.takes()
	does.fail("/s2", nil)
	machine.again("b")
	if did := does.takes(); !reflect.DeepEqual(did, all[3:]) {
		t.Errorf("it did %q", did)
	}
	machine.keeps("b")
}

// While a volume is staged anew its calls wait, and those of others don't.
func TestAnewWaits(t *testing.T) {
	machine, does := newMachine(t)
	machine.end()
	goesOn := make(chan struct{})
	does.waits["/s1"], machine.start = goesOn, "b"
	machine.runs()
	machine.must(machine.confirms(1))
	for len(does.takes()) == 0 { // volume 2 is staged, and so volume 1 is being staged too, or next
		time.Sleep(5 * time.Millisecond)
	}
	time.Sleep(50 * time.Millisecond)
	undone := make(chan error, 1)
	client := machine.client
	go func() {
		ctx, cancel := context.WithTimeout(metadata.AppendToOutgoingContext(context.Background(), numbers.Key, "1.90"), within)
		defer cancel()
		_, err := client.NodeUnpublishVolume(ctx, &csi.NodeUnpublishVolumeRequest{VolumeId: "1", TargetPath: "/t1"})
		undone <- err
	}()
	machine.must(machine.publish("2", "/s2", "/t4", false))
	select {
	case err := <-undone:
		t.Errorf("it didn't wait: %v", err)
	case <-machine.said:
		t.Error("it says that it serves")
	case <-time.After(50 * time.Millisecond):
	}
	close(goesOn)
	machine.must(<-undone)
	machine.serves()
	if did := does.takes(); len(did) != 5 || !reflect.DeepEqual(did[:4], append(append([]string{}, all[:3]...), "NodeUnpublishVolume 1 /s1 /t1")) {
		t.Errorf("it did %q", did)
	}
}

// Before it is confirmed that the store is no older copy nothing is mounted, and by one nothing is. What calls ask for is done, but for publications.
func TestAnewUnsure(t *testing.T) {
	machine, does := newMachine(t)
	machine.end()
	machine.start = "b"
	machine.runs()
	for count := 0; count < 2; count++ {
		if err := machine.publish("2", "/s2", "/t4", false); status.Code(err) != codes.Unavailable {
			t.Errorf("published: %v", err)
		}
		if err := machine.confirms(machine.call + 1); status.Code(err) != codes.FailedPrecondition {
			t.Errorf("an older copy is confirmed: %v", err)
		}
		machine.wantsTrouble("its store is an older copy, or another's: nothing is mounted by it")
		if count == 0 {
			machine.troubles <- "its store is an older copy, or another's: nothing is mounted by it" // it isn't told twice
		}
	}
	// Declared lost, it would have to be another one, that joins with a later session.
	if _, err := machine.plugin.Confirm(context.Background(), &wire.ConfirmRequest{Heard: &wire.Number{Session: 2}}); status.Code(err) != codes.FailedPrecondition {
		t.Errorf("a lost one is confirmed: %v", err)
	}
	machine.must(machine.unpublish("1", "/t1"))
	if did := does.takes(); !reflect.DeepEqual(did, []string{"NodeUnpublishVolume 1 /s1 /t1"}) {
		t.Errorf("it did %q", did)
	}
	machine.must(machine.confirms(machine.call))
	machine.wantsTrouble("")
	if did := does.takes(); !reflect.DeepEqual(did, []string{all[0], all[2], all[3]}) {
		t.Errorf("it did %q", did)
	}
	machine.serves()
}

// With real mounts: they are there again, and nothing is mounted over what somebody wrote meanwhile.
func TestAnewMounted(t *testing.T) {
	needsMounts(t)
	folder := t.TempDir()
	at := func(name string) string { return filepath.Join(folder, name) }
	machine := &machine{T: t, folder: folder, does: mounting.Mounts{}, start: "a"}
	machine.runs()
	machine.serves()
	for _, volume := range []string{"1", "2"} {
		machine.must(machine.stage(volume, at("s"+volume)), os.WriteFile(at("s"+volume+"/file"), nil, 0o600), machine.publish(volume, at("s"+volume), at("t"+volume), volume == "2"))
	}
	machine.end()
	machine.must(unmount(at("t1")), unmount(at("t2")), os.WriteFile(at("t1/written"), nil, 0o600))
	machine.again("b")
	machine.wantsTrouble("its machine was started again: volume 1 isn't mounted: " + at("t1") + ": the directory isn't empty")
	if _, err := os.Stat(at("t1/file")); err == nil {
		t.Error("it is mounted over a file")
	}
	if err := os.WriteFile(at("t2/more"), nil, 0o600); err == nil || !isThere(at("t2/file")) {
		t.Errorf("volume 2 isn't there, or not readonly: %v", err)
	}
	machine.must(os.Remove(at("t1/written")))
	machine.wantsTrouble("")
	if !isThere(at("t1/file")) {
		t.Error("volume 1 isn't there")
	}
	machine.must(machine.unpublish("1", at("t1")), machine.unpublish("2", at("t2")))
}

// This start of the machine is always told alike.
func TestMachineStart(t *testing.T) {
	if start := machineStart(); len(strings.Fields(start)) != 2 || start != machineStart() {
		t.Errorf("this start is %q", start)
	}
}
