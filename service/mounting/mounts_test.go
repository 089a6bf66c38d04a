package mounting

import (
	"context"
	"errors"
	"os"
	"path/filepath"
	"reflect"
	"runtime"
	"strings"
	"testing"
	"time"

	"golang.org/x/sys/unix"

	"tufayon/service/frames"
	"tufayon/service/hooks"
)

var mountHow = frames.Capability{Mount: true, FsType: "ext4", Mode: 5}

// A box is a folder with volumes: each is staged in a folder of its own, which has a file of its name.
type box struct {
	*testing.T
	folder string
}

func newBox(t *testing.T) box {
	t.Helper()
	needsMounts(t)
	folder := filepath.Join(t.TempDir(), "a b\\c\nd\te") // as mountinfo can't write it
	made := box{t, folder}
	made.must(os.Mkdir(folder, 0o700))
	t.Cleanup(func() {
		for {
			left, err := mounts(func(it mount) bool { return strings.HasPrefix(it.point, folder+"/") })
			if err != nil || len(left) == 0 {
				return
			}
			if err := unix.Unmount(left[len(left)-1].point, unix.MNT_DETACH); err != nil {
				t.Error(err)
				return
			}
		}
	})
	return made
}

func (box box) must(err error) {
	box.Helper()
	if err != nil {
		box.Fatal(err)
	}
}

func (box box) at(name string) string { return filepath.Join(box.folder, name) }

func (box box) does(deed hooks.Deed) error {
	_, err := Mounts{}.Do(context.Background(), deed)
	return err
}

// stages stages a volume.
func (box box) stages(name string) {
	box.Helper()
	box.must(box.does(hooks.Deed{Call: "NodeStageVolume", Staging: box.at(name), Capability: &mountHow}))
	box.must(os.WriteFile(filepath.Join(box.at(name), filepath.Base(name)), []byte(name), 0o600))
}

func (box box) publication(volume, target string) hooks.Deed {
	return hooks.Deed{Call: "NodePublishVolume", Staging: box.at(volume), Target: box.at(target), Capability: &mountHow}
}

func (box box) unpublishes(volume, target string) error {
	return box.does(hooks.Deed{Call: "NodeUnpublishVolume", Staging: box.at(volume), Target: box.at(target)})
}

// tmpfs mounts somebody else's file system.
func (box box) tmpfs(at string, flags uintptr) {
	box.Helper()
	box.must(unix.Mount("none", box.at(at), "tmpfs", flags, ""))
}

// wantsMounts fails unless so many mounts are at the target.
func (box box) wantsMounts(target string, want int) {
	box.Helper()
	there, err := mounts(func(it mount) bool { return it.point == box.at(target) })
	if err != nil || len(there) != want {
		box.Errorf("at %s are %d mounts, %v", target, len(there), err)
	}
}

// wantsFile fails unless a file is there, or isn't.
func (box box) wantsFile(name string, want bool) {
	box.Helper()
	if _, err := os.Lstat(box.at(name)); (err == nil) != want {
		box.Errorf("%s: %v", name, err)
	}
}

func (box box) wants(err, want error) {
	box.Helper()
	if !errors.Is(err, want) {
		box.Errorf("%v, not %v", err, want)
	}
}

// A volume is at its target once, however often it is asked for, and gone after it was undone, as often.
func TestPublish(t *testing.T) {
	box := newBox(t)
	box.stages("v")
	for range []int{1, 2, 3} {
		box.must(box.does(box.publication("v", "t")))
		box.wantsMounts("t", 1)
		box.wantsFile("t/v", true)
	}
	for range []int{1, 2} {
		box.must(box.unpublishes("v", "t"))
		box.wantsFile("t", false)
	}
	box.wantsFile("v/v", true)
	// After a restart of the machine nothing is mounted: it is published anew, or what is left is taken out.
	for _, again := range []bool{true, false} {
		box.must(box.does(box.publication("v", "t")))
		box.must(unix.Unmount(box.at("t"), 0))
		if again {
			box.must(box.does(box.publication("v", "t")))
			box.wantsMounts("t", 1)
		}
		box.must(box.unpublishes("v", "t"))
		box.wantsFile("t", false)
	}
}

// What is mounted at the target is compared with the volume: anything else is an error, and stays.
func TestOther(t *testing.T) {
	box := newBox(t)
	box.stages("v")
	box.stages("w")
	box.must(os.Mkdir(box.at("v/part"), 0o700))
	box.must(box.does(box.publication("v", "t")))
	box.must(os.Mkdir(box.at("other"), 0o700))
	box.tmpfs("other", 0)
	for _, publication := range []hooks.Deed{
		box.publication("w", "t"), box.publication("v/part", "t"), box.publication("v", "other"),
	} {
		box.wants(box.does(publication), ErrOther)
		publication.Readonly = true
		box.wants(box.does(publication), ErrOther)
	}
	box.wantsMounts("t", 1)
	box.wantsMounts("other", 1)
	box.must(os.WriteFile(box.at("t/more"), nil, 0o600)) // not readonly
	box.must(os.WriteFile(box.at("other/more"), nil, 0o600))
	// Undone is only what is the volume's.
	for _, volume := range []string{"w", "v/part"} {
		box.must(box.unpublishes(volume, "t"))
		box.wantsMounts("t", 1)
	}
	box.must(box.unpublishes("v", "other"))
	box.wantsMounts("other", 1)
	box.wantsFile("other/more", true)
	// A volume that somebody else's mount covers isn't undone.
	box.tmpfs("t", 0)
	box.wants(box.unpublishes("v", "t"), ErrOther)
	box.wantsMounts("t", 2)
	box.must(unix.Unmount(box.at("t"), 0))
	box.must(box.unpublishes("v", "t"))
	box.wantsFile("t", false)
	if err := box.unpublishes("gone", "other"); err == nil {
		t.Error("what can't be compared was undone")
	}
	box.wantsMounts("other", 1)
}

// A volume whose folder is below a bind mount is known by the file system's own path.
func TestBelowMount(t *testing.T) {
	box := newBox(t)
	box.must(os.MkdirAll(box.at("real/inner"), 0o700))
	box.must(os.Mkdir(box.at("data"), 0o700))
	box.must(unix.Mount(box.at("real"), box.at("data"), "", unix.MS_BIND, ""))
	box.stages("data/inner/v")
	for range []int{1, 2} {
		box.must(box.does(box.publication("data/inner/v", "t")))
	}
	box.wantsMounts("t", 1)
	box.must(box.does(box.publication("real/inner/v", "t"))) // the same folder
	box.must(box.unpublishes("data/inner/v", "t"))
	box.wantsFile("t", false)
}

// flagsOf are those of the mount at a path, as statfs tells them.
func flagsOf(t *testing.T, path string) int64 {
	t.Helper()
	var status unix.Statfs_t
	if err := unix.Statfs(path, &status); err != nil {
		t.Fatal(err)
	}
	return status.Flags & (unix.ST_RDONLY | unix.ST_NOSUID | unix.ST_NODEV | unix.ST_NOEXEC | unix.ST_NOATIME)
}

// A readonly target keeps the flags of the volume's own mount, and has its own; a publication that is repeated puts in what is missing.
func TestFlags(t *testing.T) {
	box := newBox(t)
	box.must(os.Mkdir(box.at("v"), 0o700))
	const safe = unix.ST_NOSUID | unix.ST_NODEV | unix.ST_NOEXEC
	box.tmpfs("v", unix.MS_NOSUID|unix.MS_NODEV|unix.MS_NOEXEC)
	for _, it := range []struct {
		target   string
		readonly bool
		flags    []string
		want     int64
	}{
		{"plain", false, nil, safe},
		{"readonly", true, nil, safe | unix.ST_RDONLY},
		{"flag", false, []string{"ro", "noatime"}, safe | unix.ST_RDONLY | unix.ST_NOATIME},
		{"twice", false, nil, safe},
		{"twice", true, []string{"noatime"}, safe | unix.ST_RDONLY | unix.ST_NOATIME},
	} {
		publication := box.publication("v", it.target)
		publication.Readonly, publication.Private.MountFlags = it.readonly, it.flags
		box.must(box.does(publication))
		if came := flagsOf(t, box.at(it.target)); came != it.want {
			t.Errorf("%s has the flags %#x, not %#x", it.target, came, it.want)
		}
		err := os.WriteFile(filepath.Join(box.at(it.target), "file"), nil, 0o600)
		if isReadonly := it.want&unix.ST_RDONLY != 0; isReadonly != errors.Is(err, unix.EROFS) {
			t.Errorf("%s is written: %v", it.target, err)
		}
	}
	if came := flagsOf(t, box.at("v")); came != safe {
		t.Errorf("the volume's own mount has the flags %#x", came)
	}
	box.stages("w")
	publication := box.publication("w", "own")
	publication.Private.MountFlags = []string{"noexec", "nosuid", "nodev", "rw"}
	box.must(box.does(publication))
	if came := flagsOf(t, box.at("own")) & safe; came != safe {
		t.Errorf("own has the flags %#x", came)
	}
}

// A target in which something is, and one that is no directory, get no mount, and stay.
func TestTaken(t *testing.T) {
	box := newBox(t)
	box.stages("v")
	box.must(os.MkdirAll(box.at("full/inner"), 0o700))
	box.must(os.WriteFile(box.at("file"), []byte("content"), 0o600))
	box.must(os.WriteFile(box.at("empty"), nil, 0o600))
	for _, target := range []string{"full", "file"} {
		if err := box.does(box.publication("v", target)); err == nil {
			t.Errorf("published at %s", target)
		}
		box.wantsMounts(target, 0)
		box.must(box.unpublishes("v", target))
		box.wantsFile(target, true)
	}
	box.wantsFile("full/inner", true)
	box.must(box.unpublishes("v", "empty")) // as earlier drivers published a block device
	box.wantsFile("empty", false)
	box.must(box.unpublishes("v", "missing/inner"))
	if err := box.does(box.publication("v", "missing/inner")); !errors.Is(err, os.ErrNotExist) {
		t.Errorf("published in a directory that isn't there: %v", err)
	}
	if err := box.does(box.publication("missing", "t")); !errors.Is(err, os.ErrNotExist) {
		t.Errorf("a volume that isn't staged: %v", err)
	}
	box.wantsFile("t", false)
}

// Where nothing can be made nor taken out a volume is published at a directory that is there, and undone.
func TestReadonlyPlace(t *testing.T) {
	box := newBox(t)
	box.stages("v")
	box.must(os.Mkdir(box.at("ro"), 0o700))
	box.tmpfs("ro", 0)
	box.must(os.Mkdir(box.at("ro/there"), 0o700))
	box.must(os.WriteFile(box.at("ro/file"), nil, 0o600))
	box.tmpfs("ro", unix.MS_REMOUNT|unix.MS_RDONLY)
	box.must(box.does(box.publication("v", "ro/there")))
	box.wants(box.does(box.publication("v", "ro/missing")), unix.EROFS)
	for _, target := range []string{"ro/there", "ro/missing", "ro/file", "ro/there"} {
		if err := box.unpublishes("v", target); err != nil {
			t.Errorf("undone at %s: %v", target, err)
		}
		box.wantsMounts(target, 0)
	}
	box.wantsFile("ro/there", true)
}

// No link is followed, and no parent directory named.
func TestPaths(t *testing.T) {
	box := newBox(t)
	box.stages("v")
	box.must(os.Mkdir(box.at("elsewhere"), 0o700))
	box.must(os.Symlink(box.at("elsewhere"), box.at("link")))
	for _, it := range []struct {
		deed hooks.Deed
		want error
	}{
		{box.publication("v", "link"), ErrLink},
		{box.publication("v", "link/t"), ErrLink},
		{box.publication("link", "t"), ErrLink},
		{hooks.Deed{Call: "NodeStageVolume", Staging: box.at("link"), Capability: &mountHow}, ErrLink},
		{hooks.Deed{Call: "NodeStageVolume", Staging: box.at("link/v"), Capability: &mountHow}, ErrLink},
		{hooks.Deed{Call: "NodeStageVolume", Staging: box.folder + "/v/../w", Capability: &mountHow}, ErrPath},
		{hooks.Deed{Call: "NodeStageVolume", Staging: "w", Capability: &mountHow}, ErrPath},
		{hooks.Deed{Call: "NodePublishVolume", Staging: box.at("v"), Target: box.folder + "/v/../t", Capability: &mountHow}, ErrPath},
		{hooks.Deed{Call: "NodePublishVolume", Staging: box.at("v"), Target: "/", Capability: &mountHow}, ErrPath},
		{hooks.Deed{Call: "NodeUnpublishVolume", Staging: box.at("v"), Target: box.folder + "/v/.."}, ErrPath},
	} {
		if err := box.does(it.deed); !errors.Is(err, it.want) {
			t.Errorf("%+v: %v", it.deed, err)
		}
	}
	if left, err := os.ReadDir(box.at("elsewhere")); err != nil || len(left) > 0 {
		t.Errorf("behind the link are %v, %v", left, err)
	}
	box.wantsMounts("elsewhere", 0)
	box.wantsFile("t", false)
	// A second slash, and `.`, lead nowhere else.
	publication := box.publication("v", "t")
	publication.Target = box.folder + "//./t/"
	box.must(box.does(publication))
	box.wantsMounts("t", 1)
	box.must(box.does(box.publication("v", "t")))
	box.wantsMounts("t", 1)
}

// At a target that isn't reached nothing is published, and to undo that is done: else the volume would be published there for ever. Where the volume is
// mounted that isn't known.
func TestUnreached(t *testing.T) {
	box := newBox(t)
	box.stages("v")
	box.tmpfs("v", 0) // as a command may have done
	box.must(os.WriteFile(box.at("file"), nil, 0o600))
	box.must(os.Mkdir(box.at("elsewhere"), 0o700))
	box.must(os.Symlink(box.at("elsewhere"), box.at("link")))
	for _, isMounted := range []bool{false, true} {
		if isMounted {
			box.must(box.does(box.publication("v", "t")))
		}
		for _, target := range []string{box.at("link/t"), box.at("link"), box.at("file/t"), "/"} {
			deed := hooks.Deed{Call: "NodePublishVolume", Staging: box.at("v"), Target: target, Capability: &mountHow}
			if err := box.does(deed); err == nil {
				t.Errorf("published at %s", target)
			}
			deed.Call = "NodeUnpublishVolume"
			if err := box.does(deed); (err != nil) != isMounted {
				t.Errorf("undone at %s, mounted %v: %v", target, isMounted, err)
			}
			deed.Staging = box.at("missing")
			if err := box.does(deed); err == nil {
				t.Errorf("undone at %s of a volume that isn't staged", target)
			}
		}
	}
	box.must(box.unpublishes("v", "t"))
	box.wantsFile("link", true)
}

// Where nothing may be mounted, a publication fails, and leaves nothing.
func TestForbidden(t *testing.T) {
	box := newBox(t)
	box.stages("v")
	box.must(box.does(box.publication("v", "there")))
	box.must(os.Mkdir(box.at("old"), 0o700))
	withoutAdmin(t, func() {
		box.wants(box.does(box.publication("v", "t")), unix.EPERM)
		box.wants(box.does(box.publication("v", "old")), unix.EPERM)
		readonly := box.publication("v", "there")
		readonly.Readonly = true
		box.wants(box.does(readonly), unix.EPERM)
		box.wants(box.unpublishes("v", "there"), unix.EPERM)
	})
	box.wantsFile("t", false)
	box.wantsFile("old", true) // it was there before
	box.wantsMounts("there", 1)
}

// withoutAdmin runs what may mount nothing.
func withoutAdmin(t *testing.T, run func()) {
	t.Helper()
	runtime.LockOSThread()
	defer runtime.UnlockOSThread()
	head := unix.CapUserHeader{Version: unix.LINUX_CAPABILITY_VERSION_3}
	var before [2]unix.CapUserData
	if err := unix.Capget(&head, &before[0]); err != nil {
		t.Fatal(err)
	}
	reduced := before
	reduced[0].Effective &^= 1 << unix.CAP_SYS_ADMIN
	if err := unix.Capset(&head, &reduced[0]); err != nil {
		t.Fatal(err)
	}
	run()
	if err := unix.Capset(&head, &before[0]); err != nil {
		t.Fatal(err)
	}
}

// A block device, and a flag that no bind mount has, are refused before anything is done, and where that was asked for anyway.
func TestJudge(t *testing.T) {
	folder := t.TempDir()
	block, flagged := frames.Capability{Mode: 1}, hooks.Private{MountFlags: []string{"noexec", "data=ordered"}}
	for _, it := range []struct {
		deed hooks.Deed
		want error
	}{
		{hooks.Deed{Call: "NodeStageVolume", Staging: folder + "/s", Capability: &block}, hooks.ErrBlock},
		{hooks.Deed{Call: "NodePublishVolume", Staging: folder, Target: folder + "/t", Capability: &block}, hooks.ErrBlock},
		{hooks.Deed{Call: "NodePublishVolume", Staging: folder, Target: folder + "/t", Capability: &mountHow, Private: flagged}, hooks.ErrFlags},
	} {
		if err := (Mounts{}).Judge(it.deed); !errors.Is(err, it.want) {
			t.Errorf("%s is judged by %v", it.deed.Call, err)
		}
		if _, err := (Mounts{}).Do(context.Background(), it.deed); !errors.Is(err, it.want) {
			t.Errorf("%s is done: %v", it.deed.Call, err)
		}
	}
	if left, err := os.ReadDir(folder); err != nil || len(left) > 0 {
		t.Errorf("made were %v, %v", left, err)
	}
	for _, deed := range []hooks.Deed{
		{Call: "NodeStageVolume", Capability: &mountHow}, {Call: "NodeUnpublishVolume"}, {Call: "NodePublishVolume", Capability: &mountHow, Readonly: true},
	} {
		if err := (Mounts{}).Judge(deed); err != nil {
			t.Errorf("%s is refused by %v", deed.Call, err)
		}
	}
}

// Of NFS the kernel lists each root as /, and mounts of one server's file system have one device: what they show is told by the device's name.
func TestNFS(t *testing.T) {
	const list = "40 35 0:50 / /mnt/n rw,relatime shared:3 - nfs4 h:/e rw,vers=4.2\n" +
		"41 35 0:50 / /t rw - nfs4 h:/e/s/5 rw\n" +
		"42 35 0:50 / /u rw - nfs4 h:/e/s\\0406 rw\n" +
		"43 35 0:51 / /v rw - nfs h:/ rw\n"
	found, err := readMounts([]byte(list), func(mount) bool { return true })
	want := []mount{
		{40, source{"0:50", "h:/e"}, "/mnt/n"}, {41, source{"0:50", "h:/e/s/5"}, "/t"}, {42, source{"0:50", "h:/e/s 6"}, "/u"}, {43, source{"0:51", "h:"}, "/v"},
	}
	if err != nil || !reflect.DeepEqual(found, want) {
		t.Errorf("%+v, %v", found, err)
	}
}

// A volume that is mounted below what was mounted above a directory of its target isn't taken for one that is unmounted.
func TestHidden(t *testing.T) {
	box := newBox(t)
	box.stages("v")
	for _, it := range []struct{ above, target string }{{"p", "p/t"}, {"q", "q/r/t"}} {
		box.must(os.MkdirAll(filepath.Dir(box.at(it.target)), 0o700))
		box.must(box.does(box.publication("v", it.target)))
		box.tmpfs(it.above, 0)
		box.wants(box.unpublishes("v", it.target), ErrOther)
		box.must(unix.Unmount(box.at(it.above), 0))
		box.wantsMounts(it.target, 1)
		box.must(box.unpublishes("v", it.target))
		box.wantsMounts(it.target, 0)
	}
}

// Of two volumes that are published at one target at once, one is.
func TestAtOnce(t *testing.T) {
	box := newBox(t)
	box.stages("v")
	box.stages("w")
	for round := 0; round < 200; round++ {
		came := make(chan error, 2)
		for _, volume := range []string{"v", "w"} {
			go func(deed hooks.Deed) { came <- box.does(deed) }(box.publication(volume, "t"))
		}
		if first, second := <-came, <-came; first == nil && second == nil {
			t.Errorf("round %d: both are published", round)
		}
		box.wantsMounts("t", 1)
		for _, volume := range []string{"v", "w"} {
			box.unpublishes(volume, "t") // one of them has nothing there
		}
		box.wantsMounts("t", 0)
	}
}

// A mount that hangs at one place holds up none at another.
func TestHungPlace(t *testing.T) {
	box := newBox(t)
	box.stages("v")
	leave := placed(box.at("hung"))
	box.must(box.does(box.publication("v", "t")))
	came := make(chan error, 1)
	go func() { came <- box.does(box.publication("v", "hung")) }()
	select {
	case err := <-came:
		t.Errorf("it didn't wait: %v", err)
	case <-time.After(50 * time.Millisecond):
	}
	leave()
	box.must(<-came)
	if len(placing.at) > 0 {
		t.Errorf("%d places are taken", len(placing.at))
	}
	box.must(box.unpublishes("v", "hung"))
	box.must(box.unpublishes("v", "t"))
}

// Lines of the list of mounts, as proc(5) has them.
func TestList(t *testing.T) {
	const list = "36 35 98:0 /mnt1 /mnt\\0402 rw,noatime master:1 - ext3 /dev/root rw,errors=continue\n" +
		"37 36 0:5 / /a\\134b\\012 rw - tmpfs none rw\n"
	found, err := readMounts([]byte(list), func(mount) bool { return true })
	want := []mount{{36, source{"98:0", "/mnt1"}, "/mnt 2"}, {37, source{"0:5", "/"}, "/a\\b\n"}}
	if err != nil || len(found) != 2 || found[0] != want[0] || found[1] != want[1] {
		t.Errorf("%+v, %v", found, err)
	}
	for _, bad := range []string{"36 35 98:0 /mnt1\n", "x 35 98:0 / / rw\n"} {
		if _, err := readMounts([]byte(bad), func(mount) bool { return true }); err == nil {
			t.Errorf("%q is read", bad)
		}
	}
}
