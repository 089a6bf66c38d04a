package hooks

import (
	"context"
	"fmt"
	"os"
	"os/exec"
	"path/filepath"
	"strconv"
	"strings"
	"syscall"
	"testing"
	"time"

	"golang.org/x/sys/unix"
)

// A place is a folder with a command, and with what that writes.
type place struct {
	*testing.T
	folder string
}

func newPlace(t *testing.T) place { return place{t, t.TempDir()} }

func (place place) at(name string) string { return filepath.Join(place.folder, name) }

// commands has a stage done by a script.
func (place place) commands(script string, within time.Duration) Commands {
	place.Helper()
	if err := os.WriteFile(place.at("hook"), []byte("#!/bin/sh\n"+script+"\n"), 0o700); err != nil {
		place.Fatal(err)
	}
	return Commands{Of: map[string]string{"NodeStageVolume": place.at("hook")}, Rest: None{}, Within: within, Locks: Locks{place.at("locks")}}
}

func (place place) has(name string) bool {
	_, err := os.Stat(place.at(name))
	return err == nil
}

// pid reads a process's id that a script wrote.
func (place place) pid(name string) int {
	place.Helper()
	for until := time.Now().Add(10 * time.Second); time.Now().Before(until); time.Sleep(5 * time.Millisecond) {
		said, _ := os.ReadFile(place.at(name))
		if id, err := strconv.Atoi(strings.TrimSpace(string(said))); err == nil {
			return id
		}
	}
	place.Fatalf("nothing writes %s", name)
	return 0
}

// lives says whether a process runs, and isn't only waited for.
func lives(id int) bool {
	status, err := os.ReadFile(fmt.Sprintf("/proc/%d/stat", id))
	if err != nil {
		return false
	}
	fields := strings.Fields(string(status)[strings.LastIndex(string(status), ")")+1:])
	return fields[0] != "Z" && fields[0] != "X"
}

func (place place) wantsDead(id int) {
	place.Helper()
	for until := time.Now().Add(10 * time.Second); lives(id); time.Sleep(5 * time.Millisecond) {
		if time.Now().After(until) {
			syscall.Kill(id, syscall.SIGKILL)
			place.Fatalf("process %d lives", id)
		}
	}
}

var stage = Deed{Call: "NodeStageVolume", Volume: 7, Staging: "/s", Private: Private{Secrets: map[string]string{"key": "hidden"}}}

// A command gets what it is asked in its environment, and what is private on its standard input alone.
func TestCommand(t *testing.T) {
	place := newPlace(t)
	commands := place.commands(fmt.Sprintf(`cat > %s; echo "$TUFAYON_CALL $TUFAYON_VOLUME $TUFAYON_STAGING" > %s; env > %s`,
		place.at("input"), place.at("asked"), place.at("env")), time.Minute)
	if _, err := commands.Do(context.Background(), stage); err != nil {
		t.Fatal(err)
	}
	for name, want := range map[string]string{"input": string(stage.Input()), "asked": "NodeStageVolume 7 /s\n"} {
		if said, err := os.ReadFile(place.at(name)); err != nil || string(said) != want {
			t.Errorf("%s is %q, %v, not %q", name, said, err, want)
		}
	}
	if said, _ := os.ReadFile(place.at("env")); strings.Contains(string(said), "hidden") {
		t.Error("a secret is in the environment")
	}
	if left, _ := os.ReadDir(place.at("locks")); len(left) != 0 {
		t.Errorf("%d locks are left", len(left))
	}
}

// A command that fails tells its last line, without what is private; one that takes too long, or that the driver ends, is killed with what it started.
func TestFailing(t *testing.T) {
	for name, row := range map[string]struct{ script, want string }{
		"errors":      {`echo one; echo "the disk burns" >&2; exit 1`, "the disk burns"},
		"output":      {`echo one; echo two; exit 1`, "two"},
		"nothing":     {`exit 3`, "HOOK: exit status 3"},
		"killed":      {`kill -9 $$`, "HOOK: signal: killed"},
		"a secret":    {`echo "no hidden thing" >&2; exit 1`, "no *** thing"},
		"no input":    {`exec < /dev/null; echo none; exit 1`, "none"},
		"much output": {`i=0; while [ $i -lt 3000 ]; do echo "a line that is long enough"; i=$((i+1)); done; echo last >&2; exit 1`, "last"},
	} {
		place := newPlace(t)
		_, err := place.commands(row.script, time.Minute).Do(context.Background(), stage)
		if err == nil || strings.ReplaceAll(err.Error(), place.at("hook"), "HOOK") != row.want {
			t.Errorf("%s: %v, not %s", name, err, row.want)
		}
	}
}

// Of a line that is too long the end is told: also where that begins within a secret nothing of it.
func TestFailingWithLongLine(t *testing.T) {
	for _, rest := range []int{1, 12, 20, 21} {
		deed := stage
		deed.Private.Secrets = map[string]string{"key": "0123456789-abcdefghij", "other": "ghij"}
		script := fmt.Sprintf(`printf 'no: 0123456789-abcdefghij' >&2; head -c %d /dev/zero | tr '\0' x >&2; exit 1`, 4096-rest)
		_, err := newPlace(t).commands(script, time.Minute).Do(context.Background(), deed)
		if want := "***" + strings.Repeat("x", 4096-rest); err == nil || err.Error() != want {
			t.Errorf("with %d bytes of it: %.40v..", rest, err)
		}
	}
}

// A command that writes without an end takes little room, whatever it writes to, and its last line is told.
func TestMuchOutput(t *testing.T) {
	const many = 20000000
	commands := newPlace(t).commands(fmt.Sprintf(`head -c %d /dev/zero; head -c %d /dev/zero >&2; echo >&2; echo "the end" >&2; sleep 1; exit 1`, many, many), time.Minute)
	ended := make(chan error, 1)
	go func() {
		_, err := commands.Do(context.Background(), stage)
		ended <- err
	}()
	least := int64(2 * many)
	for hasEnded := false; !hasEnded; time.Sleep(10 * time.Millisecond) {
		if size, room := scratched(); size >= 2*many && room < least {
			least = room
		}
		select {
		case err := <-ended:
			if hasEnded = true; err == nil || err.Error() != "the end" {
				t.Errorf("it ended by %.40v", err)
			}
		default:
		}
	}
	if least > 1<<20 {
		t.Errorf("what it wrote took %d bytes", least)
	}
}

// scratched is how many bytes the files have that a command of this process writes to, and how many of a disk they take.
func scratched() (size, room int64) {
	open, _ := filepath.Glob("/proc/self/fd/*")
	for _, it := range open {
		if name, err := os.Readlink(it); err != nil || !strings.HasPrefix(filepath.Base(name), "hook") || !strings.HasSuffix(name, " (deleted)") {
			continue
		}
		if status, err := os.Stat(it); err == nil {
			size += status.Size()
			room += status.Sys().(*syscall.Stat_t).Blocks * 512
		}
	}
	return size, room
}

// A secret of several lines, or with an end of the line that a shell takes away, isn't told either, whichever line of it is the last one.
func TestFailingWithLines(t *testing.T) {
	deed := stage
	deed.Private.Secrets = map[string]string{"ended": "k3y\n", "lines": "the first\r\n  the second\nx\n"}
	for script, want := range map[string]string{
		`echo "no k3y" >&2`:                              "no ***",
		`echo "no the second thing" >&2`:                 "no *** thing",
		`printf 'no the first\r\n  the second\nx\n' >&2`: "no ***",
		`printf 'the first\r\n  the second\nx' >&2`:      "***",
		`echo "the x" >&2`:                               "the x",
	} {
		_, err := newPlace(t).commands(script+"; exit 1", time.Minute).Do(context.Background(), deed)
		if err == nil || err.Error() != want {
			t.Errorf("%s: %v, not %s", script, err, want)
		}
	}
}

func TestSlow(t *testing.T) {
	for _, isEnded := range []bool{false, true} {
		place := newPlace(t)
		commands := place.commands(fmt.Sprintf("sleep 60 & echo $! > %s; wait", place.at("pid")), 300*time.Millisecond)
		ctx, end := context.WithCancel(context.Background())
		want := "it took longer than 300ms"
		if isEnded {
			commands.Within, want = time.Minute, "the driver ended it"
			go func() {
				place.pid("pid")
				end()
			}()
		}
		since := time.Now()
		_, err := commands.Do(ctx, stage)
		end()
		if err == nil || !strings.HasSuffix(err.Error(), want) || time.Since(since) > 20*time.Second {
			t.Errorf("%v, not %s, in %v", err, want, time.Since(since))
		}
		place.wantsDead(place.pid("pid"))
		if _, err := place.commands("exit 0", time.Minute).Do(context.Background(), stage); err != nil {
			t.Errorf("the next one: %v", err)
		}
	}
}

// What a command that succeeded left running lives on, and holds nothing up.
func TestDaemon(t *testing.T) {
	place := newPlace(t)
	commands := place.commands(fmt.Sprintf("sleep 60 & echo $! > %s", place.at("pid")), time.Minute)
	if _, err := commands.Do(context.Background(), stage); err != nil {
		t.Fatal(err)
	}
	id := place.pid("pid")
	since := time.Now()
	if _, err := place.commands("exit 0", time.Minute).Do(context.Background(), stage); err != nil || time.Since(since) > 5*time.Second {
		t.Errorf("the next one: %v, in %v", err, time.Since(since))
	}
	if !lives(id) {
		t.Error("what it left is dead")
	}
	syscall.Kill(id, syscall.SIGKILL)
}

// driven is the environment of this test's binary, run again as a driver that is killed while a command runs.
const driven = "TUFAYON_TEST_DRIVEN"

// unserved is that of the binary as a process that has a folder open whose server never answers.
const unserved = "TUFAYON_TEST_UNSERVED"

func TestMain(m *testing.M) {
	if folder := os.Getenv(unserved); folder != "" {
		if err := openUnserved(folder); err != nil {
			fmt.Fprintln(os.Stderr, err)
			os.Exit(1)
		}
		time.Sleep(time.Minute)
		os.Exit(0)
	}
	if folder := os.Getenv(driven); folder != "" {
		commands := Commands{Of: map[string]string{"NodeStageVolume": filepath.Join(folder, "hook")}, Within: time.Minute, Locks: Locks{filepath.Join(folder, "locks")}}
		commands.Do(context.Background(), stage)
		os.Exit(0)
	}
	os.Exit(m.Run())
}

// killedDriver has a script run by a driver of its own, and kills that while it runs.
func (place place) killedDriver(script string) {
	place.Helper()
	place.commands(script, time.Minute)
	driver := exec.Command(os.Args[0])
	driver.Env = append(os.Environ(), driven+"="+place.folder)
	if err := driver.Start(); err != nil {
		place.Fatal(err)
	}
	place.pid("pid")
	driver.Process.Kill()
	driver.Wait()
}

// A command of a driver that was killed runs on, with what it started, and the next deed at its volume ends them first, whatever does that deed; a deed
// at another volume doesn't.
func TestKilledDriver(t *testing.T) {
	place := newPlace(t)
	script := fmt.Sprintf(`(sleep 3; touch %s) & echo $! > %s; wait`, place.at("late"), place.at("pid"))
	for _, call := range []string{"NodeStageVolume", "NodeUnstageVolume"} {
		os.Remove(place.at("pid"))
		place.killedDriver(script)
		id := place.pid("pid")
		if !lives(id) {
			t.Fatal("it doesn't live on")
		}
		commands, deed := place.commands("exit 0", time.Minute), stage
		deed.Volume++
		if _, err := commands.Do(context.Background(), deed); err != nil || !lives(id) {
			t.Errorf("another volume: %v, and it lives: %v", err, lives(id))
		}
		deed = stage
		deed.Call = call
		if _, err := commands.Do(context.Background(), deed); err != nil || lives(id) {
			t.Errorf("%s: %v, and it lives: %v", call, err, lives(id))
		}
	}
	time.Sleep(10 * time.Millisecond)
	if place.has("late") {
		t.Error("it went on")
	}
}

// A command of a driver that was killed is found also where the folder of the locks is a link.
func TestKilledDriverByLink(t *testing.T) {
	place := newPlace(t)
	if err := os.Mkdir(place.at("elsewhere"), 0o700); err != nil {
		t.Fatal(err)
	}
	if err := os.Symlink("elsewhere", place.at("locks")); err != nil {
		t.Fatal(err)
	}
	place.killedDriver(fmt.Sprintf("echo $$ > %s; sleep 60", place.at("pid")))
	id := place.pid("pid")
	if _, err := place.commands("exit 0", time.Minute).Do(context.Background(), stage); err != nil || lives(id) {
		t.Errorf("%v, and it lives: %v", err, lives(id))
	}
}

// openUnserved mounts a file system of a server that never answers, opens it as far as no server is asked, and says so beside it.
func openUnserved(folder string) error {
	server, err := syscall.Open("/dev/fuse", syscall.O_RDWR, 0)
	if err != nil {
		return err
	}
	if err := syscall.Mount("none", folder, "fuse", 0, fmt.Sprintf("fd=%d,rootmode=40000,user_id=0,group_id=0", server)); err != nil {
		return err
	}
	if _, err := syscall.Open(folder, unix.O_PATH, 0); err != nil {
		return err
	}
	return os.WriteFile(folder+".open", nil, 0o600)
}

// What a process has open whose server is gone isn't waited for where the command of a driver that was killed is looked for.
func TestUnserved(t *testing.T) {
	place := newPlace(t)
	if err := os.Mkdir(place.at("mount"), 0o700); err != nil {
		t.Fatal(err)
	}
	other := exec.Command(os.Args[0])
	other.Env = append(os.Environ(), unserved+"="+place.at("mount"))
	other.SysProcAttr = &syscall.SysProcAttr{Unshareflags: syscall.CLONE_NEWNS}
	if err := other.Start(); err != nil {
		t.Skipf("left out, since there is no mount namespace: %v", err)
	}
	over := make(chan error, 1)
	go func() { over <- other.Wait() }()
	defer other.Process.Kill()
	for !place.has("mount.open") {
		select {
		case <-over:
			t.Skip("left out, since nothing of FUSE's may be mounted")
		case <-time.After(5 * time.Millisecond):
		}
	}
	place.killedDriver(fmt.Sprintf("echo $$ > %s; sleep 60", place.at("pid")))
	commands, ended := place.commands("exit 0", time.Minute), make(chan error, 1)
	go func() {
		_, err := commands.Do(context.Background(), stage)
		ended <- err
	}()
	select {
	case err := <-ended:
		if err != nil {
			t.Error(err)
		}
	case <-time.After(10 * time.Second):
		t.Error("it waits for who doesn't answer")
	}
	place.wantsDead(place.pid("pid"))
}

// What left the group of a command that is over, with its lock, isn't killed, and holds nothing up.
func TestKilledDriverWithDaemon(t *testing.T) {
	place := newPlace(t)
	place.killedDriver(fmt.Sprintf(`setsid sleep 60 & while ! pgrep -s $! > /dev/null; do :; done; echo $! > %s; sleep 60`, place.at("pid")))
	id := place.pid("pid")
	since := time.Now()
	if _, err := place.commands("exit 0", time.Minute).Do(context.Background(), stage); err != nil || time.Since(since) > 8*time.Second {
		t.Errorf("the next one: %v, in %v", err, time.Since(since))
	}
	if !lives(id) {
		t.Error("the daemon is dead")
	}
	syscall.Kill(id, syscall.SIGKILL)
}

// What nobody waits for is waited for, but not before who may wait for it has had the time to.
func TestReap(t *testing.T) {
	id, err := syscall.ForkExec("/bin/true", []string{"true"}, nil)
	if err != nil {
		t.Fatal(err)
	}
	isThere := func() bool { return isEndedChild(fmt.Sprint("/proc/", id)) }
	for until := time.Now().Add(10 * time.Second); !isThere(); time.Sleep(time.Millisecond) {
		if time.Now().After(until) {
			t.Fatal("it doesn't end")
		}
	}
	ended := reap(nil)
	if !ended[id] || !isThere() {
		t.Errorf("it was waited for at once, of %v", ended)
	}
	if ended = reap(ended); ended[id] || isThere() {
		t.Errorf("nobody waited for it, of %v", ended)
	}
}
