package program

import (
	"errors"
	"os"
	"os/exec"
	"os/signal"
	"path/filepath"
	"regexp"
	"strconv"
	"strings"
	"syscall"
	"testing"
	"time"
)

// SIGHUP, before files are read anew by it and after, ends nothing: else this test would end.
func TestSignals(t *testing.T) {
	ctx, stop := Signals()
	defer stop()
	hangUp := func() {
		if err := syscall.Kill(os.Getpid(), syscall.SIGHUP); err != nil {
			t.Fatal(err)
		}
		time.Sleep(50 * time.Millisecond)
	}
	hangUp()
	anew := make(chan os.Signal, 1)
	signal.Notify(anew, syscall.SIGHUP)
	hangUp()
	signal.Stop(anew)
	hangUp()
	if len(anew) != 1 || ctx.Err() != nil {
		t.Errorf("it came %d times to who wants it, and %v", len(anew), ctx.Err())
	}
}

const unread = "TUFAYON_TEST_UNREAD" // in the environment of the process whose standard error nobody reads

// A process goes on whose standard error nobody reads any more, and what it starts is ended by such a pipe, as ever.
func TestUnread(t *testing.T) {
	if os.Getenv(unread) != "" {
		_, stop := Signals()
		defer stop()
		if _, err := os.Stderr.WriteString("a line\n"); !errors.Is(err, syscall.EPIPE) {
			t.Errorf("it is written: %v", err)
		}
		started := exec.Command("sh", "-c", "kill -s PIPE $$")
		if err := started.Run(); err == nil || started.ProcessState.String() != "signal: broken pipe" {
			t.Errorf("what it starts: %v", err)
		}
		return
	}
	reader, writer, err := os.Pipe()
	if err != nil {
		t.Fatal(err)
	}
	defer writer.Close()
	reader.Close()
	process := exec.Command("/proc/self/exe", "-test.run", "^TestUnread$")
	process.Env, process.Stderr = append(os.Environ(), unread+"=1"), writer
	if said, err := process.Output(); err != nil {
		t.Errorf("%v: %s", err, said)
	}
}

const hanging = "TUFAYON_TEST_HANGING" // in the environment of the process that the watchdog ends

// A unit starts a process again that systemd's watchdog ended, by SIGABRT, as one that panics: Go has a status of its own for both.
func TestUnits(t *testing.T) {
	if os.Getenv(hanging) != "" {
		os.Stdout.WriteString("\n")
		time.Sleep(time.Hour)
	}
	process := exec.Command("/proc/self/exe", "-test.run", "^TestUnits$")
	process.Env = append(os.Environ(), hanging+"=1")
	said, err := process.StdoutPipe()
	if err == nil {
		err = process.Start()
	}
	if err != nil {
		t.Fatal(err)
	}
	said.Read(make([]byte, 1)) // it hangs by now
	process.Process.Signal(syscall.SIGABRT)
	process.Wait()
	units, err := filepath.Glob("../../deploy/systemd/*.service")
	if err != nil || len(units) != 3 {
		t.Fatalf("the units are %v, %v", units, err)
	}
	for _, unit := range units {
		content, err := os.ReadFile(unit)
		if err != nil {
			t.Fatal(err)
		}
		found := regexp.MustCompile(`(?m)^RestartPreventExitStatus=(.*)$`).FindSubmatch(content)
		if found == nil {
			t.Fatalf("%s starts a process again for ever that has a fault", unit)
		}
		for _, status := range strings.Fields(string(found[1])) {
			if status == strconv.Itoa(process.ProcessState.ExitCode()) {
				t.Errorf("%s starts no process again that ended with %s, as one does that hangs", unit, status)
			}
		}
	}
}
