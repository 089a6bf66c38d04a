package life

import (
	"errors"
	"fmt"
	"os"
	"os/exec"
	"syscall"
	"testing"
)

const namespace = "TUFAYON_TEST_NAMESPACE" // in the environment of the tests that run in one of their own

// TestMain runs the tests in a mount namespace of their own, where this process may make one.
func TestMain(tests *testing.M) {
	if os.Getenv(namespace) != "" || os.Geteuid() != 0 {
		os.Exit(tests.Run())
	}
	inside := exec.Command("/proc/self/exe", os.Args[1:]...)
	inside.Env = append(os.Environ(), namespace+"=1")
	inside.Stdout, inside.Stderr = os.Stdout, os.Stderr
	inside.SysProcAttr = &syscall.SysProcAttr{Unshareflags: syscall.CLONE_NEWNS}
	if err := inside.Start(); err != nil {
		fmt.Fprintf(os.Stderr, "no mount namespace: %v\n", err)
		os.Exit(tests.Run())
	}
	err := inside.Wait()
	var ended *exec.ExitError
	if err != nil && !errors.As(err, &ended) {
		fmt.Fprintln(os.Stderr, err)
		os.Exit(1)
	}
	os.Exit(inside.ProcessState.ExitCode())
}

// needsMounts skips a test where nothing may be mounted.
func needsMounts(t *testing.T) {
	t.Helper()
	if os.Getenv(namespace) == "" {
		t.Skip("left out, since there is no mount namespace: it needs root")
	}
}

func unmount(path string) error { return syscall.Unmount(path, 0) }

func isThere(path string) bool {
	_, err := os.Stat(path)
	return err == nil
}
