package upstream_test

import (
	"context"
	"fmt"
	"io"
	"os"
	"os/exec"
	"os/signal"
	"path/filepath"
	"runtime/pprof"
	"syscall"
	"testing"

	"tufayon/service/life"
	"tufayon/service/upstream"
)

// What the environment tells this program where it is a driver that a test runs, and kills: the box's folder, and that numbers come as metadata.
const (
	driverIn   = "TUFAYON_TEST_DRIVER"
	byMetadata = "TUFAYON_TEST_METADATA"
	etcdAt     = "TUFAYON_TEST_ENDPOINT"
	socketIs   = "TUFAYON_TEST_SOCKET"
	nodeIs     = "TUFAYON_TEST_NODE"
)

// TestMain is a driver, or the tests.
func TestMain(m *testing.M) {
	folder := os.Getenv(driverIn)
	if folder == "" || os.Getenv(workIs) != "" {
		os.Exit(m.Run())
	}
	box := &box{folder: folder, metadata: os.Getenv(byMetadata) != "", config: noNodes, etcd: os.Getenv(etcdAt), socket: os.Getenv(socketIs)}
	box.options = upstream.Options{Address: "unix://" + filepath.Join(folder, "upstream.sock"), Node: os.Getenv(nodeIs)}
	it, err := box.driver()
	if err == nil {
		it.Say = func(line string) { fmt.Println(line) }
		ctx, _ := signal.NotifyContext(context.Background(), syscall.SIGTERM)
		defer profiled()()
		err = life.New(it).Run(ctx)
	}
	if err != nil {
		fmt.Fprintln(os.Stderr, err)
		os.Exit(1)
	}
}

// run runs the driver as a process of its own, and waits until it serves, or waits to lead.
func (box *box) run() *exec.Cmd {
	box.Helper()
	running := exec.Command(os.Args[0])
	running.Env = append(os.Environ(), driverIn+"="+box.folder, etcdAt+"="+box.etcd, socketIs+"="+box.socket, nodeIs+"="+box.options.Node)
	if box.metadata {
		running.Env = append(running.Env, byMetadata+"=yes")
	}
	running.Stderr = os.Stderr
	output, err := running.StdoutPipe()
	if err == nil {
		err = running.Start()
	}
	if err != nil {
		box.Fatal(err)
	}
	box.Cleanup(func() { running.Process.Kill() })
	if _, err := output.Read(make([]byte, 100)); err != nil {
		box.Fatalf("the driver says nothing: %v", err)
	}
	go io.Copy(io.Discard, output)
	if box.sockets == nil {
		box.sockets = map[*exec.Cmd]string{}
	}
	box.sockets[running] = box.socket
	return running
}

// profiled has the driver of a benchmark be profiled, until that ends, where the environment asks for it.
func profiled() (end func()) {
	if folder := os.Getenv(profilesKey); folder != "" {
		if file, err := os.Create(filepath.Join(folder, fmt.Sprint("driver-", os.Getpid()))); err == nil && pprof.StartCPUProfile(file) == nil {
			return pprof.StopCPUProfile
		}
	}
	return func() {}
}
