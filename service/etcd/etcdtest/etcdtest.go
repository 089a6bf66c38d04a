// Package etcdtest starts etcd for tests.
package etcdtest

import (
	"net"
	"os"
	"os/exec"
	"testing"
)

// Start starts a server of etcd, as Debian starts it but for more words, on loopback, until the test ends, and gives its endpoint. Where TUFAYON_TEST_ETCD
// isn't set, or there is no etcd, the test is left out.
func Start(t testing.TB, words ...string) string {
	t.Helper()
	if os.Getenv("TUFAYON_TEST_ETCD") == "" {
		t.Skip("left out, since TUFAYON_TEST_ETCD isn't set")
	}
	if _, err := exec.LookPath("etcd"); err != nil {
		t.Skip("left out, since there is no etcd")
	}
	client, peer := port(t), port(t)
	running := exec.Command("etcd", append([]string{"--data-dir", t.TempDir(), "--listen-client-urls", client, "--advertise-client-urls", client,
		"--listen-peer-urls", peer, "--initial-advertise-peer-urls", peer, "--initial-cluster", "default=" + peer}, words...)...)
	if err := running.Start(); err != nil {
		t.Fatal(err)
	}
	t.Cleanup(func() { running.Process.Kill(); running.Wait() })
	return client
}

func port(t testing.TB) string {
	t.Helper()
	listener, err := net.Listen("tcp", "127.0.0.1:0")
	if err != nil {
		t.Fatal(err)
	}
	defer listener.Close()
	return "http://" + listener.Addr().String()
}
