package main

import (
	"bytes"
	"context"
	"encoding/binary"
	"io"
	"net"
	"strings"
	"syscall"
	"testing"
	"time"

	"google.golang.org/grpc"
	"google.golang.org/grpc/codes"
	"google.golang.org/grpc/status"

	"tufayon/service/api/wire"
	"tufayon/service/program"
	"tufayon/service/secure"
)

// Callers have so many connections and no more, until one of them ends, and of each so many streams.
func TestConnections(t *testing.T) {
	var files syscall.Rlimit
	if err := syscall.Getrlimit(syscall.RLIMIT_NOFILE, &files); err != nil || files.Cur < 2300 {
		t.Skipf("left out, since a process has %d files at most: %v", files.Cur, err)
	}
	ctx, cancel := context.WithTimeout(context.Background(), 3*within)
	defer cancel()
	made := newFiles(t)
	made.list("n1")
	client, stop := made.start(true)
	var all []net.Conn
	defer func() {
		for _, it := range all {
			it.Close()
		}
	}()
	for at := 0; at < 1024; at++ {
		raw, err := net.Dial("unix", strings.TrimPrefix(made.address, "unix://"))
		if err != nil {
			t.Fatal(err)
		}
		all = append(all, raw)
		if _, err := io.WriteString(raw, "PRI * HTTP/2.0\r\n\r\nSM\r\n\r\n\x00\x00\x00\x04\x00\x00\x00\x00\x00"); err != nil { // it speaks HTTP/2, and stays
			t.Fatal(err)
		}
	}
	if most := streamsOf(t, all[0]); most != 8192 {
		t.Errorf("a connection has at most %d streams", most)
	}
	connection, err := grpc.Dial(made.address, grpc.WithTransportCredentials(secure.Local{May: program.IsOwn}))
	if err != nil {
		t.Fatal(err)
	}
	defer connection.Close()
	late := wire.NewOrchestratorClient(connection)
	_, err = late.Nodes(ctx, &wire.NodesRequest{})
	if its := status.Convert(err); its.Code() != codes.ResourceExhausted || its.Message() != "too many connections" {
		t.Errorf("a call of one more: %v", err)
	}
	if _, err := client.Nodes(ctx, &wire.NodesRequest{}); err != nil {
		t.Errorf("a call of the first one: %v", err)
	}
	all[0].Close()
	for err = status.Error(codes.Unknown, ""); err != nil && ctx.Err() == nil; time.Sleep(5 * time.Millisecond) {
		_, err = late.Nodes(ctx, &wire.NodesRequest{})
	}
	if err != nil {
		t.Errorf("a call of one more, once there is room: %v", err)
	}
	stop()
}

// streamsOf is how many streams a connection may have, as the server says first of all.
func streamsOf(t *testing.T, raw net.Conn) uint32 {
	t.Helper()
	if err := raw.SetDeadline(time.Now().Add(within)); err != nil {
		t.Fatal(err)
	}
	head := make([]byte, 9)
	if _, err := io.ReadFull(raw, head); err != nil || head[3] != 4 {
		t.Fatalf("no settings: %x, %v", head, err)
	}
	settings := make([]byte, int(head[0])<<16|int(head[1])<<8|int(head[2]))
	if _, err := io.ReadFull(raw, settings); err != nil {
		t.Fatal(err)
	}
	for ; len(settings) >= 6; settings = settings[6:] {
		if bytes.HasPrefix(settings, []byte{0, 3}) {
			return binary.BigEndian.Uint32(settings[2:])
		}
	}
	return 0
}
