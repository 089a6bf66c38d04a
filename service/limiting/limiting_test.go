package limiting

import (
	"context"
	"io"
	"net"
	"path/filepath"
	"sync/atomic"
	"testing"
	"time"

	"google.golang.org/grpc"
	"google.golang.org/grpc/codes"
	"google.golang.org/grpc/health"
	"google.golang.org/grpc/health/grpc_health_v1"
	"google.golang.org/grpc/status"
)

const within = 10 * time.Second // what should come soon

// Calls of a connection above the limit are refused, until another one ends: then it is served, without being dialed again.
func TestConnections(t *testing.T) {
	limits := &Limits{Connections: 2, Streams: 8}
	path := filepath.Join(t.TempDir(), "s")
	inner, err := net.Listen("unix", path)
	if err != nil {
		t.Fatal(err)
	}
	server := grpc.NewServer(append(limits.Options(), grpc.UnaryInterceptor(limits.Intercept), grpc.StreamInterceptor(limits.InterceptStream))...)
	grpc_health_v1.RegisterHealthServer(server, health.NewServer())
	go server.Serve(limits.Listen(inner))
	defer server.Stop()
	var dialed int32
	dial := func(context.Context, string) (net.Conn, error) {
		atomic.AddInt32(&dialed, 1)
		return net.Dial("unix", path)
	}
	call := func(connection *grpc.ClientConn) codes.Code {
		_, err := grpc_health_v1.NewHealthClient(connection).Check(context.Background(), &grpc_health_v1.HealthCheckRequest{})
		return status.Code(err)
	}
	wants := func(which string, connection *grpc.ClientConn, want codes.Code) {
		t.Helper()
		if code := call(connection); code != want {
			t.Errorf("a call of the %s: %v, not %v", which, code, want)
		}
		stream, err := grpc_health_v1.NewHealthClient(connection).Watch(context.Background(), &grpc_health_v1.HealthCheckRequest{})
		if err == nil {
			_, err = stream.Recv()
		}
		if status.Code(err) != want {
			t.Errorf("a stream of the %s: %v, not %v", which, err, want)
		}
	}
	connect := func(which string, want codes.Code) *grpc.ClientConn {
		t.Helper()
		connection, err := grpc.Dial("s", grpc.WithInsecure(), grpc.WithContextDialer(dial))
		if err != nil {
			t.Fatal(err)
		}
		t.Cleanup(func() { connection.Close() })
		wants(which, connection, want)
		return connection
	}
	served := func(which string, connection *grpc.ClientConn) {
		t.Helper()
		for end := time.Now().Add(within); call(connection) != codes.OK && time.Now().Before(end); {
			time.Sleep(time.Millisecond)
		}
		wants(which, connection, codes.OK)
	}
	first := connect("first", codes.OK)
	second := connect("second", codes.OK)
	third := connect("third", codes.ResourceExhausted)
	fourth := connect("fourth", codes.ResourceExhausted)
	first.Close()
	served("third", third)
	wants("fourth", fourth, codes.ResourceExhausted)
	third.Close()
	served("fourth", fourth)
	wants("second", second, codes.OK)
	if count := atomic.LoadInt32(&dialed); count != 4 {
		t.Errorf("four were dialed %d times", count)
	}
}

// A listener closes what is above twice the limit.
func TestListener(t *testing.T) {
	path := filepath.Join(t.TempDir(), "s")
	inner, err := net.Listen("unix", path)
	if err != nil {
		t.Fatal(err)
	}
	listener := (&Limits{Connections: 1}).Listen(inner)
	defer listener.Close()
	accepted := make(chan net.Conn, 4)
	go func() {
		for {
			connection, err := listener.Accept()
			if err != nil {
				return
			}
			accepted <- connection
		}
	}()
	var dialed []net.Conn
	for at := 0; at < 3; at++ {
		connection, err := net.Dial("unix", path)
		if err != nil {
			t.Fatal(err)
		}
		defer connection.Close()
		dialed = append(dialed, connection)
	}
	if _, err := dialed[2].Read(make([]byte, 1)); err == nil {
		t.Error("the third is served")
	}
	(<-accepted).Close()
	next, err := net.Dial("unix", path)
	if err != nil {
		t.Fatal(err)
	}
	defer next.Close()
	<-accepted
	(<-accepted).Close()
}

// Who connects and says nothing doesn't hold up the end of a server.
func TestStop(t *testing.T) {
	limits := &Limits{Connections: 2, Streams: 8}
	path := filepath.Join(t.TempDir(), "s")
	inner, err := net.Listen("unix", path)
	if err != nil {
		t.Fatal(err)
	}
	server := grpc.NewServer(limits.Options()...)
	grpc_health_v1.RegisterHealthServer(server, health.NewServer())
	served := make(chan error, 1)
	go func() { served <- server.Serve(limits.Listen(inner)) }()
	silent, err := net.Dial("unix", path)
	if err != nil {
		t.Fatal(err)
	}
	defer silent.Close()
	connection, err := grpc.Dial("unix://"+path, grpc.WithInsecure())
	if err != nil {
		t.Fatal(err)
	}
	defer connection.Close()
	client := grpc_health_v1.NewHealthClient(connection)
	if _, err := client.Check(context.Background(), &grpc_health_v1.HealthCheckRequest{}); err != nil { // so the silent one was let in before
		t.Fatal(err)
	}
	begun := time.Now()
	Stop(server)
	if took := time.Since(begun); took > within/2 {
		t.Errorf("it took %v", took)
	}
	if _, err := client.Check(context.Background(), &grpc_health_v1.HealthCheckRequest{}); status.Code(err) != codes.Unavailable {
		t.Errorf("a call behind: %v", err)
	}
	silent.Close()
	if err := <-served; err != nil {
		t.Errorf("it ended by %v", err)
	}
}

// Who connects and says nothing is closed after a while.
func TestGreeting(t *testing.T) {
	if testing.Short() {
		t.Skip("left out, since it takes 10 s")
	}
	limits := New()
	inner, err := net.Listen("unix", filepath.Join(t.TempDir(), "s"))
	if err != nil {
		t.Fatal(err)
	}
	server := grpc.NewServer(limits.Options()...)
	go server.Serve(limits.Listen(inner))
	defer Stop(server)
	silent, err := net.Dial("unix", inner.Addr().String())
	if err != nil {
		t.Fatal(err)
	}
	defer silent.Close()
	if err := silent.SetDeadline(time.Now().Add(Greeting + within)); err != nil {
		t.Fatal(err)
	}
	if _, err := io.Copy(io.Discard, silent); err != nil {
		t.Errorf("it isn't closed: %v", err)
	}
}
