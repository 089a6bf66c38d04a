package passing_test

import (
	"context"
	"fmt"
	"io"
	"net"
	"path/filepath"
	"runtime"
	"strings"
	"sync"
	"testing"
	"time"

	"google.golang.org/grpc"
	"google.golang.org/grpc/codes"
	"google.golang.org/grpc/encoding/gzip"
	"google.golang.org/grpc/metadata"
	"google.golang.org/grpc/status"

	"tufayon/service/passing"
	"tufayon/service/upstream/upstreamtest"
	"tufayon/service/wire"
)

// before is a server that passes all on to an upstream, and a client of it.
func before(t *testing.T) (*upstreamtest.Upstream, *grpc.ClientConn) {
	t.Helper()
	folder := t.TempDir()
	behind := upstreamtest.Start(t, filepath.Join(folder, "behind"))
	connection := upstreamtest.Dial(t, filepath.Join(folder, "behind"))
	server := grpc.NewServer(passing.Options(func(_ any, stream grpc.ServerStream) error {
		method, _ := grpc.MethodFromServerStream(stream)
		return passing.Through(connection, method, stream)
	})...)
	listener, err := net.Listen("unix", filepath.Join(folder, "before"))
	if err != nil {
		t.Fatal(err)
	}
	go server.Serve(listener)
	t.Cleanup(server.Stop)
	return behind, upstreamtest.Dial(t, filepath.Join(folder, "before"))
}

// Messages pass in both directions, as many as come, with metadata both ways, and the status at the end.
func TestStreams(t *testing.T) {
	_, client := before(t)
	ctx, cancel := context.WithTimeout(metadata.AppendToOutgoingContext(context.Background(), "tell", "me"), 10*time.Second)
	defer cancel()
	stream, err := client.NewStream(ctx, &grpc.StreamDesc{ServerStreams: true, ClientStreams: true}, "/test.Streams/Echo", grpc.ForceCodec(passing.Codec{}))
	if err != nil {
		t.Fatal(err)
	}
	for at := 0; at < 100; at++ {
		message := []byte(strings.Repeat(fmt.Sprint(at), at))
		if err := stream.SendMsg(&message); err != nil {
			t.Fatal(err)
		}
		var back []byte
		if err := stream.RecvMsg(&back); err != nil || string(back) != string(message) {
			t.Fatalf("message %d came back as %q, %v", at, back, err)
		}
	}
	stream.CloseSend()
	var none []byte
	if err := stream.RecvMsg(&none); status.Code(err) != codes.DataLoss || status.Convert(err).Message() != "the end" {
		t.Errorf("the end is %v", err)
	}
	header, err := stream.Header()
	if err != nil || fmt.Sprint(header.Get("echo"), stream.Trailer().Get("count")) != "[[me]] [100]" {
		t.Errorf("beside them stand %v and %v, %v", header, stream.Trailer(), err)
	}
}

// A call with one request passes as it came: compressed or not, and with its deadline; the upstream's being gone is told.
func TestCalls(t *testing.T) {
	behind, client := before(t)
	ctx, cancel := context.WithTimeout(context.Background(), 10*time.Second)
	defer cancel()
	request := &wire.CreateVolumeRequest{Name: strings.Repeat("n", 1<<20)}
	bytes, response, err := upstreamtest.Call(ctx, client, "/any.Service/Call", request, "tag")
	if its := behind.Responses(bytes); err != nil || len(its) != 1 || string(its[0]) != string(response.Message) {
		t.Errorf("the response is %x, %v", response.Message, err)
	}
	if err := client.Invoke(ctx, "/any.Service/Call", request, &wire.ProbeResponse{}, grpc.UseCompressor(gzip.Name)); err != nil {
		t.Errorf("compressed: %v", err)
	}
	for _, it := range behind.Told("/any.Service/Call") {
		if it.Deadline.IsZero() || time.Until(it.Deadline) > 10*time.Second {
			t.Errorf("the deadline is %v", it.Deadline)
		}
	}
	behind.Die()
	if err := client.Invoke(ctx, "/any.Service/Call", request, &wire.ProbeResponse{}); status.Code(err) != codes.Unavailable {
		t.Errorf("without an upstream: %v", err)
	}
}

// A context that waits tells the deadline of a call, and outlives it.
func TestWaiting(t *testing.T) {
	came, cancel := context.WithTimeout(context.Background(), time.Millisecond)
	defer cancel()
	waiting := passing.Waiting(context.Background(), came)
	<-came.Done()
	its, _ := came.Deadline()
	if deadline, is := waiting.Deadline(); !is || deadline != its || waiting.Err() != nil {
		t.Errorf("it is %v, %v, %v", deadline, is, waiting.Err())
	}
	if _, is := passing.Waiting(context.Background(), context.Background()).Deadline(); is {
		t.Error("there is a deadline")
	}
}

// What isn't bytes isn't taken for such.
func TestCodec(t *testing.T) {
	if _, err := (passing.Codec{}).Marshal("text"); err == nil {
		t.Error("a text is passed on")
	}
	if err := (passing.Codec{}).Unmarshal(nil, io.EOF); err == nil {
		t.Error("an error is passed on")
	}
}

// Calls are handled by goroutines that are kept, up to a number; those end with what keeps them, and others with their calls.
func TestKept(t *testing.T) {
	before := runtime.NumGoroutine()
	kept := &passing.Kept{}
	var under sync.WaitGroup
	handle := kept.Handle(func(server any, _ grpc.ServerStream) error {
		under.Done()
		under.Wait() // all are under way at once
		return server.(error)
	})
	calls := func(count int) {
		under.Add(count)
		var all sync.WaitGroup
		for at := 0; at < count; at++ {
			all.Add(1)
			go func(gives error) {
				defer all.Done()
				if err := handle(gives, nil); err != gives {
					t.Errorf("%v, not %v", err, gives)
				}
			}(fmt.Errorf("call %d", at))
		}
		all.Wait()
	}
	rests := func(most int) {
		t.Helper()
		for end := time.Now().Add(time.Minute); runtime.NumGoroutine() > before+most; time.Sleep(time.Millisecond) {
			if time.Now().After(end) {
				t.Fatalf("%d goroutines, not %d", runtime.NumGoroutine()-before, most)
			}
		}
	}
	calls(300)
	rests(128)
	calls(100)
	rests(128)
	kept.Close()
	calls(10)
	rests(0)
}
