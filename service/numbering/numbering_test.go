package numbering

import (
	"context"
	"errors"
	"fmt"
	"math"
	"sync"
	"testing"

	"google.golang.org/grpc"
	"google.golang.org/grpc/codes"
	"google.golang.org/grpc/metadata"
	"google.golang.org/grpc/status"

	"tufayon/service/frames"
	"tufayon/service/numbers"
)

// Numbers rise, whoever asks, each as the plugins read them.
func TestNext(t *testing.T) {
	counter, last := New(7), frames.Number{}
	seen := make(chan frames.Number, 1000)
	var all sync.WaitGroup
	for at := 0; at < 10; at++ {
		all.Add(1)
		go func() {
			defer all.Done()
			for at := 0; at < 100; at++ {
				text, err := counter.Next()
				number, bad := numbers.Parse(text)
				if err != nil || bad != nil {
					t.Errorf("%q: %v, %v", text, err, bad)
				}
				seen <- number
			}
		}()
	}
	all.Wait()
	once := map[frames.Number]bool{}
	for len(seen) > 0 {
		if last = <-seen; once[last] || last.Session != 7 {
			t.Errorf("%v", last)
		}
		once[last] = true
	}
	counter.call = math.MaxUint64 - 3
	if text, err := counter.Next(); err != nil || text != fmt.Sprint("7.", uint64(math.MaxUint64-1)) {
		t.Errorf("the last is %q, %v", text, err)
	}
	if _, err := counter.Next(); !errors.Is(err, ErrSpent) {
		t.Errorf("one more: %v", err)
	}
}

// The eight calls get numbers, unless they have one, and no other does.
func TestIntercept(t *testing.T) {
	counter := New(1)
	got := func(ctx context.Context, method string) (numbers []string, err error) {
		err = counter.Intercept(ctx, method, nil, nil, nil, func(ctx context.Context, _ string, _, _ any, _ *grpc.ClientConn, _ ...grpc.CallOption) error {
			headers, _ := metadata.FromOutgoingContext(ctx)
			numbers = headers.Get(Key)
			return nil
		})
		return numbers, err
	}
	ctx := context.Background()
	for _, it := range []struct {
		ctx    context.Context
		method string
		want   string
	}{
		{ctx, "/csi.v1.Controller/ControllerPublishVolume", "[1.2]"},
		{metadata.AppendToOutgoingContext(ctx, Key, "9.9"), "/csi.v1.Node/NodeStageVolume", "[9.9]"},
		{ctx, "/csi.v1.Controller/ControllerExpandVolume", "[]"}, {ctx, "/csi.v1.Node/NodeStageVolume", "[1.4]"},
	} {
		if found, err := got(it.ctx, it.method); err != nil || fmt.Sprint(found) != it.want {
			t.Errorf("%s has %v, %v", it.method, found, err)
		}
	}
	counter.call = math.MaxUint64
	if _, err := got(ctx, "/csi.v1.Node/NodeStageVolume"); status.Code(err) != codes.ResourceExhausted {
		t.Errorf("without numbers: %v", err)
	}
	if Key != numbers.Key {
		t.Errorf("the key is %q", Key)
	}
}
