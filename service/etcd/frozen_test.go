package etcd

import (
	"context"
	"io"
	"net"
	"sync"
	"testing"
	"time"
)

// A pond is what goes one way, until it is frozen: then nothing comes any more, and nobody says so.
type pond struct {
	to            io.Writer
	frozen, ended <-chan struct{}
}

func (it pond) Write(bytes []byte) (int, error) {
	select {
	case <-it.frozen:
		<-it.ended
		return 0, io.ErrClosedPipe
	default:
		return it.to.Write(bytes)
	}
}

// winter is a way to a server, until it is frozen.
func winter(t *testing.T, endpoint string) (way string, freeze func()) {
	t.Helper()
	listener, err := net.Listen("tcp", "127.0.0.1:0")
	if err != nil {
		t.Fatal(err)
	}
	frozen, ended := make(chan struct{}), make(chan struct{})
	t.Cleanup(func() { listener.Close(); close(ended) })
	go func() {
		for {
			from, err := listener.Accept()
			if err != nil {
				return
			}
			to, err := net.Dial("tcp", serverOf(endpoint))
			if err != nil {
				from.Close()
				continue
			}
			go io.Copy(pond{from, frozen, ended}, to)
			go io.Copy(pond{to, frozen, ended}, from)
		}
	}()
	return "http://" + listener.Addr().String(), func() { close(frozen) }
}

// What is read while a server doesn't answer any more, as one whose machine stands still, is read from another one.
func TestFrozen(t *testing.T) {
	if testing.Short() {
		t.Skip("left out, since it takes 14 s")
	}
	config := server(t)
	config.LeaseSeconds = 60
	way, freeze := winter(t, config.Endpoints[0])
	config.Endpoints = append(config.Endpoints, way)
	kept := open(t, config)
	ctx := context.Background()
	for at := 0; at < 10; at++ { // by both ways
		if _, err := kept.Load(ctx); err != nil {
			t.Fatal(err)
		}
	}
	freeze()
	var all sync.WaitGroup
	for at := 0; at < 4; at++ {
		all.Add(1)
		go func() {
			defer all.Done()
			began := time.Now()
			if _, err := kept.Load(ctx); err != nil {
				t.Errorf("nothing is read for %v: %v", time.Since(began), err)
			}
		}()
	}
	all.Wait()
	kept.Close()
}
