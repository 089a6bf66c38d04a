package main

import (
	"context"
	"errors"
	"testing"
	"time"

	"go.uber.org/zap"

	"tufayon/service/host"
	"tufayon/service/host/hosttest"
	"tufayon/service/program"
	"tufayon/service/settings"
	"tufayon/service/store"
)

// hangs is a store whose end hangs until it is let go on.
type hangs struct {
	*hosttest.Store
	goesOn chan struct{}
}

func (hangs *hangs) Close() error {
	<-hangs.goesOn
	return nil
}

// What hangs holds up no end, a commit or the store's own end: it ends in time, and says why.
func TestHangs(t *testing.T) {
	failed := errors.New("it can't be written")
	for name, it := range map[string]struct {
		ends func(kept *hosttest.Store, leads *host.Host, stop func()) (letGo func())
		want error
	}{
		"a commit": {func(kept *hosttest.Store, leads *host.Host, stop func()) func() {
			letGo := kept.Hold()
			go leads.Do(context.Background(), host.Command{Kind: host.Create, Name: "v"})
			for leads.Counts().Committing == 0 {
				time.Sleep(time.Millisecond)
			}
			stop()
			return letGo
		}, store.ErrDevice},
		"the store's end": {func(kept *hosttest.Store, leads *host.Host, _ func()) func() {
			kept.Fail(failed)
			go leads.Do(context.Background(), host.Command{Kind: host.Create, Name: "v"})
			return func() {}
		}, failed},
	} {
		made := newFiles(t)
		made.list("n1")
		read, err := settings.Read(made.path(made.process))
		if err != nil {
			t.Fatal(err)
		}
		kept := &hangs{hosttest.NewStore(), make(chan struct{})}
		running := newService(read, zap.NewNop(), nil)
		running.most = 100 * time.Millisecond
		opened := make(chan struct{})
		running.opens = func(context.Context) (store.Store, error) {
			close(opened) // behind all that is made before it leads
			return kept, nil
		}
		ctx, stop := context.WithCancel(context.Background())
		ran := make(chan error, 1)
		go func() { ran <- running.run(ctx) }()
		<-opened
		for running.watching.host() == nil {
			time.Sleep(time.Millisecond)
		}
		letGo := it.ends(kept.Store, running.watching.host(), stop)
		select {
		case err := <-ran:
			if !errors.Is(err, it.want) || program.StatusOf(err) != 3 {
				t.Errorf("%s: it ended by %v, not %v", name, err, it.want)
			}
		case <-time.After(within):
			t.Errorf("%s: it hangs", name)
		}
		letGo()
		close(kept.goesOn)
		select {
		case <-running.ended:
		case <-ran: // which has it
		}
		stop()
	}
}
