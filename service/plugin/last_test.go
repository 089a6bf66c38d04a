package plugin_test

import (
	"context"
	"fmt"
	"path/filepath"
	"testing"

	"google.golang.org/grpc/codes"

	"tufayon/service/etcd"
	"tufayon/service/etcd/etcdtest"
	"tufayon/service/frames"
	"tufayon/service/numbers"
	"tufayon/service/serving"
	"tufayon/service/store"
)

// Another call of a number that was used is refused, and a repeat of the same gets its reply.
func TestOtherCall(t *testing.T) {
	core := opened(t, controller, newMemory())
	wants(t, core, 1, 1, create("v"), codes.OK)
	wants(t, core, 1, 2, attach(1, "n1"), codes.OK)
	wants(t, core, 1, 2, attach(1, "n2"), codes.FailedPrecondition)
	wants(t, core, 1, 2, attach(1, "n1"), codes.OK)
	wants(t, core, 1, 3, detach(1, "n1"), codes.OK)
	wants(t, core, 1, 3, detach(1, "n2"), codes.FailedPrecondition)
}

// So it is of another process over the same store; one that was kept without that has the kept reply, and what is kept goes with the volume's row.
func TestOtherCallLater(t *testing.T) {
	kept := newMemory()
	core := opened(t, controller, kept)
	wants(t, core, 1, 1, create("v"), codes.OK)
	wants(t, core, 1, 2, create("w"), codes.OK)
	wants(t, core, 1, 3, attach(1, "n1"), codes.OK)
	core.Close()
	core = opened(t, controller, kept)
	wants(t, core, 1, 3, attach(1, "n2"), codes.FailedPrecondition)
	wants(t, core, 1, 3, attach(1, "n1"), codes.OK)
	wants(t, core, 1, 4, detach(1, "n1"), codes.OK)
	wants(t, core, 1, 5, serving.Request{Body: frames.DeleteVolume{ID: 2}}, codes.OK)
	core.Close()
	core = opened(t, controller, kept)
	wants(t, core, 1, 4, detach(1, "n2"), codes.FailedPrecondition)
	if len(kept.sides) != 2 {
		t.Errorf("beside the record are %d", len(kept.sides))
	}
	begins(t, core, numbers.Opening{Session: 2, Token: "a", Sent: number(1, 5), Heard: number(1, 5)}, "") // by which the second volume's row goes
	wants(t, core, 2, 1, attach(1, "n1"), codes.OK)
	wants(t, core, 2, 2, detach(1, "n1"), codes.OK)
	if names := fmt.Sprint(len(kept.sides), len(kept.sides["last/0000000000000001"]), len(kept.sides["last/0000000000000002"])); names != "2 48 0" {
		t.Errorf("beside the record are, of the volumes: %s", names)
	}
	core.Close()
	kept.sides = map[string][]byte{}
	core = opened(t, controller, kept)
	wants(t, core, 2, 2, detach(1, "n2"), codes.OK)
	wants(t, core, 2, 3, attach(1, "n2"), codes.OK)
	wants(t, core, 2, 3, attach(1, "n1"), codes.FailedPrecondition)
}

// It is so over a file, and over etcd, whose store the next process opens.
func TestOtherCallOverStores(t *testing.T) {
	t.Run("SQLite", func(t *testing.T) {
		path := filepath.Join(t.TempDir(), "c.db")
		refusesOtherCalls(t, func() (store.Store, error) { return store.OpenSQLite(context.Background(), path) })
	})
	t.Run("etcd", func(t *testing.T) {
		config := etcd.Config{Endpoints: []string{etcdtest.Start(t)}, Prefix: "/t", LeaseSeconds: 5}
		refusesOtherCalls(t, func() (store.Store, error) { return config.Open(context.Background()) })
	})
}

func refusesOtherCalls(t *testing.T, open func() (store.Store, error)) {
	serve := func(calls func(*serving.Core)) {
		t.Helper()
		kept, err := open()
		if err != nil {
			t.Fatal(err)
		}
		core := opened(t, controller, kept)
		calls(core)
		core.Close()
		if err := kept.Close(); err != nil {
			t.Error(err)
		}
	}
	serve(func(core *serving.Core) {
		wants(t, core, 1, 1, create("v"), codes.OK)
		wants(t, core, 1, 2, attach(1, "n1"), codes.OK)
	})
	for count := 0; count < 2; count++ {
		serve(func(core *serving.Core) {
			wants(t, core, 1, 2, attach(1, "n2"), codes.FailedPrecondition)
			wants(t, core, 1, 2, attach(1, "n1"), codes.OK)
		})
	}
}

// At a node likewise: what it is told to do at another target by a number that was used, or with which a session began, it doesn't do.
func TestOtherCallAtNode(t *testing.T) {
	kept, done := newMemory(), 0
	publish := func(target string) serving.Request {
		request := serving.Request{Node: "n1", Body: frames.NodePublishVolume{ID: 7, Target: target, Capability: block}}
		request.Act = func(context.Context, serving.Known) (any, error) { done++; return nil, nil }
		return request
	}
	core := opened(t, node, kept)
	begins(t, core, numbers.Opening{Session: 1, Token: "a"}, "")
	wants(t, core, 1, 1, serving.Request{Node: "n1", Body: frames.NodeStageVolume{ID: 7, Capability: block}}, codes.OK)
	wants(t, core, 1, 2, publish("/a"), codes.OK)
	core.Close()
	core = opened(t, node, kept)
	wants(t, core, 1, 2, publish("/b"), codes.FailedPrecondition)
	if done != 1 {
		t.Errorf("%d were done", done)
	}
	wants(t, core, 1, 2, publish("/a"), codes.OK) // the machine may have been started again meanwhile
	begins(t, core, numbers.Opening{Session: 2, Token: "b", Sent: number(1, 2), Heard: number(1, 2)}, "")
	wants(t, core, 2, 0, serving.Request{Node: "n1", Body: frames.NodeUnpublishVolume{ID: 7, Target: "/a"}}, codes.FailedPrecondition)
	if done != 2 {
		t.Errorf("%d were done", done)
	}
}
