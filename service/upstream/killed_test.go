package upstream_test

import (
	"context"
	"fmt"
	"os"
	"os/exec"
	"strconv"
	"sync"
	"syscall"
	"testing"
	"time"

	"github.com/golang/protobuf/proto"
	"google.golang.org/grpc"
	"google.golang.org/grpc/codes"
	"google.golang.org/grpc/status"

	"tufayon/service/store"
	"tufayon/service/upstream"
	"tufayon/service/upstream/upstreamtest"
)

// killAt tells this program, where it is a driver that a test runs, at which commit since its start it kills itself: -N before the Nth, N after it.
const killAt = "TUFAYON_TEST_KILL"

// killing is a store whose process is killed at a commit that changes something.
type killing struct {
	store.Keeper
	at, commits int
}

// killed gives the store that the environment asks for.
func killed(kept store.Keeper) store.Store {
	at, err := strconv.Atoi(os.Getenv(killAt))
	if err != nil {
		return kept
	}
	return &killing{Keeper: kept, at: at}
}

func (killing *killing) IsLocked() bool { return store.IsLocked(killing.Keeper) }

func (killing *killing) Commit(ctx context.Context, anew bool, changes []store.Change) error {
	return killing.around(len(changes), func() error { return killing.Keeper.Commit(ctx, anew, changes) })
}

func (killing *killing) CommitBoth(ctx context.Context, changes []store.Change, texts []store.Text, sides []store.Side) error {
	return killing.around(len(changes)+len(texts), func() error { return killing.Keeper.CommitBoth(ctx, changes, texts, sides) })
}

func (killing *killing) around(count int, commit func() error) error {
	if count == 0 {
		return commit()
	}
	if killing.commits++; killing.commits == -killing.at {
		die()
	}
	err := commit()
	if killing.commits == killing.at {
		die()
	}
	return err
}

func die() {
	syscall.Kill(os.Getpid(), syscall.SIGKILL)
	select {}
}

// An outcome is one of what may become of a call, before it is made again.
type outcome struct {
	name  string
	kill  int                // the driver, at this commit
	kills bool               // the driver, while the upstream is at it
	fault upstreamtest.Fault // of the upstream
}

// An eachCall is a call, with what comes before it.
type eachCall struct {
	method string
	isNode bool
	undoes bool
	before []string // calls
}

// lives are the eight calls, each after those that lead to it.
var lives = []eachCall{
	{createCall, false, false, nil}, {attachCall, false, false, []string{createCall}},
	{detachCall, false, true, []string{createCall, attachCall}}, {deleteCall, false, true, []string{createCall}},
	{stageCall, true, false, nil}, {publishCall, true, false, []string{stageCall}},
	{unpublishCall, true, true, []string{stageCall, publishCall}}, {unstageCall, true, true, []string{stageCall}},
}

const eachID = "fs/each"

// messages are the requests of the eight calls.
var messages = map[string]proto.Message{
	createCall: creates("each"), attachCall: attaches(eachID, "n1", writer), detachCall: detaches(eachID, "n1"), deleteCall: deletes(eachID),
	stageCall: stages(eachID, "/s", single), publishCall: publishes(eachID, "/s", "/a", single),
	unpublishCall: unpublishes(eachID, "/a"), unstageCall: unstages(eachID, "/s"),
}

// others are calls that have to be refused as long as what another call did may be there: no call may come between.
var others = map[string]struct {
	method  string
	message proto.Message
}{
	attachCall: {attachCall, attaches(eachID, "n2", writer)}, detachCall: {attachCall, attaches(eachID, "n2", writer)},
	stageCall: {stageCall, stages(eachID, "/other", single)}, unstageCall: {stageCall, stages(eachID, "/other", single)},
	publishCall: {unstageCall, unstages(eachID, "/s")}, unpublishCall: {unstageCall, unstages(eachID, "/s")},
}

// Each of the eight calls, and each of what may become of it: the upstream refuses it, fails after it is done, dies before or answers late; the driver is
// killed before and after each of its commits, and while the upstream is at it, before and after it is done there. What may be there lets nothing else in;
// the repeat is done, byte for byte as the upstream says, and then all is as if nothing had been.
func TestEach(t *testing.T) {
	told := status.Error(codes.OutOfRange, "the upstream's")
	for _, its := range lives {
		var outcomes []outcome
		for _, commit := range []int{-1, 1, -2, 2} {
			if commit == 1 || commit == -1 || its.method == createCall {
				outcomes = append(outcomes, outcome{name: fmt.Sprint("killed at commit ", commit), kill: commit})
			}
		}
		outcomes = append(outcomes,
			outcome{name: "refused", fault: upstreamtest.Fault{Refuse: told}}, outcome{name: "failed", fault: upstreamtest.Fault{Fail: told}},
			outcome{name: "died", fault: upstreamtest.Fault{Die: true}}, outcome{name: "late", fault: upstreamtest.Fault{After: 300 * time.Millisecond}},
			outcome{name: "killed before it is done", kills: true, fault: upstreamtest.Fault{Before: 200 * time.Millisecond}},
			outcome{name: "killed after it is done", kills: true, fault: upstreamtest.Fault{After: 200 * time.Millisecond}})
		for _, it := range outcomes {
			t.Run(its.method[len("/csi.v1."):]+" "+it.name, func(t *testing.T) { each(t, its, it) })
		}
	}
}

func each(t *testing.T, its eachCall, it outcome) {
	options := upstream.Options{}
	if its.isNode {
		options.Node = "n1"
	}
	box, ctx := newBox(t, options), soon(t)
	box.behind.ID = func(string) string { return eachID }
	box.start()
	for _, method := range its.before {
		box.does(ctx, method, messages[method])
	}
	box.fails(ctx, its, it)
	// What may be there lets nothing else in: from the commit before what is done on, or to the one after what is undone.
	stands := it.kill != -1
	if its.undoes {
		stands = it.kill != 1 && it.name != "late"
	}
	if other, is := others[its.method]; is && stands {
		if _, err := box.asks(ctx, other.method, other.message); status.Code(err) != codes.FailedPrecondition {
			t.Errorf("%s in between: %v", other.method, err)
		}
	}
	for { // the upstream is found again
		if _, err := box.asks(ctx, its.method, messages[its.method]); status.Code(err) != codes.Unavailable || ctx.Err() != nil {
			break
		}
		time.Sleep(10 * time.Millisecond)
	}
	box.does(ctx, its.method, messages[its.method])
	box.settled(ctx, its.method)
}

// fails makes a call that comes to this. A driver that is to be killed is a process of its own meanwhile.
func (box *box) fails(ctx context.Context, its eachCall, it outcome) {
	box.Helper()
	var running *exec.Cmd
	if it.kills || it.kill != 0 {
		box.end()
		os.Setenv(killAt, fmt.Sprint(it.kill))
		running = box.run()
		os.Unsetenv(killAt)
	}
	begun, once := make(chan struct{}), sync.Once{}
	box.behind.Set(func(string) upstreamtest.Fault {
		once.Do(func() { close(begun) })
		return it.fault
	})
	caller, givesUp := context.WithCancel(ctx)
	defer givesUp()
	ended := make(chan error, 1)
	go func() {
		_, _, err := upstreamtest.Call(caller, box.client, its.method, messages[its.method], "first", grpc.WaitForReady(true))
		ended <- err
	}()
	if it.kills || it.name == "late" {
		<-begun
		time.Sleep(50 * time.Millisecond)
	}
	if it.kills {
		running.Process.Kill()
	}
	if it.name == "late" {
		givesUp()
	}
	if running != nil {
		running.Wait()
	}
	if err := <-ended; err == nil {
		box.Errorf("the first one is OK")
	}
	box.behind.Set(nil)
	if it.fault.Die {
		box.behind.Restart()
	}
	if running != nil {
		box.start()
	}
}

// asks makes a call once the driver is there.
func (box *box) asks(ctx context.Context, method string, message proto.Message) ([]byte, error) {
	box.count++
	_, response, err := upstreamtest.Call(ctx, box.client, method, message, fmt.Sprint("call ", box.count), grpc.WaitForReady(true))
	return response.Message, err
}

// settled goes from what a call did to the end of a volume's life, and sees that it is what the call says.
func (box *box) settled(ctx context.Context, method string) {
	box.Helper()
	box.behind.Rest()
	switch method {
	case createCall, detachCall:
		box.attached(eachID)
		box.does(ctx, attachCall, attaches(eachID, "n2", writer))
		box.attached(eachID, "n2")
	case attachCall:
		box.attached(eachID, "n1")
		box.refuses(ctx, codes.FailedPrecondition, "n1", attachCall, attaches(eachID, "n2", writer))
	case deleteCall:
		if found := box.behind.Attached(); len(found) > 0 {
			box.Errorf("it is there still: %v", found)
		}
		box.refuses(ctx, codes.NotFound, "volume", attachCall, attaches(eachID, "n1", writer))
	case stageCall, unpublishCall:
		box.does(ctx, unstageCall, unstages(eachID, "/s"))
	case unstageCall:
		box.does(ctx, stageCall, stages(eachID, "/other", writers))
	case publishCall:
		box.refuses(ctx, codes.FailedPrecondition, "/a", unstageCall, unstages(eachID, "/s"))
	}
}
