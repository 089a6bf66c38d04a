package history

import (
	"bytes"
	"os"
	"testing"
	"time"

	"tufayon/service/host"
)

// What comes waits for a while, and then it is in the file, without anybody asking; who asks before gets it, and is told when more comes.
func TestComing(t *testing.T) {
	made := newRun(t, Usual, "n1")
	made.must(create("v"))
	for end := time.Now().Add(within); ; time.Sleep(time.Millisecond) {
		content, err := os.ReadFile(made.file)
		if err == nil && bytes.Count(content, []byte("\n")) == 4 { // the head, a session, a command and a reply
			break
		}
		if time.Now().After(end) {
			t.Fatalf("it is %s, %v", content, err)
		}
	}
	_, count, more := made.history.Last("", 10, 0)
	select {
	case <-more:
		t.Error("it is told of nothing")
	default:
	}
	made.must(use("v", "n1", "/a"))
	<-more
	made.host.Close() // only then the history was told all
	if last, _, _ := made.history.Last("", 10, count); len(last) != 4 {
		t.Errorf("%d events came", len(last))
	}
}

// Beyond so many that wait events are lost, and counted, but no session.
func TestLost(t *testing.T) {
	it := coming{told: make(chan struct{}), keep: time.NewTimer(time.Hour)}
	for at := 0; at < waiting+5; at++ {
		it.add([]host.Happening{{What: host.TimedOut}, {What: host.TimedOut}})
	}
	it.add([]host.Happening{{What: host.Began}})
	if batches, lost := len(it.take()), it.losses(); batches != waiting+1 || lost != 10 {
		t.Errorf("%d batches wait, and %d events are lost", batches, lost)
	}
	it.add([]host.Happening{{What: host.TimedOut}})
	if batches := len(it.take()); batches != 1 {
		t.Errorf("%d batches wait", batches)
	}
}
