package daemon

import (
	"errors"
	"fmt"
	"strings"
	"sync"
	"testing"
	"time"

	"go.uber.org/zap"
	"go.uber.org/zap/zapcore"
)

// written is what is written to, and how often that was.
type written struct {
	mutex sync.Mutex
	text  string
	times int
	fault error
}

func (it *written) Write(bytes []byte) (int, error) {
	it.mutex.Lock()
	defer it.mutex.Unlock()
	it.text += string(bytes)
	it.times++
	return len(bytes), it.fault
}

// has waits until there are so many lines, and gives how often it was written to.
func (it *written) has(t *testing.T, lines int) (times int) {
	t.Helper()
	for end := time.Now().Add(10 * time.Second); time.Now().Before(end); time.Sleep(time.Millisecond) {
		it.mutex.Lock()
		got, times := strings.Count(it.text, "\n"), it.times
		it.mutex.Unlock()
		if got == lines {
			return times
		}
	}
	t.Fatalf("there aren't %d lines: %s", lines, it.text)
	return 0
}

// Events wait for a moment and are written together, a warning at once with those before it, and the rest at the end.
func TestHeld(t *testing.T) {
	to := &written{}
	log := LoggerTo(to, zapcore.InfoLevel)
	for at := 0; at < 100; at++ {
		log.Info("a call", zap.Int("at", at))
	}
	if times := to.has(t, 100); times > 10 {
		t.Errorf("100 events were written %d times", times)
	}
	log.Info("a call")
	began := time.Now()
	log.Warn("a call got no reply")
	if to.has(t, 102); time.Since(began) >= held {
		t.Error("a warning waits")
	}
	log.With(zap.String("of", "w")).Info("a call")
	log.Sync()
	if to.has(t, 103); !strings.Contains(to.text, `"msg":"a call","of":"w"}`) {
		t.Errorf("it is %s", to.text)
	}
	log.Info("a call")
	to.has(t, 104) // without anything more
}

// Who logs more than may wait has them written, and none is lost; those of one goroutine stay in their order.
func TestManyHeld(t *testing.T) {
	to := &written{}
	log := LoggerTo(to, zapcore.InfoLevel)
	const callers, each = 4, 4000 // lines of which some hundred are too many
	var group sync.WaitGroup
	for caller := 0; caller < callers; caller++ {
		group.Add(1)
		go func(caller int) {
			defer group.Done()
			for at := 0; at < each; at++ {
				log.Info("a call", zap.Int("caller", caller), zap.Int("at", at))
			}
		}(caller)
	}
	group.Wait()
	log.Sync()
	next := make([]int, callers)
	for _, line := range strings.Split(strings.TrimSuffix(to.text, "\n"), "\n") {
		var caller, at int
		if _, err := fmt.Sscanf(line[strings.Index(line, `"caller"`):], `"caller":%d,"at":%d}`, &caller, &at); err != nil || next[caller] != at {
			t.Fatalf("%s comes where %d should, %v", line, next[caller], err)
		}
		next[caller]++
	}
	for caller, count := range next {
		if count != each {
			t.Errorf("%d has %d lines", caller, count)
		}
	}
}

// What can't be written is told to who has it written.
func TestCantBeWritten(t *testing.T) {
	to := &written{fault: errors.New("no space")}
	log := LoggerTo(to, zapcore.InfoLevel)
	log.Info("a call")
	if err := log.Sync(); err != to.fault {
		t.Errorf("it is %v", err)
	}
	to.fault = nil
	log.Info("a call")
	if err := log.Sync(); err != nil {
		t.Errorf("it is %v", err)
	}
}
