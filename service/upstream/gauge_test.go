package upstream

import (
	"context"
	"errors"
	"testing"
	"time"

	"tufayon/service/serving"
)

// looked is what a core does that is held up until it is told what comes of it.
type looked chan error

func (it looked) Look(_ context.Context, look func(serving.View)) error {
	if err := <-it; err != nil {
		return err
	}
	look(serving.View{})
	return nil
}

// Who asks for a number isn't held up by a core that is, and asks it once.
func TestGauge(t *testing.T) {
	var gauge gauge
	if now := gauge.count(); now != 0 {
		t.Errorf("nobody serves, and it is %d", now)
	}
	core, number := make(looked, 1), 0
	gauge.of(core, func(serving.View) int { number++; return number })
	core <- nil
	if now := gauge.count(); now != 1 {
		t.Errorf("counted: %d", now)
	}
	for at := 0; at < 3; at++ { // a commit hangs
		if now := gauge.count(); now != 1 {
			t.Errorf("as before: %d", now)
		}
	}
	core <- nil
	for end := time.Now().Add(10 * time.Second); time.Now().Before(end) && gauge.count() != 2; {
		time.Sleep(time.Millisecond)
	}
	core <- errors.New("it ended")
	if now := gauge.count(); now != 2 {
		t.Errorf("what was counted last: %d", now)
	}
}
