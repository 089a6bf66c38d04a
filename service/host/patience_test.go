package host

import (
	"testing"
	"time"

	"tufayon/service/records"
)

func TestDelay(t *testing.T) {
	times := Times{Patience: 300 * time.Second, Retry: time.Second, MostRetry: 60 * time.Second}
	for _, it := range []struct {
		goal     records.Goal
		tries    uint8
		failures int
		tried    time.Duration
		want     time.Duration
	}{
		{records.ToUse, 1, 1, 0, 5 * time.Second},
		{records.ToUse, 1, 1, 15 * time.Second, time.Second},
		{records.ToUse, 2, 2, 15 * time.Second, 35 * time.Second},
		{records.ToUse, 3, 3, 50 * time.Second, 250 * time.Second},
		{records.ToUse, 3, 3, 301 * time.Second, time.Second},
		{records.ToStop, 1, 1, 0, time.Second},
		{records.ToStop, 3, 2, 0, 2 * time.Second},
		{records.ToCreate, 3, 4, 0, 8 * time.Second},
		{records.ToDelete, 3, 1000, 0, 60 * time.Second},
	} {
		if got := times.delay(it.goal, it.tries, it.failures, it.tried); got != it.want {
			t.Errorf("%+v: %v", it, got)
		}
	}
}
