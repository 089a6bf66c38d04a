package numbers

import (
	"context"
	"testing"

	"tufayon/service/frames"
)

// Who sees a call is told its last number, and nothing of one that got none; nobody else has to listen.
func TestTelling(t *testing.T) {
	Tell(context.Background(), frames.Number{Session: 1, Call: 1})
	ctx, number := Telling(context.Background())
	if got := number(); got != "" {
		t.Errorf("a call without a number has %q", got)
	}
	for _, call := range []uint64{2, 3} {
		Tell(context.WithValue(ctx, struct{}{}, "more"), frames.Number{Session: 7, Call: call})
	}
	if got := number(); got != "7.3" {
		t.Errorf("it has %q", got)
	}
}
