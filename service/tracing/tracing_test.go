package tracing

import (
	"context"
	"testing"

	"google.golang.org/grpc/metadata"
)

// What a traceparent is, by W3C's Trace Context, "traceparent Header": version, trace and parent in small hexadecimal digits, not all zeros, and flags.
func TestForm(t *testing.T) {
	const trace = "4bf92f3577b34da6a3ce929d0e0e4736"
	for text, want := range map[string]bool{
		"00-" + trace + "-00f067aa0ba902b7-01": true, "00-" + trace + "-00f067aa0ba902b7-00": true,
		"01-" + trace + "-00f067aa0ba902b7-01-what-comes-later": true, "00-" + trace + "-00f067aa0ba902b7-01-more": false,
		"ff-" + trace + "-00f067aa0ba902b7-01": false, "00-00000000000000000000000000000000-00f067aa0ba902b7-01": false,
		"00-" + trace + "-0000000000000000-01": false, "00-4BF92F3577B34DA6A3CE929D0E0E4736-00f067aa0ba902b7-01": false,
		"": false, "00-" + trace + "-00f067aa0ba902b7": false, "00-" + trace + "-00f067aa0ba902b7-01\n": false,
	} {
		if IsOne(text) != want {
			t.Errorf("%q is one: %v", text, !want)
		}
	}
}

// It goes through: from who calls to who is called.
func TestThrough(t *testing.T) {
	const text = "00-4bf92f3577b34da6a3ce929d0e0e4736-00f067aa0ba902b7-01"
	ctx := metadata.NewIncomingContext(context.Background(), metadata.Pairs(Key, text))
	sent, _ := metadata.FromOutgoingContext(Into(ctx, From(ctx)))
	if got := sent.Get(Key); len(got) != 1 || got[0] != text {
		t.Errorf("%q is sent", got)
	}
	twice := metadata.NewIncomingContext(context.Background(), metadata.Pairs(Key, text, Key, text))
	if got := From(twice); got != "" {
		t.Errorf("of two it is %q", got)
	}
	if got, _ := metadata.FromOutgoingContext(Into(context.Background(), "")); len(got) != 0 {
		t.Errorf("of none %v is sent", got)
	}
}
