package carrying

import (
	"strings"
	"testing"

	"google.golang.org/grpc/codes"
	"google.golang.org/grpc/status"
)

// What is told of a driver's words is short, and UTF-8, so that it can be told to callers.
func TestSaid(t *testing.T) {
	long := strings.Repeat("\u20ac", mostSaid)
	for words, want := range map[string]string{
		"no device": "13 Internal no device", "no \xff\xfe device": "13 Internal no \ufffd device", long: "13 Internal " + long[:mostSaid-mostSaid%3] + "..",
	} {
		if got := said(status.Error(codes.Internal, words)); got != want {
			t.Errorf("%.30q is told as %q", words, got)
		}
	}
}
