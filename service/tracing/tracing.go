// Package tracing carries the id of a trace through, as W3C's Trace Context has it: a caller's `traceparent` goes on to every call that is made for its
// command. Spans are nobody's here.
package tracing

import (
	"context"
	"regexp"

	"google.golang.org/grpc/metadata"
)

// Key is the metadata's.
const Key = "traceparent"

// form is that of version 00, and of later ones, whose ids aren't all zeros.
var form = regexp.MustCompile(`^[0-9a-f]{2}-[0-9a-f]{32}-[0-9a-f]{16}-[0-9a-f]{2}(-|$)`)

const (
	most    = 256 // characters
	noTrace = "00000000000000000000000000000000"
	noSpan  = "0000000000000000"
)

// IsOne says whether a text is a traceparent.
func IsOne(text string) bool {
	return len(text) <= most && form.MatchString(text) && text[:2] != "ff" && text[3:35] != noTrace && text[36:52] != noSpan &&
		(len(text) == 55 || text[:2] != "00")
}

// From is the traceparent that a call came with, or nothing.
func From(ctx context.Context) string {
	headers, _ := metadata.FromIncomingContext(ctx)
	values := headers.Get(Key)
	if len(values) != 1 || !IsOne(values[0]) {
		return ""
	}
	return values[0]
}

// Into has calls of a context carry a traceparent, if there is one.
func Into(ctx context.Context, trace string) context.Context {
	if trace == "" {
		return ctx
	}
	return metadata.AppendToOutgoingContext(ctx, Key, trace)
}
