package numbers

import (
	"context"

	"tufayon/service/frames"
)

// toldKey is that of a context's value which is told a call's number.
type toldKey struct{}

// Telling gives a context by which a call's number is told, and what says it once the call has ended: nothing where it got none.
func Telling(ctx context.Context) (told context.Context, number func() string) {
	last := new(frames.Number)
	return context.WithValue(ctx, toldKey{}, last), func() string {
		if *last == (frames.Number{}) {
			return ""
		}
		return Text(*last)
	}
}

// Tell tells a call's number to who asked for it by the call's context.
func Tell(ctx context.Context, number frames.Number) {
	if last, is := ctx.Value(toldKey{}).(*frames.Number); is {
		*last = number
	}
}
