package host

import (
	"time"

	"tufayon/service/records"
)

// lastTry is the number of the last try of a use: the timeout of that undoes the use.
const lastTry = 3

// Times say when a call that got no reply is made again.
type Times struct {
	// Patience is over how long the tries of a use are spread: so long a plugin may be away before the use is undone.
	Patience time.Duration
	// Retry is how long it takes until another call is tried again at first. Then it takes twice as long each time, up to MostRetry.
	Retry, MostRetry time.Duration
}

// shares are when, in parts of the patience, the timeout of each try of a use is told at the earliest.
var shares = [lastTry + 1]float64{1: 1.0 / 60, 2: 1.0 / 6, 3: 1}

// delay is how long it takes from now until the timeout of a call that got no reply is told: `tried` is how long ago its first try was, and `failures`
// counts the tries that got no reply.
func (times Times) delay(goal records.Goal, tries uint8, failures int, tried time.Duration) time.Duration {
	delay := times.Retry
	if goal == records.ToUse {
		if tries > lastTry {
			tries = lastTry
		}
		if wanted := time.Duration(shares[tries]*float64(times.Patience)) - tried; wanted > delay {
			delay = wanted
		}
		return delay
	}
	for ; failures > 1 && delay < times.MostRetry; failures-- {
		delay *= 2
	}
	if delay > times.MostRetry {
		delay = times.MostRetry
	}
	return delay
}
