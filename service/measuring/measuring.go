// Package measuring has what benchmarks say of turns that were measured one after the other.
package measuring

import (
	"math"
	"sort"
	"testing"
	"time"

	"golang.org/x/sys/unix"
)

// Median puts the values in order.
func Median(all []float64) float64 {
	sort.Float64s(all)
	return (all[(len(all)-1)/2] + all[len(all)/2]) / 2
}

// ErrorOf is the standard error of the median of these: half of how far those are apart that are as many places above it and below it as a coin that is thrown
// for each is above or below its mean. It puts them in order.
func ErrorOf(all []float64) float64 {
	sort.Float64s(all)
	places, middle := math.Sqrt(float64(len(all)))/2, float64(len(all)-1)/2
	above, below := math.Min(math.Ceil(middle+places), float64(len(all)-1)), math.Max(math.Floor(middle-places), 0)
	return (all[int(above)] - all[int(below)]) / 2
}

// Processors is how long a process has had the processors.
func Processors(b testing.TB, process int) time.Duration {
	var used unix.Timespec
	if err := unix.ClockGettime(int32(^process<<3|2), &used); err != nil { // as clock_getcpuclockid(3) has it
		b.Fatal(err)
	}
	return time.Duration(used.Nano())
}
