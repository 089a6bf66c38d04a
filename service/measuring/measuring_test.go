package measuring

import (
	"os"
	"testing"
	"time"
)

func TestMedian(t *testing.T) {
	for _, row := range []struct {
		all  []float64
		want float64
	}{{[]float64{7}, 7}, {[]float64{3, 1, 2}, 2}, {[]float64{4, 1, 3, 2}, 2.5}} {
		if came := Median(row.all); came != row.want {
			t.Errorf("of %v: %v, not %v", row.all, came, row.want)
		}
	}
}

// Of sixteen values in order a coin is two places from the middle: the error is half of how far the sixth and the eleventh are apart.
func TestErrorOf(t *testing.T) {
	var all []float64
	for at := 16; at > 0; at-- {
		all = append(all, float64(at))
	}
	if came := ErrorOf(all); came != 2.5 {
		t.Errorf("%v", came)
	}
	if came := ErrorOf([]float64{5}); came != 0 {
		t.Errorf("of one value: %v", came)
	}
}

func TestProcessors(t *testing.T) {
	before := Processors(t, os.Getpid())
	for end := time.Now().Add(50 * time.Millisecond); time.Now().Before(end); {
	}
	if after := Processors(t, os.Getpid()); after <= before {
		t.Errorf("%v, and then %v", before, after)
	}
}
