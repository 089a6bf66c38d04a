package version

import (
	"strings"
	"testing"
)

func TestTold(t *testing.T) {
	for _, it := range []struct {
		arguments string
		output    string
	}{{"--version", "program 1.0.0\n"}, {"", ""}, {"--version --version", ""}, {"version", ""}} {
		var output strings.Builder
		told := Told("program", strings.Fields(it.arguments), &output)
		if told != (it.output != "") || output.String() != it.output {
			t.Errorf("%q: %v, %q", it.arguments, told, output.String())
		}
	}
}
