package daemon

import (
	"os"
	"runtime/debug"
)

// collects is GOGC, where the environment has none.
const collects = 400

// CollectSeldom lets garbage grow to four times what is in use, unless the environment's GOGC says otherwise: what these processes have in use is small, and
// Go would collect a few MB of garbage many times a second.
func CollectSeldom() {
	if os.Getenv("GOGC") == "" {
		debug.SetGCPercent(collects)
	}
}
