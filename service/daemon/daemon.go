// Package daemon tells systemd how a process does, where that runs it, and has its log go where it belongs.
package daemon

import (
	"context"
	"strings"
	"time"

	systemd "github.com/coreos/go-systemd/daemon"
)

// Ready says that the process serves, or waits to lead: what it does now is told beside it.
func Ready(status string) { notify(systemd.SdNotifyReady + "\nSTATUS=" + line(status)) }

// Status says what it does now.
func Status(status string) { notify("STATUS=" + line(status)) }

// Stopping says that it is to end.
func Stopping() { notify(systemd.SdNotifyStopping) }

// notify tells systemd, if that asked for it. What fails is nobody's fault here.
func notify(state string) { _, _ = systemd.SdNotify(false, state) }

// mostStatus is how many bytes of a status are told. systemd takes no notice of a message of more than 4,096, also where it says that a process is ready.
const mostStatus = 1024

// line has a text be one line, as a status is, and no longer than one may be.
func line(text string) string {
	bytes := []byte(text)
	if len(bytes) > mostStatus {
		bytes = bytes[:mostStatus]
	}
	for at, it := range bytes {
		if it < ' ' {
			bytes[at] = ' '
		}
	}
	return strings.ToValidUTF8(string(bytes), "")
}

// Watchdog tells systemd that the process is alive as long as it is, where the unit has a watchdog, until the context ends. It gives at once.
func Watchdog(ctx context.Context, isAlive func() bool) {
	within, err := systemd.SdWatchdogEnabled(false)
	if err != nil || within == 0 {
		return
	}
	go func() {
		tick := time.NewTicker(within / 3)
		defer tick.Stop()
		for {
			if isAlive() {
				notify(systemd.SdNotifyWatchdog)
			}
			select {
			case <-tick.C:
			case <-ctx.Done():
				return
			}
		}
	}()
}
