package host

import (
	"context"
	"errors"
	"fmt"
	"time"

	"google.golang.org/grpc/codes"

	"tufayon/service/carrying"
	"tufayon/service/frames"
	"tufayon/service/plugin"
	"tufayon/service/records"
	"tufayon/service/store"
)

// A sending is a call that is to be made once it is committed.
type sending struct {
	name  string
	call  frames.Call
	until time.Time // when its plugin has to be reached, if there is such a time
	trace string
}

// heard is what came of a call: a reply, or why there is none.
type heard struct {
	name  string
	epoch uint64 // in which the call was made
	call  frames.Call
	reply frames.Reply
	err   error
}

func (it *heard) alone() bool { return false }

// ask hands the reply to the orchestrator, or has the call's timeout told after a while. What came of an earlier session's call is ignored, since that
// was given up when the session began.
func (it *heard) ask(host *Host, work *work) error {
	volume := host.volumes[it.name]
	if it.epoch != host.epoch || volume == nil || !volume.isOpen || volume.open.Number != it.call.Number {
		return nil
	}
	if it.err != nil {
		host.failed(volume, it.err, work)
		return nil
	}
	volume.trouble = ""
	if it.reply.Status != 0 {
		why := fmt.Errorf("%s refused: %d %s", carrying.PluginOf(it.call), it.reply.Status, it.reply.Detail)
		if isStale(it.reply) {
			older := fault{fmt.Errorf("%w: %v", store.ErrOlder, why)}
			return older.ask(host, work)
		}
		if !volume.wantRoom && wantsRoom(it.reply) {
			volume.wantRoom = true
			host.failed(volume, why, work)
			return nil
		}
		volume.trouble = why.Error()
	}
	return host.deliver(volume, it, work)
}

// isStale says whether a plugin has heard of a later call of the volume, or of a later session, than the open call: never in runs of one orchestrator.
func isStale(reply frames.Reply) bool {
	return reply.Status == uint8(codes.Aborted) && reply.Detail == frames.Stale
}

// wantsRoom says whether a plugin refused a call since its rows, those of earlier sessions among them, were all taken. It forgets those once it has
// heard of this session, by this call: so the call is tried once more, as if its reply had been lost.
func wantsRoom(reply frames.Reply) bool {
	return reply.Status == uint8(codes.ResourceExhausted) && (reply.Detail == "volumes" || reply.Detail == "rows")
}

func (host *Host) deliver(volume *volume, it *heard, work *work) error {
	frame, err := it.reply.Encode()
	if err != nil {
		host.failed(volume, err, work) // no plugin's reply is like that
		return nil
	}
	outcome, err := host.core.library.Deliver(frame)
	switch {
	case errors.Is(err, plugin.NoMemory), errors.Is(err, plugin.BadFrame), errors.Is(err, plugin.Short):
		host.failed(volume, err, work)
		return nil
	case err != nil:
		return err
	case outcome.Refusal != 0: // the session has no number left
		return errSession
	case outcome.IsIgnored:
		host.failed(volume, errIgnored, work)
		return nil
	}
	before := volume.row
	row, err := host.core.note()
	if err != nil {
		return err
	}
	volume.isOpen = false
	if it.reply.Status == 0 {
		volume.failures = 0
		host.core.peers.hears(it.call)
	} else {
		volume.failures++
	}
	sent, err := host.took(volume, row, outcome.Frame, work)
	host.tells(work, Happening{What: Replied, Name: it.name, Before: before, Call: it.call, Reply: it.reply, Sent: sent})
	return err
}

// failed notes that a call got no reply.
func (host *Host) failed(volume *volume, why error, work *work) {
	volume.isOpen = false
	volume.failures++
	volume.isQuick = errors.Is(why, carrying.ErrRefused)
	volume.trouble = carrying.PluginOf(volume.open) + ": " + why.Error()
	work.changed[volume.row.Name] = volume
	host.wakeLater(volume)
	host.tells(work, Happening{What: Unanswered, Name: volume.row.Name, Before: volume.row, Call: volume.open, Why: why.Error()})
}

// woken says that it is time to tell a volume's timeout.
type woken struct {
	name         string
	epoch, wakes uint64
}

func (it *woken) alone() bool { return false }

func (it *woken) ask(host *Host, work *work) error {
	volume := host.volumes[it.name]
	if it.epoch != host.epoch || volume == nil || volume.isOpen || volume.wakes != it.wakes || volume.row.Goal == records.None {
		return nil
	}
	return host.timeout(volume, work)
}

// timeout tells the orchestrator that a volume's call timed out, or that something is wanted of it.
func (host *Host) timeout(volume *volume, work *work) error {
	outcome, err := host.core.library.Timeout(volume.row.Name)
	switch {
	case errors.Is(err, plugin.NoMemory):
		host.wakeLater(volume)
		return nil
	case err != nil:
		return err
	case Refusal(outcome.Refusal) == numbersSpent:
		return errSession
	case outcome.Refusal != 0: // nothing is wanted
		return nil
	}
	before := volume.row
	row, err := host.core.note()
	if err != nil {
		return err
	}
	sent, err := host.took(volume, row, outcome.Frame, work)
	host.tells(work, Happening{What: TimedOut, Name: volume.row.Name, Before: before, Sent: sent})
	return err
}

// wanted says that something was wanted of a volume when a session began.
type wanted struct {
	name  string
	epoch uint64
}

func (it *wanted) alone() bool { return false }

func (it *wanted) ask(host *Host, work *work) error {
	volume := host.volumes[it.name]
	if it.epoch != host.epoch || volume == nil || volume.isOpen || volume.row.Goal == records.None {
		return nil
	}
	return host.timeout(volume, work)
}

// resting asks for a volume once nothing is wanted of it.
type resting struct {
	ctx    context.Context
	name   string
	waiter *waiter
}

func (it *resting) alone() bool { return false }

func (it *resting) ask(host *Host, work *work) error {
	if it.ctx.Err() != nil {
		return nil // nobody waits
	}
	row := host.core.row(it.name)
	if row == nil {
		work.answer(it.waiter, answered{err: noSuchVolume})
		return nil
	}
	if row.Goal != records.None {
		if host.waiters.areFull() {
			work.answer(it.waiter, answered{err: ErrBusy})
			return nil
		}
		host.waiters.add(it.name, it.waiter)
		return nil
	}
	work.answer(it.waiter, answered{answer: Answer{Volume: host.volume(it.name).shown(), Reached: true}})
	return nil
}
