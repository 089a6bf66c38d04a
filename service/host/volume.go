package host

import (
	"time"

	"tufayon/service/carrying"
	"tufayon/service/frames"
	"tufayon/service/records"
)

// A Volume is what there is to be known of one, as it was committed last.
type Volume struct {
	*records.Row           // nobody changes it
	Since        time.Time // since when something is wanted of it, as this process knows it
	HeldUpBy     string    // the plugin whose reply is waited for: controller, or node: and its id
	Trouble      string    // why the last call got no reply or was refused, or why what was asked for was given up
	// Due is the kind of the call that is under way or comes next, while something is wanted: 0 before the first one of a process. Again is when its
	// timeout is told, if none is under way.
	Due   frames.Kind
	Again time.Time
}

// volume is what the loop knows of a volume beside its row.
type volume struct {
	row     *records.Row
	since   time.Time
	trouble string // why the last call got no reply, or was refused
	why     string // that, when a create or a use was given up for it

	isOpen bool        // a call is under way
	open   frames.Call // the call that was sent last, while something is wanted

	kind     frames.Kind // of the call that is due: 0 where none was sent
	first    time.Time   // when it was tried first
	failures int         // how many tries of it got no reply
	wantRoom bool        // one of them was refused since the plugin had no room
	isQuick  bool        // the last one was refused by the plugin's driver: patience wouldn't help
	wakes    uint64      // counts the times at which a timeout is to be told: only the last one counts
	again    time.Time   // the last of them
	trace    string      // of the last command, which calls carry
}

func (volume *volume) shown() Volume {
	shown := Volume{Row: volume.row, Since: volume.since, Trouble: volume.trouble}
	if shown.Trouble == "" {
		shown.Trouble = volume.why
	}
	if volume.row.Goal != records.None {
		shown.Due, shown.Again = volume.kind, volume.again
	}
	if volume.isOpen {
		shown.HeldUpBy, shown.Again = carrying.PluginOf(volume.open), time.Time{}
	}
	return shown
}

// sends notes that a call is sent.
func (volume *volume) sends(call frames.Call, now time.Time) {
	if volume.kind != call.Kind() {
		volume.kind, volume.first, volume.failures, volume.wantRoom = call.Kind(), now, 0, false
	}
	volume.isOpen, volume.open, volume.isQuick = true, call, false
	volume.wakes++
}

// rests notes that nothing is wanted of it any more.
func (volume *volume) rests() {
	volume.isOpen, volume.kind, volume.failures, volume.since = false, 0, 0, time.Time{}
	volume.wakes++
}

// volume is what the loop knows of a volume that has a row.
func (host *Host) volume(name string) *volume {
	it := host.volumes[name]
	if it == nil {
		it = &volume{row: host.core.row(name)}
		host.volumes[name] = it
	}
	return it
}

// took takes over what the orchestrator was asked about a volume: its row, where that changed, and the frame that is to be sent once that is committed,
// whose call it gives.
func (host *Host) took(it *volume, row *records.Row, frame []byte, work *work) (*frames.Call, error) {
	if row != nil {
		if isGivenUp(it.row, row) {
			it.why = it.trouble
		}
		it.row = row
	}
	work.changed[it.row.Name] = it
	if it.row.Goal == records.None {
		it.rests()
		host.waiters.rest(work, it)
		return nil, nil
	}
	now := time.Now()
	if it.since.IsZero() {
		it.since = now
	}
	if len(frame) == 0 {
		if !it.isOpen {
			host.wakeLater(it)
		}
		return nil, nil
	}
	call, err := frames.DecodeCall(frame)
	if err != nil {
		return nil, err
	}
	it.sends(call, now)
	until := time.Time{}
	if it.row.Goal == records.ToUse {
		until = it.first.Add(host.times.Patience)
	}
	host.send(sending{name: it.row.Name, call: call, until: until, trace: it.trace}, work)
	return &call, nil
}

// isGivenUp says whether a create or a use is wanted no more that wasn't reached.
func isGivenUp(before, after *records.Row) bool {
	return before.Goal == records.ToUse && after.Goal == records.ToStop ||
		before.Goal == records.ToCreate && after.Goal == records.None && after.Exists != records.Yes
}

// wakeLater has a volume's timeout told after a while.
func (host *Host) wakeLater(it *volume) {
	it.wakes++
	woken := &woken{name: it.row.Name, epoch: host.epoch, wakes: it.wakes}
	goal := it.row.Goal
	if it.isQuick {
		goal = records.None
	}
	delay := host.times.delay(goal, it.row.Tries, it.failures, time.Since(it.first))
	it.again = time.Now().Add(delay)
	time.AfterFunc(delay, func() { host.tell(woken) })
}
