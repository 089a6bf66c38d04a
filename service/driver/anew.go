package driver

import (
	"context"
	"errors"
	"fmt"
	"strings"
	"sync"
	"time"

	"google.golang.org/grpc/codes"
	"google.golang.org/grpc/status"

	"tufayon/service/frames"
	"tufayon/service/hooks"
	"tufayon/service/records"
	"tufayon/service/serving"
)

const (
	mostAnew  = 8 // volumes of which something is done anew at once
	mostPause = 30 * time.Second
	mostWhy   = 256 // bytes of why a volume isn't mounted, since all are told at once
)

// errNoStaging says that a volume is staged, and that its path isn't kept.
var errNoStaging = errors.New("it isn't known where it is staged")

// An Anew stages and publishes anew what a node's record has staged and published, once its machine was started again: it took all mounts with it. It begins
// once it is confirmed that the store is no older copy, by which a volume could be mounted that is another node's by now. Of each volume that is one deed
// after another, while its calls wait; where one fails, the others go on, its calls are let in that undo something, or stage it, and it is tried again. Until
// it is done nothing more of it is published.
type Anew struct {
	id      string
	does    hooks.Hooks
	backend *Backend // gets what is in the way, whenever that changes
	pause   time.Duration

	mutex sync.Mutex
	left  map[uint64]*one // what isn't done yet
	all   []uint64        // what wasn't when it began, by rising id
}

// NewAnew makes one that has nothing to do.
func NewAnew(id string, does hooks.Hooks, backend *Backend) *Anew {
	return &Anew{id: id, does: does, backend: backend, pause: time.Second, left: map[uint64]*one{}}
}

// Begin begins, before anybody is let in. `tried` is closed once each volume was tried that is staged, and `done` once all is done.
func (anew *Anew) Begin(ctx context.Context, core *serving.Core) (tried, done <-chan struct{}, err error) {
	var volumes []uint64
	err = core.Look(ctx, func(view serving.View) {
		for _, volume := range view.Volumes() {
			if records.IsStaged(view.Row(volume)) {
				volumes = append(volumes, volume)
			}
		}
	})
	if err != nil {
		return nil, nil, err
	}
	all, first := make(chan struct{}), make(chan struct{})
	var ones, firsts sync.WaitGroup
	for _, one := range anew.expect(core, volumes) {
		one := one
		ones.Add(1)
		firsts.Add(1)
		go func() {
			defer ones.Done()
			one.run(firsts.Done)
		}()
	}
	go func() {
		firsts.Wait()
		close(first)
		ones.Wait()
		if anew.isDone() {
			close(all)
		}
	}()
	return first, all, nil
}

// expect notes that something is to be done of volumes, by rising id: of all at once, since each time all are told.
func (anew *Anew) expect(core *serving.Core, volumes []uint64) []*one {
	anew.mutex.Lock()
	defer anew.mutex.Unlock()
	ones, places := make([]*one, 0, len(volumes)), make(chan struct{}, mostAnew)
	for _, volume := range volumes {
		it := &one{anew: anew, core: core, volume: volume, places: places, wakes: make(chan struct{}, 1)}
		ones, anew.left[volume] = append(ones, it), it
	}
	anew.all = volumes
	anew.backend.tellTrouble(anew.trouble())
	return ones
}

// one is a volume of which something is to be done anew.
type one struct {
	anew   *Anew
	core   *serving.Core
	volume uint64
	places chan struct{}
	wakes  chan struct{} // has one where it is to be tried at once
	why    error         // it failed: nil where it wasn't tried. Under anew's lock
}

// run does it, until it is done, or the core ends.
func (one *one) run(tried func()) {
	var once sync.Once
	defer once.Do(tried)
	select {
	case <-one.anew.backend.isSure:
	case <-one.core.Done():
		return
	}
	for pause := one.anew.pause; ; pause *= 2 {
		if isEnded, err := one.try(); isEnded || err == nil {
			return
		}
		once.Do(tried)
		if pause > mostPause {
			pause = mostPause
		}
		select {
		case <-time.After(pause):
		case <-one.wakes:
		case <-one.core.Done():
			return
		}
	}
}

// try does it once, in the volume's turn.
func (one *one) try() (isEnded bool, err error) {
	one.places <- struct{}{}
	defer func() { <-one.places }()
	release, err := one.core.Hold(one.volume)
	if err != nil {
		return true, err
	}
	defer release()
	isEnded, err = one.core.Anew(one.volume, one.anew.restore)
	if !isEnded {
		one.anew.end(one, err)
	}
	return isEnded, err
}

// restore does anew what the store has of a volume: it stages it, and then publishes it at each target. A target of which that fails holds up no other.
func (anew *Anew) restore(known serving.Known, act func(serving.Known, serving.Request) error) error {
	row, err := rowOf(known)
	if err != nil || !row.IsStaged {
		return err
	}
	if known.Staging == "" {
		return errNoStaging
	}
	known.Number = row.Last // what has done more since is known by it
	deed := hooks.Deed{Call: "NodeStageVolume", Staging: known.Staging, Capability: &row.Capability}
	request := asking(anew.does, frames.NodeStageVolume{ID: known.Volume, Capability: row.Capability}, deed, always)
	if err := act(known, request); err != nil {
		return at(known.Staging, err)
	}
	var failed error
	for place, target := range row.Targets {
		deed.Call, deed.Target, deed.Readonly = "NodePublishVolume", target, row.Readonly[place]
		body := frames.NodePublishVolume{ID: known.Volume, Target: target, Capability: row.Capability, Readonly: deed.Readonly}
		if err := act(known, asking(anew.does, body, deed, always)); err != nil && failed == nil {
			failed = at(target, err)
		}
	}
	return failed
}

// at says at which path something failed, unless that says so itself.
func at(path string, err error) error {
	if strings.HasPrefix(err.Error(), path+": ") {
		return err
	}
	return fmt.Errorf("%s: %w", path, err)
}

// end notes what came of a volume's.
func (anew *Anew) end(one *one, err error) {
	anew.mutex.Lock()
	defer anew.mutex.Unlock()
	if one.why = err; err == nil {
		delete(anew.left, one.volume)
	}
	anew.backend.tellTrouble(anew.trouble())
}

// wake has a volume tried at once, if it is to be tried again: a call of it ended. A nil Anew has none.
func (anew *Anew) wake(volume uint64) {
	if anew == nil {
		return
	}
	anew.mutex.Lock()
	defer anew.mutex.Unlock()
	if one := anew.left[volume]; one != nil {
		select {
		case one.wakes <- struct{}{}:
		default:
		}
	}
}

func (anew *Anew) isDone() bool {
	anew.mutex.Lock()
	defer anew.mutex.Unlock()
	return len(anew.left) == 0
}

// trouble says what isn't mounted: that which failed first by its id, and how many there are. The lock is held.
func (anew *Anew) trouble() Trouble {
	if len(anew.left) == 0 {
		return Trouble{}
	}
	trouble, first := Trouble{Asks: true, Unmounted: anew.unmounted()}, (*one)(nil)
	for _, it := range trouble.Unmounted {
		if one := anew.left[it.Volume]; one.why != nil {
			first = one
			break
		}
	}
	count := len(anew.left)
	if first == nil {
		trouble.Text = fmt.Sprintf("its machine was started again: volumes that aren't mounted yet: %d", count)
		return trouble
	}
	trouble.Text = fmt.Sprintf("its machine was started again: volume %d isn't mounted: %v", first.volume, first.why)
	if count > 1 {
		trouble.Text += fmt.Sprintf(" (and others: %d)", count-1)
	}
	return trouble
}

// unmounted are the volumes of which something isn't done yet, by rising id, with why. The lock is held.
func (anew *Anew) unmounted() []Unmounted {
	all := make([]Unmounted, 0, len(anew.left))
	for _, volume := range anew.all {
		one := anew.left[volume]
		if one == nil {
			continue
		}
		why := "it isn't mounted yet"
		if one.why != nil {
			why = one.why.Error()
		}
		if len(why) > mostWhy {
			why = strings.ToValidUTF8(why[:mostWhy], "")
		}
		all = append(all, Unmounted{volume, why})
	}
	return all
}

// judge refuses to publish a volume of which something isn't done anew: there might be nothing that could be published. A nil Anew refuses nothing.
func (anew *Anew) judge(volume uint64) error {
	if anew == nil {
		return nil
	}
	anew.mutex.Lock()
	defer anew.mutex.Unlock()
	one := anew.left[volume]
	switch {
	case one == nil:
		return nil
	case one.why == nil:
		return status.Error(codes.Unavailable, "the machine was started again, and the volume isn't mounted yet")
	}
	return status.Error(codes.Unavailable, "the machine was started again: "+one.why.Error())
}
