package serving

import (
	"context"
	"errors"
	"fmt"
	"runtime"

	"google.golang.org/grpc/codes"
	"google.golang.org/grpc/status"

	"tufayon/service/frames"
	"tufayon/service/numbers"
	"tufayon/service/records"
	"tufayon/service/staging"
	"tufayon/service/store"
)

const (
	mostJobs    = 64        // that are committed together
	mostChanges = 104       // after so many a group is committed, whoever waits: a transaction of etcd takes 128 unless it is told otherwise
	mostBytes   = 512 << 10 // likewise: of 1.5 MiB
)

// A job is run on the plugin's goroutine. What it gives is told once what it changed is committed.
type job struct {
	run func(*group) (confirm bool, err error) // confirm: its answer holds only if this process still has the store
	err error
	ran chan struct{}
}

// A group is what was asked since the last commit.
type group struct {
	jobs    []*job
	order   []uint64
	changes map[uint64]store.Change // the last one of each key
	bytes   int
	texts   []store.Text // committed with the changes: the last one of each key
	textAt  map[string]int
	notes   []store.Note // committed before the changes
	taken   []uint64     // volumes that aren't staged any more, once the changes are committed
	sides   []store.Side // likewise
	sideAt  map[string]int
	late    int // how many of the sides are of rows that went with an earlier commit
	confirm bool
	atOnce  bool // the job that runs changes nothing, and what it tells holds whatever becomes of the group
}

func newGroup() *group {
	return &group{changes: map[uint64]store.Change{}, textAt: map[string]int{}, sideAt: map[string]int{}}
}

func (group *group) add(changes []store.Change) {
	for _, change := range changes {
		if _, there := group.changes[change.Key]; !there {
			group.order = append(group.order, change.Key)
		}
		group.changes[change.Key] = change
		group.bytes += len(change.Value) + 64
	}
}

// addTexts adds changes of texts.
func (group *group) addTexts(texts []store.Text) {
	for _, it := range texts {
		at, there := group.textAt[it.Key]
		if !there {
			at, group.texts = len(group.texts), append(group.texts, store.Text{})
			group.textAt[it.Key] = at
		}
		group.texts[at] = it
		group.bytes += len(it.Key) + len(it.Value) + 64
	}
}

// addSide adds a side.
func (group *group) addSide(it store.Side) {
	at, there := group.sideAt[it.Name]
	if !there {
		at, group.sides = len(group.sides), append(group.sides, store.Side{})
		group.sideAt[it.Name] = at
	}
	group.sides[at] = it
	group.bytes += len(it.Name) + len(it.Value) + 64
}

func (group *group) isFull() bool {
	return len(group.order)+len(group.texts)+len(group.sides) >= mostChanges || group.bytes >= mostBytes
}

func (group *group) list() []store.Change {
	changes := make([]store.Change, 0, len(group.order))
	for _, key := range group.order {
		changes = append(changes, group.changes[key])
	}
	return changes
}

func (core *Core) run(ctx context.Context, opened chan<- error) {
	runtime.LockOSThread() // for good: the thread ends with the goroutine
	defer close(core.done)
	err := core.load(ctx)
	if err == nil {
		core.count()
		core.source, err = core.config.Numbering(core.latest())
	}
	opened <- err
	defer core.free()
	if err != nil {
		return
	}
	for core.err == nil {
		select {
		case job := <-core.jobs:
			core.carryOut(core.waiting(job))
		case <-core.config.Store.Lost():
			core.err = store.ErrLost
		case <-core.stop:
			core.settleNotes()
			return
		}
	}
	core.endActs() // another process may have the store by now, and act by it
}

// waiting gives the job and those that wait behind it, as many as are committed together.
func (core *Core) waiting(first *job) []*job {
	jobs := []*job{first}
	for len(jobs) < mostJobs {
		select {
		case next := <-core.jobs:
			jobs = append(jobs, next)
		default:
			return jobs
		}
	}
	return jobs
}

// carryOut runs jobs, and tells each what came of it once that is committed, or at once where that is enough. Where a commit fails, none of its group is told
// anything but that.
func (core *Core) carryOut(jobs []*job) {
	group := newGroup()
	for _, job := range jobs {
		if core.err != nil {
			job.err = errEnded
			close(job.ran)
			continue
		}
		group.jobs, group.atOnce = append(group.jobs, job), false
		var confirm bool
		confirm, job.err = job.run(group)
		if group.atOnce && store.IsLocked(core.config.Store) { // there is nothing to confirm either
			group.jobs = group.jobs[:len(group.jobs)-1]
			close(job.ran)
			continue
		}
		group.confirm = group.confirm || confirm
		if group.isFull() {
			core.settle(group)
		}
	}
	core.settle(group)
}

// settle commits what a group changed, where each is staged before all else, tells its jobs so, and empties it.
func (core *Core) settle(group *group) {
	if core.err == nil && len(group.notes) > 0 {
		notes := append(core.paths.Late(), group.notes...)
		if err := core.timed(func() error { return core.notes.Commit(context.Background(), notes) }); err != nil {
			core.err = err
		}
	}
	if core.err == nil && (group.confirm || len(group.order)+len(group.texts)+len(group.sides) > 0) {
		core.addLate(group)
		if err := core.commit(group); err != nil {
			core.err = err
		}
	}
	if core.err == nil {
		core.forgetLast(group)
		for _, volume := range group.taken {
			core.paths.Take(volume)
		}
	}
	for _, job := range group.jobs {
		if core.err != nil {
			job.err = errEnded
		}
		close(job.ran)
	}
	*group = *newGroup()
}

// settleNotes takes out of the notes what isn't staged any more. Where that fails, the next start does it.
func (core *Core) settleNotes() {
	if late := core.paths.Late(); len(late) > 0 {
		core.notes.Commit(context.Background(), late)
	}
}

// inTurn runs a job on the plugin's goroutine, after those that came before it. It isn't run where the context ends before its turn.
func (core *Core) inTurn(ctx context.Context, run func(*group) (bool, error)) error {
	job := &job{run: run, ran: make(chan struct{})}
	if ctx.Err() != nil {
		return status.FromContextError(ctx.Err()).Err()
	}
	select {
	case core.jobs <- job:
		<-job.ran
		return job.err
	case <-ctx.Done():
		return status.FromContextError(ctx.Err()).Err()
	case <-core.done:
		return errEnded
	}
}

// load makes the plugin from the store, and commits what that changes.
func (core *Core) load(ctx context.Context) error {
	parts, err := core.config.Store.Load(ctx)
	if err != nil {
		return err
	}
	made, renewed, err := core.config.Make(store.Record(parts))
	if err != nil {
		return err
	}
	core.plugin, core.parts = made, make(map[uint64][]byte, len(parts))
	for _, part := range parts {
		core.parts[part.Key] = part.Value
	}
	changes, err := made.Changes()
	if err != nil {
		return err
	}
	texts, err := core.loadTexts(ctx, parts)
	if err != nil {
		return err
	}
	if len(changes)+len(texts) > 0 {
		if err := core.commitLoaded(ctx, renewed, changes, texts); err != nil {
			return err
		}
		if renewed {
			core.parts = make(map[uint64][]byte, len(changes))
		}
		core.apply(changes)
	}
	if err := core.loadSides(ctx); err != nil {
		return err
	}
	return core.loadPaths(ctx)
}

// loadPaths reads where volumes are staged, of those that the record has staged.
func (core *Core) loadPaths(ctx context.Context) error {
	kept := map[uint64]string{}
	var err error
	if core.config.Notes != nil && core.notes == nil {
		if core.notes, err = core.config.Notes(ctx); err != nil {
			return err
		}
	}
	if core.notes != nil {
		if kept, err = core.notes.Load(ctx); err != nil {
			return err
		}
	}
	core.paths = staging.New(kept)
	for volume := range kept {
		if !records.IsStaged(core.parts[volume]) {
			core.paths.Take(volume)
		}
	}
	return nil
}

func (core *Core) free() {
	if core.plugin != nil {
		core.plugin.Free()
		core.plugin = nil
	}
}

func (core *Core) apply(changes []store.Change) {
	for _, change := range changes {
		if change.Out {
			delete(core.parts, change.Key)
		} else {
			core.parts[change.Key] = change.Value
		}
	}
	for _, change := range changes {
		if change.Out && core.parts[change.Key] == nil { // else its own call made it anew, which is its last one
			delete(core.last, change.Key)
		}
	}
}

// latest is the latest session that the plugin has heard of.
func (core *Core) latest() uint64 {
	session, _ := records.Session(core.parts[records.HeadKey])
	return session
}

func (core *Core) known(number frames.Number, volume uint64) Known {
	known := Known{Number: number, Volume: volume, Session: core.latest(), Staging: core.paths.Of(volume)}
	if volume != 0 {
		known.Row = core.parts[volume]
	}
	return known
}

// number gives a request its number, and has it judged, where that is asked.
func (core *Core) number(ctx context.Context, request Request, judged bool) (frames.Number, error) {
	known := core.known(frames.Number{}, request.Body.Volume())
	number, err := core.source.Number(ctx, numbers.Of{Kind: request.Body.Kind(), HasRow: known.Row != nil, Latest: known.Session})
	if err == nil {
		numbers.Tell(ctx, number)
		if !core.isBegun(number.Session) {
			err = errNotBegun
		}
	}
	if err != nil || !judged || request.Judge == nil {
		return number, err
	}
	known.Number = number
	return number, request.Judge(known)
}

// asked is what came of asking the plugin.
type asked struct {
	answer     Answer
	known      Known // before the call, of the volume that it names or made
	isOK       bool  // the plugin allows it, or allowed it where this is a duplicate
	isFresh    bool  // the fence let it through, now
	isAnothers bool  // a duplicate of another call's number, which gets that call's reply
}

// ask has the plugin answer a request. What that changes is in the group, and in the record that is known.
func (core *Core) ask(group *group, request Request, number frames.Number) (asked, error) {
	reply, err := core.answerOf(core.plugin, request, number)
	if err != nil {
		return asked{}, err
	}
	changes, err := core.plugin.Changes()
	if err != nil {
		return asked{}, core.takeBack(group)
	}
	volume := request.Body.Volume()
	if reply.Volume != 0 {
		volume = reply.Volume
	}
	result := asked{known: core.known(number, volume), isFresh: touches(changes, volume)}
	result.isAnothers = reply.Kind != request.Body.Kind() || !core.isLast(group, volume, number, request, result.isFresh)
	result.isOK = reply.Status == 0 && !result.isAnothers
	if result.isOK && !result.isFresh && result.known.Row != nil {
		core.config.Observer.Repeated(reply.Kind)
	}
	group.add(changes)
	core.apply(changes)
	core.takeOut(group, changes)
	result.answer = Answer{Reply: reply, Row: core.known(number, volume).Row}
	core.note(group, request, result)
	return result, nil
}

// note keeps where a volume is staged from now on, or that it isn't any more.
func (core *Core) note(group *group, request Request, asked asked) {
	volume := request.Body.Volume()
	if !asked.isOK || !asked.isFresh {
		return
	}
	switch request.Body.Kind() {
	case frames.NodeStageVolumeKind:
		if request.Staging != "" && core.paths.Of(volume) != request.Staging && core.notes != nil {
			group.notes = append(group.notes, core.paths.Put(volume, request.Staging))
		}
	case frames.NodeUnstageVolumeKind:
		group.taken = append(group.taken, volume)
	}
}

// answerOf asks a plugin. Where it is refused memory, or the request makes no frame, the call is refused; any other failure ends the core.
func (core *Core) answerOf(plugin Plugin, request Request, number frames.Number) (frames.Reply, error) {
	frame, err := frames.Call{Number: number, Node: request.Node, Body: request.Body}.Encode()
	if err != nil {
		return frames.Reply{}, status.Error(codes.InvalidArgument, err.Error())
	}
	bytes, err := plugin.Answer(frame)
	if errors.Is(err, store.ErrMemory) {
		return frames.Reply{}, errMemory
	}
	if err != nil {
		return frames.Reply{}, core.end(fmt.Errorf("the plugin: %w", err))
	}
	reply, err := frames.DecodeReply(bytes)
	if err != nil {
		return frames.Reply{}, core.end(fmt.Errorf("the plugin's reply: %w", err))
	}
	return reply, nil
}

// takeBack undoes the last call, whose changes are lost: what was asked before it is committed, and the plugin is made again of the store.
func (core *Core) takeBack(group *group) error {
	this := group.jobs[len(group.jobs)-1]
	group.jobs = group.jobs[:len(group.jobs)-1]
	core.settle(group)
	group.jobs = append(group.jobs, this)
	if core.err != nil {
		return errEnded
	}
	core.free()
	if err := core.load(context.Background()); err != nil {
		return core.end(err)
	}
	return errMemory
}

// end ends serving: nothing is answered any more.
func (core *Core) end(err error) error {
	if core.err == nil && !errors.Is(err, errEnded) {
		core.err = err
	}
	return errEnded
}
