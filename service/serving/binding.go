package serving

import (
	"context"
	"errors"
	"fmt"
	"sort"

	"tufayon/service/frames"
	"tufayon/service/identities"
	"tufayon/service/numbers"
	"tufayon/service/records"
	"tufayon/service/store"
)

// A Bound is a request as calls of the plugin, all about one volume, or such as make it: asked one after another, in one commit. The first that is refused
// is the answer, else the last one. There may be none of a request that undoes something: what the plugin doesn't know it allows to be undone.
type Bound struct {
	Bodies []frames.Body
	Texts  []store.Text // kept beside the record, once one of the calls passed the fence
	Make   Make         // where it isn't nil, the plugin is made anew of its record first, and from then on, by this
}

// A View is what the core knows, on its goroutine.
type View struct {
	core *Core
}

// Table is the table of ids.
func (view View) Table() *identities.Table { return view.core.texts }

// Row gives the value of a volume's row, or nothing.
func (view View) Row(volume uint64) []byte { return view.core.parts[volume] }

// Staging is where a volume is staged, if that is kept.
func (view View) Staging(volume uint64) string { return view.core.paths.Of(volume) }

// IsTaken says whether a call is under way that is about this.
func (view View) IsTaken(by string) bool { return view.core.turns.isTaken(key{name: by}) }

// Next is the id of the next volume that a controller makes.
func (view View) Next() uint64 {
	next, _ := records.Next(view.core.parts[records.HeadKey])
	return next
}

// Count is how many rows there are.
func (view View) Count() int { return len(view.core.parts) - 1 }

// Volumes gives the ids of all rows, in order.
func (view View) Volumes() []uint64 {
	volumes := make([]uint64, 0, len(view.core.parts))
	for key := range view.core.parts {
		if key != records.HeadKey {
			volumes = append(volumes, key)
		}
	}
	sort.Slice(volumes, func(i, j int) bool { return volumes[i] < volumes[j] })
	return volumes
}

// Look has a look at what the core knows, and confirms that this process still has the store.
func (core *Core) Look(ctx context.Context, look func(View)) error {
	if err := core.enter(); err != nil {
		return err
	}
	defer core.leave()
	return core.inTurn(ctx, func(*group) (bool, error) {
		look(View{core})
		return true, nil
	})
}

// A step is a call of a plan's, with its number.
type step struct {
	request Request
	number  frames.Number
}

// A plan is a request's calls of the plugin.
type plan struct {
	steps []step
	texts []store.Text
}

// plan says of which calls a request is made, and has it judged where that is asked.
func (core *Core) plan(ctx context.Context, request Request, judged bool) (plan, error) {
	bound := Bound{Bodies: []frames.Body{request.Body}}
	var err error
	if request.Bind != nil {
		bound, err = request.Bind(View{core})
	}
	if err == nil && bound.Make != nil {
		err = core.remake(bound.Make)
	}
	plan := plan{texts: bound.Texts}
	for at, body := range bound.Bodies {
		if err != nil {
			break
		}
		request.Body = body
		var number frames.Number
		number, err = core.number(ctx, request, judged && at == 0)
		plan.steps = append(plan.steps, step{request, number})
	}
	if err == nil && len(plan.steps) > 1 {
		err = plan.number()
	}
	return plan, err
}

// number has calls that came with one number have rising ones, of which the last is theirs. A volume's number has to rise: who numbers calls leaves out
// as many before the first call of a volume as are wanted.
func (plan *plan) number() error {
	last := len(plan.steps) - 1
	for at := range plan.steps {
		number := &plan.steps[at].number
		if at < last && *number != plan.steps[last].number {
			return nil // by arrival each has its own
		}
		if number.Call < uint64(last-at) {
			return numbers.ErrNumber
		}
		number.Call -= uint64(last - at)
	}
	return nil
}

// known is what is known before a plan's calls.
func (core *Core) knownOf(plan plan) Known {
	if len(plan.steps) == 0 {
		return core.known(frames.Number{}, 0)
	}
	last := plan.steps[len(plan.steps)-1]
	return core.known(last.number, last.request.Body.Volume())
}

// askAll has the plugin answer a plan's calls, as far as it allows them.
func (core *Core) askAll(group *group, plan plan) (asked, error) {
	core.dropLong(group)
	result := asked{isOK: true, known: core.knownOf(plan)}
	for _, it := range plan.steps {
		var err error
		if result, err = core.ask(group, it.request, it.number); err != nil {
			return asked{}, err
		}
		if result.isFresh {
			core.keep(group, plan.texts)
			plan.texts = nil
		}
		if !result.isOK {
			break
		}
	}
	if last := len(plan.steps) - 1; last >= 0 && core.isByMetadata() {
		result.answer.Reply.Number = plan.steps[last].number // the call's, also where one before the last was refused
	}
	return result, nil
}

// allows asks a copy of the plugin, with the row of the calls' volume alone, whether the plugin would carry out calls that undo something: what it
// answers to them hangs on nothing else.
func (core *Core) allows(plan plan, known Known) (bool, error) {
	if known.Row == nil {
		return false, nil
	}
	record := store.Record([]store.Part{{Key: records.HeadKey, Value: core.parts[records.HeadKey]}, {Key: known.Volume, Value: known.Row}})
	scratch, _, err := core.config.Make(record)
	if errors.Is(err, store.ErrMemory) {
		return false, errMemory
	}
	if err != nil {
		return false, core.end(fmt.Errorf("a copy of the plugin: %w", err))
	}
	defer scratch.Free()
	for _, it := range plan.steps {
		reply, err := core.answerOf(scratch, it.request, it.number)
		if err != nil {
			return false, err
		}
		changes, err := scratch.Changes()
		if err != nil {
			return false, errMemory
		}
		if reply.Status != 0 || reply.Kind != it.request.Body.Kind() || !touches(changes, known.Volume) {
			return false, nil
		}
	}
	return true, nil
}

// touches says whether the volume's row was put in: each call that the fence let through is kept there, and no other.
func touches(changes []store.Change, volume uint64) bool {
	for _, change := range changes {
		if change.Key == volume && !change.Out {
			return true
		}
	}
	return false
}

// keep keeps texts with the group's commit.
func (core *Core) keep(group *group, texts []store.Text) {
	if core.texts != nil && len(texts) > 0 {
		core.texts.Apply(texts)
		group.addTexts(texts)
	}
}

// leastLong is how many long texts there are at least where those are looked for that no row has any more.
const leastLong = 1024

// dropLong takes out the long texts that no row has any more, once there are twice as many as rows had at the last time. No call is between its texts and its row.
func (core *Core) dropLong(group *group) {
	if core.texts == nil || core.texts.Long() < core.longs {
		return
	}
	parts := make([]store.Part, 0, len(core.parts))
	for key, value := range core.parts {
		parts = append(parts, store.Part{Key: key, Value: value})
	}
	core.keep(group, core.texts.Unused(parts))
	core.limitLong()
}

func (core *Core) limitLong() {
	if core.longs = 2 * core.texts.Long(); core.longs < leastLong {
		core.longs = leastLong
	}
}

// takeOut takes the texts of those volumes out whose rows went, once the changes are known. A row that its own call had forgotten, by beginning a session, and
// then made anew, keeps them.
func (core *Core) takeOut(group *group, changes []store.Change) {
	if core.texts == nil {
		return
	}
	for _, change := range changes {
		if change.Out && core.parts[change.Key] == nil {
			core.keep(group, core.texts.Taken(change.Key))
		}
	}
}

// keepAfter keeps what a request's deed told, before it is answered.
func (core *Core) keepAfter(request Request, known Known, gave any) error {
	if request.Keep == nil {
		return nil
	}
	return core.inTurn(context.Background(), func(group *group) (bool, error) {
		texts, err := request.Keep(View{core}, known, gave)
		if err == nil {
			core.keep(group, texts)
		}
		return len(texts) > 0, err
	})
}

// remake makes the plugin anew of what is known of its record. Where that is refused memory nothing is changed.
func (core *Core) remake(make Make) error {
	parts := []store.Part{{Key: records.HeadKey, Value: core.parts[records.HeadKey]}}
	for _, volume := range (View{core}).Volumes() {
		parts = append(parts, store.Part{Key: volume, Value: core.parts[volume]})
	}
	made, _, err := make(store.Record(parts))
	if errors.Is(err, store.ErrMemory) {
		return errMemory
	}
	if err != nil {
		return core.end(fmt.Errorf("the plugin, made anew: %w", err))
	}
	core.plugin.Free()
	core.plugin, core.config.Make = made, make
	return nil
}

// loadTexts reads the texts, and takes out what no row has. A new store is marked as one that has some.
func (core *Core) loadTexts(ctx context.Context, parts []store.Part) ([]store.Text, error) {
	keeper, is := core.config.Store.(store.Keeper)
	if !core.config.Texts || !is {
		return nil, nil
	}
	kept, err := keeper.Texts(ctx)
	if err != nil {
		return nil, err
	}
	if core.texts, err = identities.New(kept); err != nil {
		return nil, err
	}
	changes := core.texts.Unused(parts)
	if len(kept) == 0 {
		changes = append(changes, identities.Mark())
	}
	core.texts.Apply(changes)
	core.limitLong()
	return changes, nil
}

// put commits what a group changed.
func (core *Core) put(ctx context.Context, group *group) error {
	if keeper, is := core.config.Store.(store.Keeper); is && len(group.texts) > 0 {
		return keeper.CommitBoth(ctx, group.list(), group.texts, group.sides)
	}
	return store.CommitWith(ctx, core.config.Store, group.sides, group.list())
}

// commitLoaded commits what making the plugin changed, in place of all that the record was where it was renewed.
func (core *Core) commitLoaded(ctx context.Context, renewed bool, changes []store.Change, texts []store.Text) error {
	if renewed || len(texts) == 0 {
		if err := core.config.Store.Commit(ctx, renewed, changes); err != nil || len(texts) == 0 {
			return err
		}
		changes = nil
	}
	return core.config.Store.(store.Keeper).CommitBoth(ctx, changes, texts, nil)
}
