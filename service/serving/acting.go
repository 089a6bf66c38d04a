package serving

import (
	"context"
	"reflect"
	"sync"

	"tufayon/service/frames"
	"tufayon/service/numbers"
)

// An act is what was done for a call that does something, or is being done.
type act struct {
	request Request
	number  frames.Number // of the last call that it counts for
	volume  uint64
	gave    any
}

// acts knows which are under way, and of each volume the last one that succeeded, unless something was tried or undone since. What an earlier process did
// isn't known: it is done again where a call is repeated.
type acts struct {
	mutex   sync.Mutex
	running map[key]*act
	last    map[uint64]*act
}

// find gives what is being done for a request like this one.
func (acts *acts) find(key key, request Request) *act {
	acts.mutex.Lock()
	defer acts.mutex.Unlock()
	running := acts.running[key]
	if running == nil || running.request.Staging != request.Staging || running.request.Like != request.Like ||
		!reflect.DeepEqual(running.request.Body, request.Body) {
		return nil
	}
	return running
}

// covers says whether what was done last at a volume counts for a call: it was done for this very number; or, of a fresh call, it was under way when
// the call came, and was for one like it.
func (acts *acts) covers(volume uint64, number frames.Number, joined *act) (gave any, covered bool) {
	acts.mutex.Lock()
	defer acts.mutex.Unlock()
	last := acts.last[volume]
	if last == nil || last.number != number && last != joined {
		return nil, false
	}
	last.number = number
	return last.gave, true
}

func (acts *acts) begin(key key, it *act) {
	acts.mutex.Lock()
	defer acts.mutex.Unlock()
	acts.running[key] = it
	delete(acts.last, it.volume)
}

func (acts *acts) end(key key, it *act, succeeded bool) {
	acts.mutex.Lock()
	defer acts.mutex.Unlock()
	delete(acts.running, key)
	it.request = Request{} // what is private doesn't stay
	if succeeded {
		acts.last[it.volume] = it
	}
}

// forget says that something is undone at a volume.
func (acts *acts) forget(volume uint64) {
	acts.mutex.Lock()
	defer acts.mutex.Unlock()
	delete(acts.last, volume)
}

// do carries out a call that does something: the plugin is asked, its reply committed, and then what it allows is done, unless that is known to be
// done. Where that fails no reply is given: the store has what may be there.
func (core *Core) do(ctx context.Context, key key, request Request, joined *act) (Answer, error) {
	makes := request.Act != nil && request.Bind == nil && key.volume == 0
	asked, isMine, err := core.askFor(ctx, ctx, request, makes)
	if err == nil && makes && asked.isOK && !isMine {
		asked, isMine, err = core.askBehind(ctx, request, asked)
	}
	if err != nil {
		return Answer{}, err
	}
	if isMine { // a volume was made: nobody else acts on it meanwhile
		defer core.turns.leave(asked.made())
	}
	if asked.isAnothers {
		return Answer{}, numbers.ErrNumber
	}
	if request.Act == nil || !asked.isOK {
		return asked.answer, nil
	}
	if !asked.isFresh {
		joined = nil // a duplicate is known by its number alone
	}
	asked.answer.Acted, err = core.act(key, request, asked.known, joined)
	if err != nil {
		core.goBack(request, asked.known, err)
		return Answer{}, request.failed(err)
	}
	return asked.answer, core.keepAfter(request, asked.known, asked.answer.Acted)
}

// goBack undoes what a deed left that failed, where that is wanted.
func (core *Core) goBack(request Request, known Known, err error) {
	if request.Back == nil {
		return
	}
	if back, is := request.Back(known, err); is {
		_, _ = core.undo(context.Background(), back) // the caller is told why the deed failed
	}
}

// made is the key of the volume that a call made, or that has its name.
func (asked asked) made() key { return key{volume: asked.known.Volume} }

// askFor asks the plugin, unless the context until ends before. Of a call that makes a volume it takes that one's turn in the same moment, so that what was
// answered holds, unless somebody has it.
func (core *Core) askFor(ctx, until context.Context, request Request, makes bool) (asked asked, isMine bool, err error) {
	err = core.inTurn(until, func(group *group) (bool, error) {
		plan, err := core.plan(ctx, request, true)
		if err != nil {
			return false, err
		}
		if asked, err = core.askAll(group, plan); err == nil && makes && asked.isOK {
			isMine = core.turns.takeFree(asked.made())
		}
		return true, err
	})
	if err != nil && isMine {
		core.turns.leave(asked.made())
		isMine = false
	}
	return asked, isMine, err
}

// askBehind waits for the turn of the volume that a call which makes one was answered with, where somebody has it, and asks anew there: that volume may
// have been deleted meanwhile, and then another one is made.
func (core *Core) askBehind(ctx context.Context, request Request, before asked) (asked, bool, error) {
	for {
		had := before.made()
		if err := core.turns.take(context.Background(), had, nil); err != nil {
			return before, false, err
		}
		now, isMine, err := core.askFor(ctx, context.Background(), request, true) // its caller is waited for no more
		if err == nil && now.isOK && now.made() == had {
			return now, true, nil
		}
		core.turns.leave(had)
		if err != nil || !now.isOK || isMine {
			return now, isMine, err
		}
		before = now
	}
}

// act does what a call asks for, unless that is known to be done, and gives what Act gave.
func (core *Core) act(key key, request Request, known Known, joined *act) (any, error) {
	if gave, covered := core.acts.covers(known.Volume, known.Number, joined); covered {
		return gave, nil
	}
	it := &act{request: request, number: known.Number, volume: known.Volume}
	core.acts.begin(key, it)
	var err error
	it.gave, err = core.acted(request, known)
	core.acts.end(key, it, err == nil)
	return it.gave, err
}

// undo carries out a call that undoes something: a copy of the plugin is asked, and if it allows it, the thing is undone; only then the plugin is
// asked, and its reply committed. So the store has what may be there, at each moment, and where undoing fails nothing was changed.
func (core *Core) undo(ctx context.Context, request Request) (Answer, error) {
	asked, known, acts, err := core.tryUndo(ctx, request)
	if err != nil {
		return Answer{}, err
	}
	if acts || request.Always && asked.isOK {
		core.acts.forget(known.Volume)
		gave, err := core.acted(request, known)
		if err != nil {
			return Answer{}, request.failed(err)
		}
		if acts {
			asked, err = core.letGo(ctx, request)
		}
		if err == errMemory { // by which nothing would be changed
			err = errKept
		}
		if err != nil {
			return Answer{}, err
		}
		asked.answer.Acted = gave
	}
	if asked.isAnothers {
		return Answer{}, numbers.ErrNumber
	}
	return asked.answer, nil
}

// letGo has the plugin let go of what was undone.
func (core *Core) letGo(ctx context.Context, request Request) (asked asked, err error) {
	err = core.inTurn(context.Background(), func(group *group) (bool, error) {
		plan, err := core.plan(ctx, request, false)
		if err != nil {
			return false, err
		}
		asked, err = core.askAll(group, plan)
		return true, err
	})
	return asked, err
}

// tryUndo asks a copy of the plugin whether something is to be undone, and if not, the plugin: what the copy said nobody else can have changed. That it is to
// be undone waits for nobody else's commit: what a row or the latest session may lose with that allows no less.
func (core *Core) tryUndo(ctx context.Context, request Request) (asked asked, known Known, acts bool, err error) {
	err = core.inTurn(ctx, func(group *group) (bool, error) {
		plan, err := core.plan(ctx, request, true)
		if err != nil {
			return false, err
		}
		known = core.knownOf(plan)
		if acts, err = core.allows(plan, known); err == nil && !acts {
			asked, err = core.askAll(group, plan)
		}
		if acts && !core.isByMetadata() && known.Number.Session > core.latest() {
			// Its deed is told the number: that has to be of a session that the record has, else the next process gives it to another call.
			return true, core.raise(group, known.Number.Session)
		}
		group.atOnce = acts
		return true, err
	})
	return asked, known, acts, err
}
