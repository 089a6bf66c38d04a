package serving

import (
	"context"

	"tufayon/service/frames"
)

// Hold takes a volume's turn: calls about it wait until what it gives is called. It fails where the core ends before.
func (core *Core) Hold(volume uint64) (release func(), err error) {
	its := key{volume: volume}
	if err := core.turns.take(context.Background(), its, core.done); err != nil {
		return nil, err
	}
	return func() { core.turns.leave(its) }, nil
}

// Anew has something done anew of a volume whose turn is held: `do` gets what the store has of it, and what carries out the deed of a request of which the
// store has the thing. Where the core is to end, nothing of it counts: then isEnded is set.
func (core *Core) Anew(volume uint64, do func(known Known, act func(Known, Request) error) error) (isEnded bool, err error) {
	core.mutex.Lock()
	if core.closing {
		core.mutex.Unlock()
		return true, errEnded
	}
	core.calls++ // however many there are: nobody called
	core.mutex.Unlock()
	defer core.leave()
	var known Known
	err = core.inTurn(context.Background(), func(*group) (bool, error) {
		known = core.known(frames.Number{}, volume)
		return false, nil
	})
	if err == nil {
		err = do(known, func(known Known, request Request) error {
			_, err := core.acted(request, known)
			return err
		})
	}
	return core.acting.Err() != nil, err
}
