package serving

import (
	"context"
	"sync"

	"google.golang.org/grpc/status"

	"tufayon/service/frames"
)

// A key is what one call at a time may be about: a volume, or the name of one that is to be made.
type key struct {
	volume uint64
	name   string
}

func keyOf(request Request) key {
	if request.Bind != nil {
		return key{name: request.Key}
	}
	if create, is := request.Body.(frames.CreateVolume); is {
		return key{name: create.Name}
	}
	return key{volume: request.Body.Volume()}
}

// also is the other key of a request, if it has one.
func (request Request) also() key {
	if request.Also == nil {
		return key{}
	}
	return key{name: request.Also()}
}

// kind is which of CSI's calls a request is.
func (request Request) kind() frames.Kind {
	if request.Bind != nil {
		return request.Kind
	}
	return request.Body.Kind()
}

// undoes says whether calls of a kind undo what others did.
func undoes(kind frames.Kind) bool {
	switch kind {
	case frames.DeleteVolumeKind, frames.ControllerUnpublishVolumeKind, frames.NodeUnstageVolumeKind, frames.NodeUnpublishVolumeKind:
		return true
	}
	return false
}

// turns has the keys that are taken, and who waits for each, first come first.
type turns struct {
	mutex  sync.Mutex
	queues map[key][]chan struct{}
}

// take takes a key, once those have left it that came before. It fails where the context, or the core, ends before.
func (turns *turns) take(ctx context.Context, key key, done <-chan struct{}) error {
	turns.mutex.Lock()
	queue, taken := turns.queues[key]
	if !taken {
		turns.queues[key] = nil
		turns.mutex.Unlock()
		return nil
	}
	turn := make(chan struct{})
	turns.queues[key] = append(queue, turn)
	turns.mutex.Unlock()
	select {
	case <-turn:
		return nil
	case <-ctx.Done():
		turns.giveUp(key, turn)
		return status.FromContextError(ctx.Err()).Err()
	case <-done:
		turns.giveUp(key, turn)
		return errEnded
	}
}

// takeFree takes a key that nobody has, or says that somebody has it.
func (turns *turns) takeFree(key key) bool {
	turns.mutex.Lock()
	defer turns.mutex.Unlock()
	if _, taken := turns.queues[key]; taken {
		return false
	}
	turns.queues[key] = nil
	return true
}

// isTaken says whether somebody has a key.
func (turns *turns) isTaken(key key) bool {
	turns.mutex.Lock()
	defer turns.mutex.Unlock()
	_, taken := turns.queues[key]
	return taken
}

// giveUp takes back that somebody waits; whose turn it is by now hands it on.
func (turns *turns) giveUp(key key, turn chan struct{}) {
	turns.mutex.Lock()
	queue := turns.queues[key]
	for at, it := range queue {
		if it == turn {
			turns.queues[key] = append(queue[:at:at], queue[at+1:]...)
			turns.mutex.Unlock()
			return
		}
	}
	turns.mutex.Unlock()
	turns.leave(key)
}

// leave gives the key to who waits for it longest, if anybody does.
func (turns *turns) leave(key key) {
	turns.mutex.Lock()
	defer turns.mutex.Unlock()
	queue := turns.queues[key]
	if len(queue) == 0 {
		delete(turns.queues, key)
		return
	}
	close(queue[0])
	turns.queues[key] = queue[1:]
}
