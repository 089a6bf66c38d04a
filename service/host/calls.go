package host

import "context"

// Do has a command carried out, and answers once it is committed, or once nothing is wanted of the volume any more. A caller who gives up waiting takes
// nothing back. It fails with a Refusal, ErrInvalid or ErrBusy where nothing was changed, and with ErrEnded or the context's error where that isn't known.
func (host *Host) Do(ctx context.Context, command Command) (Answer, error) {
	waiter := newWaiter(command.reached)
	return host.askFor(ctx, command.Name, waiter, &asking{Command: command, ctx: ctx, waiter: waiter})
}

// AtRest gives a volume once nothing is wanted of it any more.
func (host *Host) AtRest(ctx context.Context, name string) (Answer, error) {
	waiter := newWaiter(nil)
	return host.askFor(ctx, name, waiter, &resting{ctx: ctx, name: name, waiter: waiter})
}

func (host *Host) askFor(ctx context.Context, name string, waiter *waiter, it event) (Answer, error) {
	select {
	case host.commands <- it:
	default:
		return Answer{}, ErrBusy
	}
	select {
	case came := <-waiter.came:
		return came.answer, came.err
	case <-ctx.Done():
		host.waiters.drop(name, waiter)
		return Answer{}, ctx.Err()
	case <-host.done:
		select {
		case came := <-waiter.came: // the last thing that it did
			return came.answer, came.err
		default:
			return Answer{}, ErrEnded
		}
	}
}

// Lose declares a node lost, listed or not: who says so promises that its machine is off for good, and that its store never comes back. It gives the
// session that began, with which a node of this id may join again.
func (host *Host) Lose(ctx context.Context, node string) (uint64, error) {
	answered := make(chan begun, 1)
	return host.begunBy(ctx, &losing{node: node, answered: answered}, answered)
}

// Begin begins the next session, with these nodes, or with the same as now where there are none: nil. Where a volume may be attached at a node that is
// left out, it fails with plugin.NodeInUse, and all stays as it was.
func (host *Host) Begin(ctx context.Context, nodes []string, why string) (uint64, error) {
	answered := make(chan begun, 1)
	return host.begunBy(ctx, &beginning{nodes: nodes, why: why, answered: answered}, answered)
}

func (host *Host) begunBy(ctx context.Context, it event, answered <-chan begun) (uint64, error) {
	select {
	case host.commands <- it:
	default:
		return 0, ErrBusy
	}
	select {
	case came := <-answered:
		return came.session, came.err
	case <-ctx.Done():
		return 0, ctx.Err()
	case <-host.done:
		select {
		case came := <-answered:
			return came.session, came.err
		default:
			return 0, ErrEnded
		}
	}
}
