package host

import (
	"context"
	"errors"
	"fmt"
	"time"

	"go.uber.org/zap"

	"tufayon/service/carrying"
	"tufayon/service/numbers"
	"tufayon/service/plugin"
	"tufayon/service/records"
)

// beginning has the next session begin: with these nodes, or with those that the last one has.
type beginning struct {
	nodes    []string // nil for the same
	why      string
	isNeeded bool         // nothing goes on without it
	answered chan<- begun // nil where nobody asked
}

// begun is what came of a session that was to begin, or of a node that was to be lost.
type begun struct {
	session uint64
	err     error
}

func (it *beginning) alone() bool { return true }

// ask begins the session. Where that is refused, all stays as it was.
func (it *beginning) ask(host *Host, work *work) error {
	nodes := it.nodes
	if nodes == nil {
		nodes = host.core.nodes
	}
	err := host.underWay(func() error { return host.core.begin(context.Background(), nodes) })
	if err != nil && (it.isNeeded || !isRefusal(err)) {
		return err
	}
	host.isLast = errors.Is(err, numbers.ErrSpent)
	if err != nil {
		host.log.Error("no session begins", zap.String("why", it.why), zap.Error(err))
	} else {
		host.log.Info("a session begins", zap.Uint64("session", host.core.session), zap.String("why", it.why), zap.Strings("nodes", nodes))
		host.began(work)
		host.tells(work, Happening{What: Began, Why: it.why})
	}
	if it.answered != nil {
		came := begun{session: host.core.session, err: err}
		work.after = append(work.after, func() { it.answered <- came })
	}
	return nil
}

// losing has a node declared lost.
type losing struct {
	node     string
	answered chan<- begun
}

func (it *losing) alone() bool { return true }

func (it *losing) ask(host *Host, work *work) error {
	outcome, err := host.core.library.Lose(it.node)
	came := begun{}
	switch {
	case errors.Is(err, plugin.BadName):
		came.err = fmt.Errorf("%w: %v", ErrInvalid, err)
	case errors.Is(err, plugin.NoMemory):
		came.err = noMemory
	case err != nil:
		return err
	case outcome.Refusal != 0:
		came.err = Refusal(outcome.Refusal)
	default:
		if err := host.core.noteLoss(it.node); err != nil {
			return err
		}
		came.session = host.core.session
		host.log.Warn("a node is lost", zap.String("node", it.node), zap.Uint64("session", came.session))
		work.lost = it.node
		host.began(work)
		host.tells(work, Happening{What: Lost, Node: it.node})
	}
	work.after = append(work.after, func() { it.answered <- came })
	return nil
}

// began gives up all calls that are under way, and has the timeouts of what is wanted told: a session began, in which no call is open.
func (host *Host) began(work *work) {
	host.epoch++
	work.begins = true
	host.gates = newGates(host.core.nodes)
	host.giveUp()
	host.calls, host.giveUp = context.WithCancel(context.Background())
	for name := range host.volumes {
		if host.core.row(name) == nil {
			delete(host.volumes, name)
			work.forgotten = append(work.forgotten, name)
		}
	}
	for _, row := range host.core.rows {
		volume := host.volume(row.Name)
		if work.lost != "" && isGivenUp(volume.row, row) {
			volume.why = carrying.NodeName(work.lost) + " is lost"
		}
		volume.row, volume.isOpen, volume.trouble = row, false, ""
		volume.wakes++
		work.changed[row.Name] = volume
		if row.Goal == records.None {
			volume.rests()
			host.waiters.rest(work, volume)
			continue
		}
		if volume.since.IsZero() {
			volume.since = time.Now()
		}
		host.queue = append(host.queue, &wanted{name: row.Name, epoch: host.epoch})
	}
}
