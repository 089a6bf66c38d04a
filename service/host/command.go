package host

import (
	"context"
	"errors"
	"fmt"

	"tufayon/service/frames"
	"tufayon/service/plugin"
	"tufayon/service/records"
)

// A Kind says what a command asks for.
type Kind uint8

// The kinds of commands.
const (
	Create Kind = iota
	Use
	Stop
	Delete
)

// A Command asks for something of a volume. Which fields count, its kind says.
type Command struct {
	Kind            Kind
	Name            string
	Required, Limit uint64              // of a create, in bytes; a limit of 0 is none
	Capabilities    []frames.Capability // of a create
	Node, Target    string              // of a use or a stop
	Capability      frames.Capability   // of a use
	Readonly        bool                // of a use
	AtRest          bool                // it is answered once nothing is wanted of the volume any more, and not once it is committed
	Trace           string              // which the calls that are made for it carry, if it has one
}

// reached says whether what was asked for is so, of a volume at rest.
func (command Command) reached(row *records.Row) bool {
	switch command.Kind {
	case Create:
		return row.Exists == records.Yes
	case Use:
		return row.PublishedAt(command.Node, command.Target) == records.Yes
	case Stop:
		at, isThere := row.Where(command.Node)
		return row.PublishedAt(command.Node, command.Target) == records.No && (!isThere || len(at.Targets) > 0)
	}
	return row.Exists == records.No
}

// An Answer is what a command came to.
type Answer struct {
	Volume  Volume
	Met     bool // it was so already
	Reached bool // what was asked for is so, of a command that was met, or that waited until the volume was at rest
}

// A Refusal is the number by which the orchestrator refuses a command: docs/LINES.md, "Reports". Nothing was changed.
type Refusal uint32

// The refusals that this package tells apart from others.
const (
	noSuchVolume Refusal = 2
	numbersSpent Refusal = 14
	full         Refusal = 15
	noMemory     Refusal = 16
)

// refusalNames are by the refusals' numbers, from 1.
var refusalNames = [...]string{
	"NameUsed", "NoSuchVolume", "NotCreated", "Busy", "NoSuchNode", "NotCapable", "HeldElsewhere", "WriterElsewhere", "HeldOtherwise", "TargetTaken",
	"NoSuchTarget", "InUse", "Idle", "NumbersSpent", "Full", "NoMemory", "NodeInUse",
}

// Name is the refusal's, as docs/OPERATING.md, "Refusals", lists them.
func (refusal Refusal) Name() string {
	if refusal < 1 || int(refusal) > len(refusalNames) {
		return refusal.Error()
	}
	return refusalNames[refusal-1]
}

func (refusal Refusal) Error() string { return fmt.Sprintf("refused %d", uint32(refusal)) }

// What becomes of a command else.
var (
	ErrInvalid = errors.New("no such command can be")
	ErrBusy    = errors.New("too many commands wait")
	ErrEnded   = errors.New("the service has ended: what was asked may be committed or not")
)

// An answered is what a caller gets.
type answered struct {
	answer Answer
	err    error
}

// ask asks the library.
func (core *core) ask(command Command) (plugin.Outcome, error) {
	library := core.library
	switch command.Kind {
	case Create:
		return library.Create(command.Name, command.Required, command.Limit, command.Capabilities)
	case Use:
		return library.Use(command.Name, command.Node, command.Target, command.Capability, command.Readonly)
	case Stop:
		return library.Stop(command.Name, command.Node, command.Target)
	}
	return library.Delete(command.Name)
}

// asking is a command that came.
type asking struct {
	Command
	ctx     context.Context
	waiter  *waiter
	isAgain bool // a session began so that it can be asked again
}

func (it *asking) alone() bool { return false }

// ask asks for the command, unless its caller has gone. A create that finds no room, since names of deleted volumes take it, has a session begin first.
func (it *asking) ask(host *Host, work *work) error {
	if it.ctx.Err() != nil {
		work.answer(it.waiter, answered{err: it.ctx.Err()})
		return nil
	}
	if it.AtRest && host.waiters.areFull() {
		work.answer(it.waiter, answered{err: ErrBusy})
		return nil
	}
	before := host.core.row(it.Name)
	outcome, err := host.core.ask(it.Command)
	switch refusal := Refusal(outcome.Refusal); {
	case errors.Is(err, plugin.BadName), errors.Is(err, frames.ErrLimit):
		work.answer(it.waiter, answered{err: fmt.Errorf("%w: %v", ErrInvalid, err)})
		return nil
	case errors.Is(err, plugin.NoMemory):
		work.answer(it.waiter, answered{err: noMemory})
		return nil
	case err != nil:
		return err
	case !it.isAgain && (refusal == numbersSpent || it.Kind == Create && refusal == full && host.canForget()):
		it.isAgain = true
		return errSession
	case refusal != 0:
		host.tells(work, Happening{What: Commanded, Name: it.Name, Before: before, Command: it.Command, Refusal: refusal})
		work.answer(it.waiter, answered{err: refusal})
		return nil
	}
	row, err := host.core.note()
	if err != nil {
		return err
	}
	volume := host.volume(it.Name)
	waits := it.AtRest && !outcome.IsMet
	if !outcome.IsMet {
		volume.trouble, volume.why, volume.trace = "", "", it.Trace
	}
	if waits {
		host.waiters.add(it.Name, it.waiter)
	}
	sent, err := host.took(volume, row, outcome.Frame, work)
	if err != nil {
		return err
	}
	host.tells(work, Happening{What: Commanded, Name: it.Name, Before: before, Command: it.Command, IsMet: outcome.IsMet, Sent: sent})
	if !waits {
		work.answer(it.waiter, answered{answer: Answer{Volume: volume.shown(), Met: outcome.IsMet, Reached: outcome.IsMet}})
	}
	return nil
}

// canForget says whether a session may begin to forget names: there are some, and no use is undone by that.
func (host *Host) canForget() bool {
	return host.core.counts.gone > 0 && host.core.counts.onLastTry == 0
}
