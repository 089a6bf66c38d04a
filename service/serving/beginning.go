package serving

import (
	"context"
	"encoding/json"
	"fmt"
	"math"
	"time"

	"google.golang.org/grpc/codes"
	"google.golang.org/grpc/status"

	"tufayon/service/frames"
	"tufayon/service/numbers"
	"tufayon/service/records"
	"tufayon/service/store"
)

// Why a session isn't begun. Nothing is changed then.
var (
	ErrLater   = status.Error(codes.Aborted, "later")              // the plugin has heard of more than was sent: the service's store is an older copy
	ErrEarlier = status.Error(codes.FailedPrecondition, "earlier") // it hasn't heard of what was acknowledged: its own store is one
)

// begunName is that of the side that says which session was begun last.
const begunName = "begun"

// begun is a session that was begun here, as that side has it. It counts as long as the plugin has heard of no later one.
type begun struct {
	Session uint64 `json:"session"`
	Token   string `json:"token"`
	Sent    string `json:"sent"` // no call of later was heard by then
	List    uint64 `json:"list"`
}

// Begin begins a session at the plugin: what was sent in an earlier one is stale from then on. It gives the greatest number of a call of which the plugin
// has a row, or was told.
func (core *Core) Begin(ctx context.Context, opening numbers.Opening) (heard frames.Number, err error) {
	if err := core.enter(); err != nil {
		return frames.Number{}, err
	}
	defer core.leave()
	err = core.inTurn(ctx, func(group *group) (bool, error) {
		var err error
		heard, err = core.begin(group, opening)
		return true, err
	})
	return heard, err
}

func (core *Core) begin(group *group, opening numbers.Opening) (frames.Number, error) {
	heard, err := records.Heard(core.parts)
	if err != nil {
		return heard, status.Error(codes.Internal, err.Error())
	}
	if sent := core.begun.sent(core.latest()); heard.IsBefore(sent) {
		heard = sent
	}
	if core.begun.Session == opening.Session && core.begun.Token == opening.Token && core.latest() == opening.Session {
		return heard, nil
	}
	if err := core.judge(opening, heard); err != nil {
		return heard, err
	}
	sent := heard
	if sent.IsBefore(opening.Sent) && !opening.IsUnknown {
		sent = opening.Sent
	}
	next := begun{Session: opening.Session, Token: opening.Token, Sent: numbers.Text(sent), List: opening.List}
	value, err := json.Marshal(next)
	if err != nil {
		return heard, core.end(err)
	}
	if err := core.raise(group, opening.Session); err != nil {
		return heard, err
	}
	core.begun = next
	group.addSide(store.Side{Name: begunName, Value: value, First: true}) // else a record with the session could lack what was known of the one before
	return heard, nil
}

// Confirm fails with ErrEarlier where the plugin hasn't heard of a call that it acknowledged, or of its session: its store is an older copy.
func (core *Core) Confirm(ctx context.Context, acknowledged frames.Number) error {
	if err := core.enter(); err != nil {
		return err
	}
	defer core.leave()
	return core.inTurn(ctx, func(*group) (bool, error) {
		heard, err := records.Heard(core.parts)
		if err != nil {
			return false, status.Error(codes.Internal, err.Error())
		}
		latest := core.latest()
		for _, it := range []frames.Number{core.begun.sent(latest), {Session: latest}} {
			if heard.IsBefore(it) {
				heard = it
			}
		}
		if heard.IsBefore(acknowledged) {
			return false, ErrEarlier
		}
		return true, nil
	})
}

// isByMetadata says whether calls come with numbers.
func (core *Core) isByMetadata() bool {
	_, is := core.source.(numbers.Metadata)
	return is
}

// isBegun says whether calls of a session get to the plugin: one that was begun here, or an earlier one, of which the plugin itself knows more. Where none
// was begun it says so of any, unless the service alone may begin them.
func (core *Core) isBegun(session uint64) bool {
	return !core.isByMetadata() || session <= core.begun.Session || core.begun.Session == 0 && !core.config.MustBegin
}

// sent is what is known to be no earlier than any call that was heard before the session was begun: nothing, where the plugin has heard of a later one.
func (begun begun) sent(latest uint64) frames.Number {
	if begun.Session != latest {
		return frames.Number{}
	}
	sent, _ := numbers.Parse(begun.Sent) // an older file may have none
	return sent
}

// judge says whether a session may begin at a plugin that has heard of this call last, if of any.
func (core *Core) judge(opening numbers.Opening, heard frames.Number) error {
	latest := core.latest()
	all := heard // of sessions too
	if session := (frames.Number{Session: latest}); all.IsBefore(session) {
		all = session
	}
	isCurrent := core.begun.Session == latest // else the plugin has heard of a later one otherwise, as by a recovery
	switch {
	case opening.Session < latest, isCurrent && core.begun.Session == opening.Session, isCurrent && core.begun.List > opening.List:
		return ErrLater
	case opening.IsUnknown:
	case all.IsBefore(opening.Heard), opening.IsNew && heard != (frames.Number{}):
		return ErrEarlier
	case opening.Sent.IsBefore(heard):
		return ErrLater
	}
	if by, is := core.source.(numbers.Metadata); is {
		return by.Begins(opening.Session, latest, time.Now())
	}
	return nil
}

// raise has the plugin hear of a session, by a call that does nothing and that nobody else makes: the session's call 0.
func (core *Core) raise(group *group, session uint64) error {
	if core.latest() == session {
		return nil
	}
	number, request := frames.Number{Session: session}, core.idling()
	if _, err := core.answerOf(core.plugin, request, number); err != nil {
		return err
	}
	changes, err := core.plugin.Changes()
	if err != nil {
		return core.takeBack(group)
	}
	group.add(changes)
	core.apply(changes)
	core.takeOut(group, changes)
	if volume := request.Body.Volume(); touches(changes, volume) {
		core.isLast(group, volume, number, request, true)
	}
	if core.latest() != session {
		return core.end(fmt.Errorf("the plugin doesn't begin session %d", session))
	}
	return nil
}

// idling is a call that undoes what isn't there: of a controller the deletion of a volume of which it has no row. A node keeps a row of each call, so it is
// one of a volume that it has staged, at a target where that isn't published; only where nothing is staged it is one of another volume, whose row goes
// with the session.
func (core *Core) idling() Request {
	id, isNode := records.NodeOf(core.parts[records.HeadKey])
	unused := uint64(math.MaxUint64)
	for core.parts[unused] != nil {
		unused--
	}
	if !isNode {
		return Request{Body: frames.DeleteVolume{ID: unused}}
	}
	for volume, value := range core.parts {
		row, err := records.ReadStaged(value)
		if volume == records.HeadKey || err != nil || !row.IsStaged {
			continue
		}
		target := "/"
		for row.IsAt(target) {
			target += "-"
		}
		return Request{Node: id, Body: frames.NodeUnpublishVolume{ID: volume, Target: target}}
	}
	return Request{Node: id, Body: frames.NodeUnstageVolume{ID: unused}}
}

// loadSides reads what stands beside the record: which session was begun last, and the volumes' last calls.
func (core *Core) loadSides(ctx context.Context) error {
	core.begun = begun{}
	sides, err := store.SidesOf(ctx, core.config.Store)
	core.loadLast(sides)
	if err != nil || sides[begunName] == nil {
		return err
	}
	if err := json.Unmarshal(sides[begunName], &core.begun); err != nil {
		return fmt.Errorf("%w: %v", store.ErrBeside, err)
	}
	return nil
}
