// Package numbers says which number a call has: the one that came with it, or one by the order of arrival. A driver does the one or the other,
// never both: numbers of arrival would make the others stale.
package numbers

import (
	"context"
	"errors"
	"math"
	"strconv"
	"strings"
	"time"

	"google.golang.org/grpc/codes"
	"google.golang.org/grpc/metadata"
	"google.golang.org/grpc/status"

	"tufayon/service/frames"
)

// Key is the key of gRPC's metadata under which a call's number travels, as SESSION.CALL in decimal.
const Key = "tufayon-number"

// ReplyKey is the key of gRPC's trailer that each reply of the plugin itself has, with the call's number as value: without one, what a caller got is
// gRPC's or the driver's own, and says nothing of the ledger.
const ReplyKey = "tufayon-reply"

// SmallerPromise is what a driver that numbers calls by arrival says once, when it starts.
const SmallerPromise = "calls are numbered as they arrive: CSI's rules and exclusive attachment hold, " +
	"but a call that was late before it arrived isn't known to be"

// ErrSpent says that there is no later session.
var ErrSpent = errors.New("numbers spent")

// ErrNumber refuses a call whose number is missing, isn't wanted, is none, or was another call's.
var ErrNumber = status.Error(codes.FailedPrecondition, "number")

// errSession refuses a call of a session that is too far above the latest.
var errSession = status.Error(codes.FailedPrecondition, "session")

// An Of is what of a call its number depends on.
type Of struct {
	Kind   frames.Kind
	HasRow bool   // the plugin keeps the volume's last call; false of a CreateVolume
	Latest uint64 // the latest session that the plugin has heard of
}

// A Source gives a call its number. It is asked on the plugin's turn, so that each number that it gave before has got the plugin, or never will.
type Source interface {
	// Admit refuses a call that comes with a number where it shouldn't, or without one where it should.
	Admit(ctx context.Context) error
	// Number gives a call's number. It may be asked for again, of the same call: then by arrival it is a later one.
	Number(ctx context.Context, of Of) (frames.Number, error)
}

// Metadata takes numbers from the calls' metadata.
type Metadata struct {
	// MostAbove is how far a call's session may be above the latest one: 0 for any.
	MostAbove uint64
}

// Admit refuses a call without one number.
func (Metadata) Admit(ctx context.Context) error {
	_, err := From(ctx)
	return err
}

// Number is the call's own. It is refused where its session is too far above the latest: that session would make every other one stale for good.
func (source Metadata) Number(ctx context.Context, of Of) (frames.Number, error) {
	number, err := From(ctx)
	if err != nil {
		return frames.Number{}, err
	}
	if source.MostAbove > 0 && number.Session > of.Latest && number.Session-of.Latest > source.MostAbove {
		return frames.Number{}, errSession
	}
	return number, nil
}

// Begins refuses a session that is too far above the latest one and above the clock too: sessions begin by the clock, in seconds since 1970.
func (source Metadata) Begins(session, latest uint64, now time.Time) error {
	if seconds := now.Unix(); seconds > 0 && uint64(seconds) > latest {
		latest = uint64(seconds)
	}
	if source.MostAbove > 0 && session > latest && session-latest > source.MostAbove {
		return errSession
	}
	return nil
}

// From is the number that a call came with.
func From(ctx context.Context) (frames.Number, error) {
	headers, _ := metadata.FromIncomingContext(ctx)
	values := headers.Get(Key)
	if len(values) != 1 {
		return frames.Number{}, ErrNumber
	}
	return Parse(values[0])
}

// IsIn says whether a call came with a number. Of those that were admitted, all did, or by arrival none.
func IsIn(ctx context.Context) bool {
	headers, _ := metadata.FromIncomingContext(ctx)
	return len(headers.Get(Key)) > 0
}

// Parse reads a number as it travels.
func Parse(text string) (frames.Number, error) {
	session, call, found := strings.Cut(text, ".")
	if !found {
		return frames.Number{}, ErrNumber
	}
	number := frames.Number{}
	var ok bool
	if number.Session, ok = Decimal(session); !ok {
		return frames.Number{}, ErrNumber
	}
	if number.Call, ok = Decimal(call); !ok {
		return frames.Number{}, ErrNumber
	}
	return number, nil
}

// Text writes a number as it travels.
func Text(number frames.Number) string {
	return strconv.FormatUint(number.Session, 10) + "." + strconv.FormatUint(number.Call, 10)
}

// Decimal reads a number of 64 bits that is written as strconv writes it, and no other way: of any other text it gives 0 and false.
func Decimal(text string) (uint64, bool) {
	value, err := strconv.ParseUint(text, 10, 64)
	if err != nil || strconv.FormatUint(value, 10) != text {
		return 0, false
	}
	return value, true
}

// Arrival numbers calls in the order in which they get the plugin, in sessions of its own. A plugin keeps the last call of a volume that was deleted,
// or isn't staged, until it hears of a later session: until then its name is taken, and its row. So one begins where a row is wanted.
type Arrival struct {
	session, call uint64
	hasEmpty      bool // there may be such a row
}

// NewArrival begins the session after the latest that the plugin has heard of.
func NewArrival(latest uint64) (*Arrival, error) {
	source := &Arrival{session: latest}
	return source, source.begin()
}

func (source *Arrival) begin() error {
	if source.session == math.MaxUint64 {
		return ErrSpent
	}
	source.session, source.call, source.hasEmpty = source.session+1, 0, false
	return nil
}

// Admit refuses a call that has a number.
func (*Arrival) Admit(ctx context.Context) error {
	if IsIn(ctx) {
		return ErrNumber
	}
	return nil
}

// Number is the next one, of the next session where the call may want a row, and one may be kept of a volume that is gone.
func (source *Arrival) Number(_ context.Context, of Of) (frames.Number, error) {
	if source.hasEmpty && !of.HasRow {
		if err := source.begin(); err != nil {
			return frames.Number{}, status.Error(codes.ResourceExhausted, err.Error())
		}
	}
	source.hasEmpty = source.hasEmpty || leavesEmpty(of)
	source.call++
	return frames.Number{Session: source.session, Call: source.call}, nil
}

// leavesEmpty says whether a call may leave the row of a volume that isn't there, or isn't staged: a node keeps the last call of any volume.
func leavesEmpty(of Of) bool {
	switch of.Kind {
	case frames.DeleteVolumeKind, frames.NodeUnstageVolumeKind:
		return true
	case frames.NodePublishVolumeKind, frames.NodeUnpublishVolumeKind:
		return !of.HasRow
	}
	return false
}
