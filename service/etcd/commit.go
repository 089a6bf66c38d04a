package etcd

import (
	"context"
	"errors"
	"fmt"
	"strings"
	"time"

	"go.etcd.io/etcd/clientv3"
	"go.etcd.io/etcd/etcdserver/api/v3rpc/rpctypes"
	"google.golang.org/grpc/codes"
	"google.golang.org/grpc/status"

	"tufayon/service/store"
)

// What a transaction has at most. etcd takes 128 operations and 1.5 MiB unless it is told otherwise.
const (
	mostOperations = 120
	mostBytes      = 1 << 20
	usualTxnOps    = 128
	usualBytes     = 1572864
)

const (
	tryWithin = 5 * time.Second  // how long one try of a transaction may take
	patience  = 60 * time.Second // how long one is tried again, as long as the lease lasts
)

// begin tries the largest transaction, reads how many there were, and carries over a large commit that was made, and not carried over.
func (leading *leading) begin(ctx context.Context) error {
	if err := leading.try(ctx); err != nil {
		return err
	}
	got, err := leading.get(ctx, leading.countKey())
	if err != nil {
		return err
	}
	if len(got.Kvs) > 0 {
		leading.last = string(got.Kvs[0].Value)
		fmt.Sscanf(leading.last, "%d", &leading.count)
	}
	if got, err = leading.get(ctx, leading.wholeKey()); err != nil || len(got.Kvs) == 0 {
		return err
	}
	edits, err := leading.early(ctx)
	if err != nil {
		return err
	}
	return leading.carryOver(ctx, edits)
}

// early reads the changes of a large commit.
func (leading *leading) early(ctx context.Context) ([]edit, error) {
	var edits []edit
	for folder, place := range map[string]string{nextFolder: partsFolder, nextTextsFolder: textsFolder} {
		kept, err := leading.read(ctx, leading.prefix+folder)
		if err != nil {
			return nil, err
		}
		for _, it := range kept {
			key, value := strings.TrimPrefix(string(it.Key), leading.prefix+folder), string(it.Value)
			if value != "-" && !strings.HasPrefix(value, "+") {
				return nil, fmt.Errorf("%w: it has another value under %s", store.ErrNotOpened, it.Key)
			}
			edits = append(edits, edit{leading.prefix + place + key, string(it.Key), value[1:], value == "-"})
		}
	}
	return edits, nil
}

// try asks for a transaction that is as large as any. It isn't carried out.
func (leading *leading) try(ctx context.Context) error {
	operations := make([]clientv3.Op, 0, mostOperations+1)
	for row := uint64(0); row <= mostOperations; row++ {
		operations = append(operations, clientv3.OpPut(fmt.Sprintf("%s%s%016x", leading.prefix, nextFolder, row), strings.Repeat(" ", mostBytes/(mostOperations+1))))
	}
	_, err := leading.transact(ctx, "", operations, leading.leads, leading.never)
	if err != nil && !errors.Is(err, store.ErrTooSmall) {
		return fmt.Errorf("%w: %v", store.ErrNotOpened, err)
	}
	return err
}

// Commit makes changes under the condition that this process leads: by one transaction, or where they are too many, or too large, by several, of which
// one makes them all.
func (leading *leading) Commit(ctx context.Context, anew bool, changes []store.Change) error {
	if anew {
		parts, err := leading.Load(ctx)
		if err != nil {
			return err
		}
		removals := make([]store.Change, 0, len(parts)+len(changes))
		for _, part := range parts {
			removals = append(removals, store.Change{Key: part.Key, Out: true})
		}
		changes = append(removals, changes...)
	}
	return leading.commit(ctx, leading.editsOf(lastOfEach(changes)), nil)
}

// CommitWith puts sides with changes.
func (leading *leading) CommitWith(ctx context.Context, sides []store.Side, changes []store.Change) error {
	return leading.commit(ctx, leading.editsOf(lastOfEach(changes)), leading.putsOf(sides))
}

// CommitBoth makes the changes of both in the same way, and puts sides.
func (leading *leading) CommitBoth(ctx context.Context, changes []store.Change, texts []store.Text, sides []store.Side) error {
	return leading.commit(ctx, append(leading.editsOf(lastOfEach(changes)), leading.textEditsOf(texts)...), leading.putsOf(sides))
}

// commit makes edits, of which no two are of one key, and puts sides.
func (leading *leading) commit(ctx context.Context, edits []edit, puts []clientv3.Op) error {
	if len(edits)+len(puts) == 0 {
		return leading.confirm(ctx)
	}
	operations := append(operationsOf(edits), puts...)
	if len(split(operations)) == 1 {
		return leading.change(ctx, operations)
	}
	return leading.commitInParts(ctx, edits, puts)
}

// lastOfEach has one change for each key, since a transaction may name none twice.
func lastOfEach(changes []store.Change) []store.Change {
	places := make(map[uint64]int, len(changes))
	var last []store.Change
	for _, change := range changes {
		if at, there := places[change.Key]; there {
			last[at] = change
			continue
		}
		places[change.Key] = len(last)
		last = append(last, change)
	}
	return last
}

// operationsOf carry edits out.
func operationsOf(edits []edit) []clientv3.Op {
	operations := make([]clientv3.Op, 0, len(edits))
	for _, it := range edits {
		if it.out {
			operations = append(operations, clientv3.OpDelete(it.key))
		} else {
			operations = append(operations, clientv3.OpPut(it.key, it.value))
		}
	}
	return operations
}

// split gives operations as transactions have them.
func split(operations []clientv3.Op) [][]clientv3.Op {
	var pieces [][]clientv3.Op
	from, bytes := 0, 0
	for at, it := range operations {
		size := sizeOf(it)
		if at > from && (at-from == mostOperations || bytes+size > mostBytes) {
			pieces = append(pieces, operations[from:at])
			from, bytes = at, 0
		}
		bytes += size
	}
	return append(pieces, operations[from:])
}

// sizeOf is as many bytes as an operation has in a transaction at most.
func sizeOf(it clientv3.Op) int { return len(it.KeyBytes()) + len(it.ValueBytes()) + 32 }

// commitInParts writes the changes beside the record first, and makes them by a last transaction, which puts the sides too. Then they are carried over.
func (leading *leading) commitInParts(ctx context.Context, edits []edit, sides []clientv3.Op) error {
	notes := make([]clientv3.Op, 0, len(edits))
	for _, it := range edits {
		value := "-"
		if !it.out {
			value = "+" + it.value
		}
		notes = append(notes, clientv3.OpPut(it.early, value))
	}
	if err := leading.change(ctx, leading.forgetEarly()); err != nil {
		return err
	}
	for _, piece := range split(notes) {
		if err := leading.change(ctx, piece); err != nil {
			return err
		}
	}
	if err := leading.change(ctx, append(sides, clientv3.OpPut(leading.wholeKey(), ""))); err != nil {
		return err
	}
	return leading.carryOver(ctx, edits)
}

// carryOver has a large commit, which was made, in the parts and texts themselves.
func (leading *leading) carryOver(ctx context.Context, edits []edit) error {
	for _, piece := range append(split(operationsOf(edits)), append(leading.forgetEarly(), clientv3.OpDelete(leading.wholeKey()))) {
		err := leading.change(ctx, piece)
		if errors.Is(err, store.ErrNoSpace) { // the commit is made all the same, and whoever leads next carries it over
			err = fmt.Errorf("%w: %v", store.ErrUnknown, err)
		}
		if err != nil {
			return err
		}
	}
	return nil
}

func (leading *leading) forgetEarly() []clientv3.Op {
	return []clientv3.Op{
		clientv3.OpDelete(leading.prefix+nextFolder, clientv3.WithPrefix()), clientv3.OpDelete(leading.prefix+nextTextsFolder, clientv3.WithPrefix()),
	}
}

// confirm says whether this process leads.
func (leading *leading) confirm(ctx context.Context) error {
	leads, err := leading.transact(ctx, "", nil, leading.leads)
	if err == nil && !leads {
		err = store.ErrLost
	}
	return err
}

// change carries operations out, once, under the condition that this process leads, and that no transaction came after its last one. So where it isn't
// known what became of one, it may be asked for again: it is carried out now, or tells that it was.
func (leading *leading) change(ctx context.Context, operations []clientv3.Op) error {
	before := clientv3.Compare(clientv3.Value(leading.countKey()), "=", leading.last)
	if leading.last == "" {
		before = clientv3.Compare(clientv3.CreateRevision(leading.countKey()), "=", 0)
	}
	next := fmt.Sprintf("%d %x", leading.count+1, leading.session.Lease())
	operations = append(operations[:len(operations):len(operations)], clientv3.OpPut(leading.countKey(), next))
	done, err := leading.transact(ctx, next, operations, leading.leads, before)
	if err == nil && !done {
		err = store.ErrLost
	}
	if err == nil {
		leading.count, leading.last = leading.count+1, next
	}
	return err
}

// transact asks for a transaction, again where no answer comes, and says whether its conditions held, or it was carried out before: then the key of
// their count has this mark. It fails with ErrTooSmall where etcd refused it for its size, and with ErrNoSpace where it had no space, and nothing was done,
// and else with ErrUnknown.
func (leading *leading) transact(ctx context.Context, mark string, operations []clientv3.Op, conditions ...clientv3.Cmp) (bool, error) {
	ctx, cancel := context.WithTimeout(ctx, patience)
	defer cancel()
	for isFirst := true; ; isFirst = false {
		done, err := leading.ask(ctx, mark, operations, conditions)
		if errors.Is(err, rpctypes.ErrNoSpace) {
			return leading.withoutSpace(ctx, mark, isFirst, err)
		}
		if isTooLarge(err) {
			return false, fmt.Errorf("%w: it has to run with --max-txn-ops %d and --max-request-bytes %d or more: %v",
				store.ErrTooSmall, usualTxnOps, usualBytes, err)
		}
		if err == nil {
			return done, nil
		}
		if !mayCome(err) {
			return false, fmt.Errorf("%w: %v", store.ErrUnknown, err)
		}
		select {
		case <-leading.session.Done():
			return false, fmt.Errorf("%w: %v: %v", store.ErrUnknown, store.ErrLost, err)
		case <-ctx.Done():
			return false, fmt.Errorf("%w: %v", store.ErrUnknown, err)
		case <-time.After(again):
		}
	}
}

// withoutSpace says of a transaction, as transact does, what became of it where etcd answers that it has no space. Most such it didn't carry out. One that it
// took before it knew it does, and answers so nevertheless: then the mark is there. One that was asked for before, and not answered, may still come.
func (leading *leading) withoutSpace(ctx context.Context, mark string, isFirst bool, why error) (bool, error) {
	if mark == "" { // one that changes nothing may be asked for beside a commit, to which the rest belongs
		return false, fmt.Errorf("%w: %v", store.ErrNoSpace, why)
	}
	got, err := leading.get(ctx, leading.countKey())
	if err != nil {
		return false, fmt.Errorf("%w: %v: %v", store.ErrUnknown, why, err)
	}
	found := ""
	if len(got.Kvs) > 0 {
		found = string(got.Kvs[0].Value)
	}
	switch {
	case found == mark:
		return true, nil
	case isFirst && found == leading.last:
		return false, fmt.Errorf("%w: %v", store.ErrNoSpace, why)
	}
	return false, fmt.Errorf("%w: %v", store.ErrUnknown, why)
}

// ask asks once, and gives up where the lease ends.
func (leading *leading) ask(ctx context.Context, mark string, operations []clientv3.Op, conditions []clientv3.Cmp) (bool, error) {
	ctx, cancel := context.WithTimeout(ctx, tryWithin)
	defer cancel()
	go func() {
		select {
		case <-leading.session.Done():
			cancel()
		case <-ctx.Done():
		}
	}()
	came, err := leading.client.Txn(ctx).If(conditions...).Then(operations...).Else(clientv3.OpGet(leading.countKey())).Commit()
	if err != nil || came.Succeeded {
		return err == nil, err
	}
	found := came.Responses[0].GetResponseRange().Kvs
	return mark != "" && len(found) > 0 && string(found[0].Value) == mark, nil
}

// dropped is what a server says of a transaction while it hands on to another one that it leads.
const dropped = "raft proposal dropped"

// mayCome says whether it may be otherwise when a transaction is asked for again: a server is gone, or restarts, or they find a leader; or one dropped it,
// since it hands on that it leads, or has too much to do.
func mayCome(err error) bool {
	if errors.Is(err, context.DeadlineExceeded) || errors.Is(err, context.Canceled) || errors.Is(err, rpctypes.ErrTooManyRequests) {
		return true
	}
	if told, is := status.FromError(err); is && told.Message() == dropped {
		return true
	}
	code := status.Code(err)
	var told rpctypes.EtcdError
	if errors.As(err, &told) {
		code = told.Code()
	}
	return code == codes.Unavailable || code == codes.DeadlineExceeded || code == codes.Canceled
}

// isTooLarge says whether etcd refused a request for its size: by its own limits, or by that of gRPC, which it sets 512 KiB above.
func isTooLarge(err error) bool {
	if errors.Is(err, rpctypes.ErrRequestTooLarge) || errors.Is(err, rpctypes.ErrTooManyOps) {
		return true
	}
	return status.Code(err) == codes.ResourceExhausted && strings.Contains(err.Error(), "larger than max")
}
