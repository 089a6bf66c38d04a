package etcd

import (
	"context"
	"fmt"
	"strconv"
	"strings"

	"go.etcd.io/etcd/clientv3"
	"go.etcd.io/etcd/mvcc/mvccpb"

	"tufayon/service/store"
)

const page = 500 // keys that are read at once

// Part K is the value of PREFIX/parts/K in 16 hexadecimal digits, and the text K that of PREFIX/texts/K. A commit that is too large for a transaction has
// its changes below PREFIX/next/ and PREFIX/nexttexts/ first, each a "+" and a value, or a "-"; it is made once PREFIX/whole is there, and is carried
// over then. A side is the value of PREFIX/beside/ and its name.
const (
	partsFolder     = "/parts/"
	textsFolder     = "/texts/"
	nextFolder      = "/next/"
	nextTextsFolder = "/nexttexts/"
)

func (leading *leading) wholeKey() string { return leading.prefix + "/whole" }
func (leading *leading) countKey() string { return leading.prefix + "/commits" }
func (leading *leading) sidesKey() string { return leading.prefix + "/beside/" }

// putsOf put sides, or take them out.
func (leading *leading) putsOf(sides []store.Side) []clientv3.Op {
	puts := make([]clientv3.Op, 0, len(sides))
	for _, side := range sides {
		if side.Out {
			puts = append(puts, clientv3.OpDelete(leading.sidesKey()+side.Name))
		} else {
			puts = append(puts, clientv3.OpPut(leading.sidesKey()+side.Name, string(side.Value)))
		}
	}
	return puts
}

// Sides reads all sides at one revision.
func (leading *leading) Sides(ctx context.Context) (map[string][]byte, error) {
	found, err := leading.read(ctx, leading.sidesKey())
	if err != nil {
		return nil, err
	}
	sides := make(map[string][]byte, len(found))
	for _, it := range found {
		sides[strings.TrimPrefix(string(it.Key), leading.sidesKey())] = it.Value
	}
	return sides, nil
}

// An edit is a change as etcd has it: of the value of a key, which has another one before a large commit is made.
type edit struct {
	key, early, value string
	out               bool
}

func (leading *leading) editsOf(changes []store.Change) []edit {
	edits := make([]edit, 0, len(changes))
	for _, change := range changes {
		key := fmt.Sprintf("%016x", change.Key)
		edits = append(edits, edit{leading.prefix + partsFolder + key, leading.prefix + nextFolder + key, string(change.Value), change.Out})
	}
	return edits
}

func (leading *leading) textEditsOf(changes []store.Text) []edit {
	edits := make([]edit, 0, len(changes))
	for _, it := range changes {
		edits = append(edits, edit{leading.prefix + textsFolder + it.Key, leading.prefix + nextTextsFolder + it.Key, it.Value, it.Out})
	}
	return edits
}

// Load reads all parts at one revision, by rising key.
func (leading *leading) Load(ctx context.Context) ([]store.Part, error) {
	found, err := leading.read(ctx, leading.prefix+partsFolder)
	if err != nil {
		return nil, err
	}
	read := make([]store.Part, 0, len(found))
	for _, it := range found {
		key, err := keyOf(it, leading.prefix+partsFolder)
		if err != nil {
			return nil, err
		}
		read = append(read, store.Part{Key: key, Value: it.Value})
	}
	return read, nil
}

// Texts reads all texts at one revision, by rising key.
func (leading *leading) Texts(ctx context.Context) ([]store.Text, error) {
	found, err := leading.read(ctx, leading.prefix+textsFolder)
	if err != nil {
		return nil, err
	}
	read := make([]store.Text, 0, len(found))
	for _, it := range found {
		read = append(read, store.Text{Key: strings.TrimPrefix(string(it.Key), leading.prefix+textsFolder), Value: string(it.Value)})
	}
	return read, nil
}

// judge refuses a store that keeps texts where none are asked for, and one that has a record without any.
func (leading *leading) judge(ctx context.Context, wantsTexts bool) error {
	has := func(folder string) (bool, error) {
		got, err := leading.get(ctx, leading.prefix+folder, clientv3.WithPrefix(), clientv3.WithCountOnly())
		return err == nil && got.Count > 0, err
	}
	hasTexts, err := has(textsFolder)
	if err != nil || hasTexts && wantsTexts || !hasTexts && !wantsTexts {
		return err
	}
	if hasTexts {
		return fmt.Errorf("%w: it has texts", store.ErrNotOpened)
	}
	if hasParts, err := has(partsFolder); err != nil || !hasParts {
		return err
	}
	return fmt.Errorf("%w: %v", store.ErrNotOpened, store.ErrPlain)
}

// read reads the keys of a folder at one revision, by rising key.
func (leading *leading) read(ctx context.Context, folder string) ([]*mvccpb.KeyValue, error) {
	var found []*mvccpb.KeyValue
	from, revision, end := folder, int64(0), clientv3.GetPrefixRangeEnd(folder)
	for {
		got, err := leading.get(ctx, from, clientv3.WithRange(end), clientv3.WithLimit(page), clientv3.WithRev(revision))
		if err != nil {
			return nil, err
		}
		found = append(found, got.Kvs...)
		if !got.More {
			return found, nil
		}
		from = string(found[len(found)-1].Key) + "\x00"
		revision = got.Header.Revision
	}
}

func (leading *leading) get(ctx context.Context, key string, options ...clientv3.OpOption) (*clientv3.GetResponse, error) {
	ctx, cancel := context.WithTimeout(ctx, readWithin)
	defer cancel()
	got, err := leading.client.Get(ctx, key, options...)
	if err != nil {
		return nil, fmt.Errorf("%w: %v", store.ErrDevice, err)
	}
	return got, nil
}

func keyOf(it *mvccpb.KeyValue, folder string) (uint64, error) {
	digits := strings.TrimPrefix(string(it.Key), folder)
	key, err := strconv.ParseUint(digits, 16, 64)
	if err != nil || fmt.Sprintf("%016x", key) != digits {
		return 0, fmt.Errorf("%w: it has the key %q", store.ErrNotOpened, it.Key)
	}
	return key, nil
}
