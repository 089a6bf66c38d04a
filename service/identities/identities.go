// Package identities knows which volume of a plugin's record is which of the driver behind it, whose ids are texts; and the texts that are too long for
// the plugins, which have a digest in their place. docs/UPSTREAM.md, "Ids" and "What the ledger has no room for".
package identities

import (
	"fmt"
	"strconv"
	"strings"

	"tufayon/service/store"
)

// The keys of the texts: of a volume with its id in 16 hexadecimal digits, and of a long text with its digest.
const (
	volumeKey = "volume/"
	longKey   = "long/"
	markKey   = "upstream" // of a store of this kind, from its first commit on
)

// Mark is the text that says that a store is of this kind.
func Mark() store.Text { return store.Text{Key: markKey, Value: "1"} }

// A Table is what the texts of a store say. It isn't for several goroutines at once.
type Table struct {
	texts map[uint64]string
	ids   map[string]uint64
	long  map[string]string
	most  uint64 // the greatest id that one had
}

// New makes the table of what a store has. It fails where that isn't one of its keys, or two volumes have one text.
func New(kept []store.Text) (*Table, error) {
	table := &Table{texts: map[uint64]string{}, ids: map[string]uint64{}, long: map[string]string{}}
	for _, it := range kept {
		_, isVolume := volumeOf(it.Key)
		if !isVolume && !strings.HasPrefix(it.Key, longKey) && it != Mark() {
			return nil, fmt.Errorf("%w: it has the text %q", store.ErrNotOpened, it.Key)
		}
		if other, there := table.ids[it.Value]; isVolume && there {
			return nil, fmt.Errorf("%w: two volumes, of which one is %d, have the id %q", store.ErrNotOpened, other, it.Value)
		}
		table.Apply([]store.Text{it})
	}
	return table, nil
}

func volumeOf(key string) (uint64, bool) {
	digits := strings.TrimPrefix(key, volumeKey)
	id, err := strconv.ParseUint(digits, 16, 64)
	return id, err == nil && key == volumeKey+fmt.Sprintf("%016x", id)
}

// ID is the plugin's id of a volume, if it has one.
func (table *Table) ID(text string) (uint64, bool) {
	id, there := table.ids[text]
	return id, there
}

// Text is the id that the driver behind has given a volume, if it is known.
func (table *Table) Text(id uint64) (string, bool) {
	text, there := table.texts[id]
	return text, there
}

// Most is the greatest id that a volume has, or had, in this table.
func (table *Table) Most() uint64 { return table.most }

// Whole gives the text for which a plugin has a digest, or the plugin's own.
func (table *Table) Whole(text string) string {
	if whole, there := table.long[digestIn(text)]; there && !strings.HasPrefix(text, adopted) {
		return whole
	}
	return text
}

// Apply makes changes in the table that are made in the store.
func (table *Table) Apply(changes []store.Text) {
	for _, it := range changes {
		if id, is := volumeOf(it.Key); is {
			table.apply(id, it)
		} else if strings.HasPrefix(it.Key, longKey) {
			digest := strings.TrimPrefix(it.Key, longKey)
			if delete(table.long, digest); !it.Out {
				table.long[digest] = it.Value
			}
		}
	}
}

func (table *Table) apply(id uint64, it store.Text) {
	if text, there := table.texts[id]; there {
		delete(table.texts, id)
		delete(table.ids, text)
	}
	if it.Out {
		return
	}
	table.texts[id], table.ids[it.Value] = it.Value, id
	if id > table.most {
		table.most = id
	}
}

// Put says that a volume has an id of the driver behind.
func Put(id uint64, text string) store.Text {
	return store.Text{Key: volumeKey + fmt.Sprintf("%016x", id), Value: text}
}

// Taken are the changes that take out the texts of these volumes, where they have one.
func (table *Table) Taken(ids ...uint64) []store.Text {
	var changes []store.Text
	for _, id := range ids {
		if _, there := table.texts[id]; there {
			changes = append(changes, store.Text{Key: Put(id, "").Key, Out: true})
		}
	}
	return changes
}

// Long is how many long texts there are.
func (table *Table) Long() int { return len(table.long) }

// Unused are the changes that take out the long texts whose digests are in no value of the record.
func (table *Table) Unused(record []store.Part) []store.Text {
	if len(table.long) == 0 {
		return nil
	}
	used := make(map[string]bool, len(table.long))
	for _, it := range record {
		for rest, found := string(it.Value), true; found; {
			if _, rest, found = strings.Cut(rest, digested); found && len(rest) >= digits {
				used[rest[:digits]] = true
			}
		}
	}
	var changes []store.Text
	for digest := range table.long {
		if !used[digest] {
			changes = append(changes, store.Text{Key: longKey + digest, Out: true})
		}
	}
	return changes
}
