package identities

import (
	"crypto/sha256"
	"encoding/hex"
	"errors"
	"fmt"
	"reflect"
	"strings"
	"testing"

	"tufayon/service/store"
)

// A table is what its changes made of it, and what the store has of them.
func TestTable(t *testing.T) {
	kept := map[string]string{}
	table, err := New(nil)
	if err != nil {
		t.Fatal(err)
	}
	change := func(changes ...store.Text) {
		table.Apply(changes)
		for _, it := range changes {
			if delete(kept, it.Key); !it.Out {
				kept[it.Key] = it.Value
			}
		}
	}
	change(Mark())
	change(Put(1, "a"), Put(255, "b/\u00e9"))
	change(Put(3, "c"))
	change(table.Taken(1, 2)...)
	change(append(table.Taken(3), Put(4, "c"))...)
	for _, again := range []bool{false, true} {
		if again {
			var texts []store.Text
			for key, value := range kept {
				texts = append(texts, store.Text{Key: key, Value: value})
			}
			if table, err = New(texts); err != nil {
				t.Fatal(err)
			}
		}
		for text, want := range map[string]uint64{"a": 0, "b/\u00e9": 255, "c": 4} {
			if id, there := table.ID(text); id != want || there != (want > 0) {
				t.Errorf("%q is %d, %v", text, id, there)
			}
			if found, there := table.Text(want); want > 0 && (found != text || !there) {
				t.Errorf("%d is %q", want, found)
			}
		}
		if _, there := table.Text(3); there || table.Most() != 255 {
			t.Errorf("3 is there: %v; the greatest is %d", there, table.Most())
		}
	}
	for _, bad := range [][]store.Text{{{Key: "other"}}, {{Key: "volume/1"}}, {Put(1, "a"), Put(2, "a")}} {
		if _, err := New(bad); !errors.Is(err, store.ErrNotOpened) {
			t.Errorf("%v is a table: %v", bad, err)
		}
	}
}

// A text that is too long has its digest in its place, so has one that could be taken for one; the whole text is found by it.
func TestShorten(t *testing.T) {
	table, err := New(nil)
	if err != nil {
		t.Fatal(err)
	}
	seen := map[string]bool{}
	for _, it := range []struct {
		text  string
		stays bool
	}{
		{"a", true}, {strings.Repeat("x", 128), true}, {strings.Repeat("x", 129), false}, {"/" + strings.Repeat("x", 128), false}, {"a\x00", false},
		{"sha256:", false}, {"/sha256:0", false}, {"adopted:x", false}, {"sha25", true}, {"/", true},
	} {
		short := Shorten(it.text, 128)
		digest := sha256.Sum256([]byte(it.text))
		want := "sha256:" + hex.EncodeToString(digest[:])
		if strings.HasPrefix(it.text, "/") {
			want = "/" + want
		}
		if it.stays {
			want = it.text
		}
		if short.Text != want || len(short.Kept) > 0 == it.stays || seen[want] {
			t.Errorf("%q is %+v", it.text, short)
		}
		seen[want] = true
		table.Apply(short.Kept)
		if whole := table.Whole(short.Text); whole != it.text {
			t.Errorf("%q is found as %q", it.text, whole)
		}
	}
	for _, id := range []string{"a", strings.Repeat("x", 120), strings.Repeat("x", 121), "sha256:1", "a\x00"} {
		name := Adopted(id, 128)
		if !strings.HasPrefix(name.Text, "adopted:") || len(name.Text) > 128 || seen[name.Text] || Shorten(name.Text, 128).Text == name.Text {
			t.Errorf("%q has the name %q", id, name.Text)
		}
		seen[name.Text] = true
	}
}

// A long text that no part of the record has is taken out.
func TestUnused(t *testing.T) {
	table, err := New(nil)
	if err != nil {
		t.Fatal(err)
	}
	used, unused := Shorten(strings.Repeat("u", 200), 128), Shorten(strings.Repeat("n", 200), 128)
	table.Apply(append(used.Kept, unused.Kept...))
	record := []store.Part{{Key: 1, Value: []byte("\x03\x01" + used.Text + "\x00")}}
	if changes := table.Unused(record); !reflect.DeepEqual(changes, []store.Text{{Key: unused.Kept[0].Key, Out: true}}) {
		t.Errorf("unused are %v", changes)
	}
}

// Unused texts are found in one pass over the record, however many there are.
func TestManyUnused(t *testing.T) {
	table, err := New(nil)
	if err != nil {
		t.Fatal(err)
	}
	var record []store.Part
	for at := 0; at < 300; at++ {
		used, unused := Shorten(fmt.Sprintf("/%0200d", at), 128), Shorten(fmt.Sprintf("%0200d", at), 128)
		table.Apply(append(used.Kept, unused.Kept...))
		record = append(record, store.Part{Key: uint64(at), Value: []byte("\x03\x01" + used.Text + "\x01" + digested + used.Text + "\x00")})
	}
	var changes []store.Text
	allocations := testing.AllocsPerRun(1, func() { changes = table.Unused(record) })
	if len(changes) != 300 || allocations > 10*300 {
		t.Errorf("%d are unused, and %v were allocated for that", len(changes), allocations)
	}
}
