package store

import (
	"context"
	"errors"
	"fmt"
	"path/filepath"
	"reflect"
	"testing"
)

// What changes of the record and of the texts is there together, after a restart too.
func TestKeeper(t *testing.T) {
	ctx, path := context.Background(), filepath.Join(t.TempDir(), "k.db")
	kept, err := OpenKeeper(ctx, path)
	if err != nil {
		t.Fatal(err)
	}
	wants := func(record string, texts []Text) {
		t.Helper()
		parts, err := kept.Load(ctx)
		if err != nil || fmt.Sprint(parts) != record {
			t.Errorf("the record is %v, %v, not %s", parts, err, record)
		}
		found, err := kept.Texts(ctx)
		if err != nil || !reflect.DeepEqual(found, texts) {
			t.Errorf("the texts are %+v, %v, not %+v", found, err, texts)
		}
	}
	for _, step := range []struct {
		changes []Change
		texts   []Text
	}{
		{[]Change{{Key: 0, Value: []byte("h")}}, []Text{{Key: "b", Value: "\u00e9 \x00\""}, {Key: "a", Value: ""}}},
		{nil, []Text{{Key: "a", Value: "x"}, {Key: "c", Value: "y"}, {Key: "z", Out: true}}},
		{[]Change{{Key: 1, Value: []byte("r")}}, []Text{{Key: "c", Out: true}}},
	} {
		if err := kept.CommitBoth(ctx, step.changes, step.texts, nil); err != nil {
			t.Fatal(err)
		}
	}
	if err := kept.CommitBoth(ctx, nil, []Text{{Key: "z", Out: true}}, []Side{{Name: "s", Value: []byte("1"), First: true}}); err != nil {
		t.Fatal(err)
	}
	has(t, kept.(Sided), "map[s:1]")
	record, texts := "[{0 [104]} {1 [114]}]", []Text{{Key: "a", Value: "x"}, {Key: "b", Value: "\u00e9 \x00\""}}
	wants(record, texts)
	if err := kept.Close(); err != nil {
		t.Fatal(err)
	}
	if _, err := OpenSQLite(ctx, path); !errors.Is(err, ErrNotOpened) {
		t.Errorf("a store with texts is opened as one without: %v", err)
	}
	if kept, err = OpenKeeper(ctx, path); err != nil {
		t.Fatal(err)
	}
	wants(record, texts)
	kept.Close()
}

// A record without texts isn't taken for one that has them, and stays as it is; one without parts becomes one.
func TestPlain(t *testing.T) {
	ctx, path := context.Background(), filepath.Join(t.TempDir(), "p.db")
	for _, has := range []bool{false, true} {
		plain, err := OpenSQLite(ctx, path)
		if err != nil {
			t.Fatal(err)
		}
		if has {
			if err := plain.Commit(ctx, false, []Change{{Key: 0, Value: []byte("h")}}); err != nil {
				t.Fatal(err)
			}
		}
		plain.Close()
		if !has {
			continue
		}
		if _, err := OpenKeeper(ctx, path); !errors.Is(err, ErrNotOpened) {
			t.Errorf("a record without texts is opened: %v", err)
		}
		if plain, err = OpenSQLite(ctx, path); err != nil {
			t.Errorf("it isn't what it was: %v", err)
		} else {
			plain.Close()
		}
	}
	empty := filepath.Join(t.TempDir(), "e.db")
	plain, err := OpenSQLite(ctx, empty)
	if err != nil {
		t.Fatal(err)
	}
	plain.Close()
	kept, err := OpenKeeper(ctx, empty)
	if err != nil {
		t.Fatalf("a store without parts: %v", err)
	}
	kept.Close()
}
