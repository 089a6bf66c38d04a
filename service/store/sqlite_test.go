package store

import (
	"context"
	"database/sql"
	"errors"
	"fmt"
	"os"
	"path/filepath"
	"reflect"
	"strings"
	"testing"
)

func TestSQLite(t *testing.T) {
	ctx, path := context.Background(), filepath.Join(t.TempDir(), "a?b#.db")
	kept, err := OpenSQLite(ctx, path)
	if err != nil {
		t.Fatal(err)
	}
	if _, err := OpenSQLite(ctx, path); !errors.Is(err, ErrNotOpened) {
		t.Errorf("it is opened twice: %v", err)
	}
	steps := []struct {
		anew    bool
		changes []Change
		want    string
	}{
		{false, []Change{{Key: 1 << 63, Value: []byte("c")}, {Key: 2, Value: []byte("b")}, {Key: 1, Value: []byte{}}}, "[{1 []} {2 [98]} {9223372036854775808 [99]}]"},
		{false, []Change{{Key: 2, Out: true}, {Key: 2, Value: []byte("d")}, {Key: 1, Value: []byte("a")}, {Key: 1, Out: true}, {Key: 7, Out: true}}, "[{2 [100]} {9223372036854775808 [99]}]"},
		{false, nil, "[{2 [100]} {9223372036854775808 [99]}]"},
		{true, []Change{{Key: 0, Value: []byte("h")}}, "[{0 [104]}]"},
	}
	for at, step := range steps {
		if err := kept.Commit(ctx, step.anew, step.changes); err != nil {
			t.Fatalf("commit %d: %v", at, err)
		}
		if parts, err := kept.Load(ctx); err != nil || fmt.Sprint(parts) != step.want {
			t.Errorf("after commit %d it has %v, %v, not %s", at, parts, err, step.want)
		}
	}
	if err := kept.Close(); err != nil {
		t.Fatal(err)
	}
	if _, err := os.Stat(path + "-wal"); err == nil {
		t.Error("its log is left")
	}
}

func TestNotes(t *testing.T) {
	ctx, path := context.Background(), filepath.Join(t.TempDir(), "n.db.driver")
	notes, err := OpenNotes(ctx, path)
	if err != nil {
		t.Fatal(err)
	}
	changes := []Note{{Volume: 1, Path: "/a"}, {Volume: 1 << 63, Path: "/b \"\n\u00e9"}, {Volume: 1, Out: true}, {Volume: 3, Path: "/c"}, {Volume: 3, Path: "/d"}, {Volume: 9, Out: true}}
	if err := notes.Commit(ctx, changes); err != nil {
		t.Fatal(err)
	}
	if err := notes.Close(); err != nil {
		t.Fatal(err)
	}
	if notes, err = OpenNotes(ctx, path); err != nil {
		t.Fatal(err)
	}
	want := map[uint64]string{1 << 63: "/b \"\n\u00e9", 3: "/d"}
	if paths, err := notes.Load(ctx); err != nil || !reflect.DeepEqual(paths, want) {
		t.Errorf("it has %q, %v", paths, err)
	}
	notes.Close()
}

// A file that has something else than notes is told as such, what can't be opened, read or written now as it is of the record's file: that may pass.
func TestNotesFail(t *testing.T) {
	ctx, folder := context.Background(), t.TempDir()
	wants := func(what string, err, want error) {
		t.Helper()
		if !errors.Is(err, want) || want != ErrNotes && (errors.Is(err, ErrNotes) || !strings.Contains(err.Error(), ErrNotes.Error())) {
			t.Errorf("%s: %v, not %v", what, err, want)
		}
	}
	damaged := filepath.Join(folder, "damaged")
	if err := os.WriteFile(damaged, []byte(strings.Repeat("no database", 1000)), 0o600); err != nil {
		t.Fatal(err)
	}
	_, err := OpenNotes(ctx, damaged)
	wants("a damaged file", err, ErrNotes)
	_, err = OpenNotes(ctx, filepath.Join(folder, "none", "notes"))
	wants("no folder", err, ErrNotOpened)
	for table, want := range map[string]error{
		"(volume BLOB NOT NULL PRIMARY KEY, path TEXT NOT NULL); INSERT INTO staged VALUES (x'01', '/a')": ErrNotes,
		"(volume BLOB NOT NULL PRIMARY KEY, other TEXT)":                                                  ErrNotes,
		"(volume BLOB NOT NULL PRIMARY KEY, path TEXT NOT NULL)":                                          nil,
	} {
		path := filepath.Join(t.TempDir(), "notes")
		db, err := sql.Open("sqlite3", path)
		if err != nil {
			t.Fatal(err)
		}
		if _, err := db.Exec("CREATE TABLE staged " + table); err != nil {
			t.Fatal(err)
		}
		db.Close()
		notes, err := OpenNotes(ctx, path)
		if err != nil {
			t.Fatal(err)
		}
		if _, err := notes.Load(ctx); want != nil {
			wants(table, err, want)
		} else if err != nil {
			t.Errorf("%s: %v", table, err)
		}
		notes.db.Close() // as if its device was gone
		_, err = notes.Load(ctx)
		wants("reading", err, ErrDevice)
		wants("a commit", notes.Commit(ctx, []Note{{Volume: 1, Path: "/a"}}), ErrDevice)
		wants("closing", notes.Close(), ErrDevice)
	}
}

// A database with another table is refused, and stays as it is.
func TestOthers(t *testing.T) {
	ctx := context.Background()
	path := filepath.Join(t.TempDir(), "other.db")
	db, err := sql.Open("sqlite3", path)
	if err != nil {
		t.Fatal(err)
	}
	if _, err := db.Exec("CREATE TABLE other (x)"); err != nil {
		t.Fatal(err)
	}
	db.Close()
	before, _ := os.ReadFile(path)
	if _, err := OpenSQLite(ctx, path); !errors.Is(err, ErrNotOpened) {
		t.Errorf("as a store: %v", err)
	}
	if _, err := OpenNotes(ctx, path); !errors.Is(err, ErrNotes) {
		t.Errorf("as notes: %v", err)
	}
	if after, _ := os.ReadFile(path); string(after) != string(before) {
		t.Error("it isn't as it was")
	}
}

func TestRecord(t *testing.T) {
	if record := Record(nil); record != nil {
		t.Errorf("no parts are %x", record)
	}
	record := Record([]Part{{0, []byte{3, 9}}, {258, []byte{3}}})
	const want = "03000000020000000000000000000000020309000000000000010200000001" + "03"
	if got := fmt.Sprintf("%x", record); got != want {
		t.Errorf("it is %s, not %s", got, want)
	}
}
