package store

import (
	"context"
	"database/sql"
	"errors"
	"fmt"
	"os"
	"path/filepath"
	"testing"
)

var (
	some = []Change{{Key: 0, Value: []byte("h")}}
	ctx  = context.Background()
)

// sided opens a store with sides.
func sided(t *testing.T, path string) Sided {
	t.Helper()
	kept, err := OpenSQLite(ctx, path)
	if err != nil {
		t.Fatal(err)
	}
	return kept.(Sided)
}

// has wants that a store has these sides.
func has(t *testing.T, kept Sided, want string) {
	t.Helper()
	sides, err := kept.Sides(ctx)
	if got := fmt.Sprintf("%s", sides); err != nil || got != want {
		t.Errorf("the sides are %s, %v, not %s", got, err, want)
	}
}

func put(t *testing.T, kept Sided, sides ...string) {
	t.Helper()
	var all []Side
	for at := 0; at < len(sides); at += 2 {
		all = append(all, Side{Name: sides[at], Value: []byte(sides[at+1])})
	}
	if err := kept.CommitWith(ctx, all, some); err != nil {
		t.Fatal(err)
	}
}

// Sides are there from the commit on that puts them, also after the store was opened again; a store that never had one has no file of them.
func TestSides(t *testing.T) {
	path := filepath.Join(t.TempDir(), "s.db")
	kept := sided(t, path)
	has(t, kept, "map[]")
	if err := kept.CommitWith(ctx, nil, some); err != nil {
		t.Fatal(err)
	}
	if _, err := os.Stat(path + ".beside"); !errors.Is(err, os.ErrNotExist) {
		t.Errorf("a file of sides: %v", err)
	}
	put(t, kept, "a", "1", "b", "1")
	put(t, kept, "a", "2")
	put(t, kept, "c", "")
	has(t, kept, "map[a:2 b:1 c:]")
	kept.Close()
	kept = sided(t, path)
	has(t, kept, "map[a:2 b:1 c:]")
	put(t, kept, "b", "2")
	if parts, err := kept.Load(ctx); err != nil || fmt.Sprint(parts) != "[{0 [104]}]" {
		t.Errorf("the parts are %v, %v", parts, err)
	}
	kept.Close()
}

// A side that is taken out is gone, whichever had the last commit before; others stay, and what comes later is kept as ever.
func TestSidesTakenOut(t *testing.T) {
	path := filepath.Join(t.TempDir(), "s.db")
	kept := sided(t, path)
	put(t, kept, "a", "1", "b", "1")
	for at := 2; at < 7; at++ {
		put(t, kept, "c", fmt.Sprint(at))
		for _, sides := range [][]Side{{{Name: "c", Out: true}, {Name: "none", Out: true}}, {{Name: "none", Out: true}}} {
			if err := kept.CommitWith(ctx, sides, some); err != nil {
				t.Fatal(err)
			}
		}
		has(t, kept, "map[a:1 b:1]")
		kept.Close()
		kept = sided(t, path)
		has(t, kept, "map[a:1 b:1]")
	}
	put(t, kept, "c", "8")
	has(t, kept, "map[a:1 b:1 c:8]")
	kept.Close()
}

// Where a side that is to be first can't be kept, the record doesn't change; where it alone is kept, that is the side of a commit which wasn't made.
func TestSidesFirst(t *testing.T) {
	path := filepath.Join(t.TempDir(), "s.db")
	kept := sided(t, path)
	first := func(value string, change byte) error {
		return kept.CommitWith(ctx, []Side{{Name: "a", Value: []byte(value), First: true}}, []Change{{Key: 0, Value: []byte{change}}})
	}
	wants := func(value string, change byte) {
		t.Helper()
		has(t, kept, "map[a:"+value+"]")
		if parts, err := kept.Load(ctx); err != nil || len(parts) != 1 || parts[0].Value[0] != change {
			t.Errorf("the parts are %v, %v", parts, err)
		}
	}
	if err := first("1", 1); err != nil {
		t.Fatal(err)
	}
	wants("1", 1)
	beside := &kept.(*sqlite).beside
	if err := beside.commit(ctx, []Side{{Name: "a", Value: []byte("2"), First: true}}); err != nil {
		t.Fatal(err)
	}
	kept.Close() // as if it had been killed before the record's commit
	kept = sided(t, path)
	wants("1", 1)
	if err := first("3", 3); err != nil {
		t.Fatal(err)
	}
	wants("3", 3)
	beside = &kept.(*sqlite).beside
	beside.writer.close()
	beside.db.Close()
	if err := first("4", 4); !errors.Is(err, ErrDevice) {
		t.Errorf("without a file of sides: %v", err)
	}
	if parts, err := kept.Load(ctx); err != nil || parts[0].Value[0] != 3 {
		t.Errorf("the parts are %v, %v", parts, err)
	}
	kept.Close()
	kept = sided(t, path)
	wants("3", 3)
	kept.Close()
}

// Where a process ended between the two commits, the sides are those of the record's last commit, or of the one before; of files of another time it is
// said so.
func TestOtherTimes(t *testing.T) {
	folder := t.TempDir()
	path := filepath.Join(folder, "s.db")
	kept := sided(t, path)
	copies := map[string][]byte{} // of each time, by its name and the file's end
	end := func(time string) {
		kept.Close()
		for _, it := range []string{"", ".beside"} {
			content, err := os.ReadFile(path + it)
			if err != nil {
				t.Fatal(err)
			}
			copies[time+it] = content
		}
		kept = sided(t, path)
		has(t, kept, "map[a:"+time+"]")
	}
	for _, time := range []string{"1", "2", "3"} {
		put(t, kept, "a", time)
		end(time)
	}
	kept.Close()
	for _, it := range []struct{ record, beside, want string }{
		{"3", "3", "3"}, {"2", "3", "2"}, {"1", "1", "1"}, {"1", "2", "1"}, {"1", "3", ""}, {"3", "2", "2"}, {"3", "1", ""}, {"3", "", ""},
	} {
		os.WriteFile(path, copies[it.record], 0o600)
		os.Remove(path + ".beside")
		if it.beside != "" {
			os.WriteFile(path+".beside", copies[it.beside+".beside"], 0o600)
		}
		kept = sided(t, path)
		sides, err := kept.Sides(ctx)
		if it.want == "" && !errors.Is(err, ErrBeside) || it.want != "" && (err != nil || string(sides["a"]) != it.want) {
			t.Errorf("record %s with %s: %s, %v", it.record, it.beside, sides, err)
		}
		if it.want == "2" {
			put(t, kept, "a", "4")
			has(t, kept, "map[a:4]")
			kept.Close()
			kept = sided(t, path)
			has(t, kept, "map[a:4]")
		}
		kept.Close()
	}
}

// A commit that the record's file alone has is noted beside it at the next start, so that another one may follow; where that can't be written nothing is
// opened, and the next start tries it again.
func TestMissedCommits(t *testing.T) {
	path := filepath.Join(t.TempDir(), "s.db")
	kept := sided(t, path)
	miss := func() {
		t.Helper()
		store := kept.(*sqlite)
		mark := fmt.Sprintf("PRAGMA user_version = %d", store.beside.made+1)
		if err := store.commit(ctx, false, some, func(tx transaction) error { return tx.runOnce(mark) }); err != nil {
			t.Fatal(err)
		}
		kept.Close()
		kept = sided(t, path)
	}
	put(t, kept, "a", "1", "b", "1")
	for at := 0; at < 3; at++ {
		miss()
		has(t, kept, "map[a:1 b:1]")
	}
	put(t, kept, "a", "2")
	has(t, kept, "map[a:2 b:1]")
	kept.Close()
	kept = sided(t, path)
	has(t, kept, "map[a:2 b:1]")
	miss()
	refuse(t, path+".beside", "made < 6")
	for at := 0; at < 2; at++ {
		if sides, err := kept.Sides(ctx); !errors.Is(err, ErrDevice) {
			t.Errorf("nothing can be written: %s, %v", sides, err)
		}
		if err := kept.CommitWith(ctx, []Side{{Name: "a"}}, some); !errors.Is(err, ErrDevice) {
			t.Errorf("a commit, where nothing can be written: %v", err)
		}
		kept.Close()
		kept = sided(t, path)
	}
	refuse(t, path+".beside", "TRUE")
	has(t, kept, "map[a:2 b:1]")
	kept.Close()
}

// The sides of a commit that was made beside the record alone are never those of another one: of the commit that gets its number next, and isn't made beside
// the record, as on a full disk.
func TestNotAnothers(t *testing.T) {
	path := filepath.Join(t.TempDir(), "s.db")
	kept := sided(t, path)
	put(t, kept, "a", "1", "b", "1")
	if err := kept.(*sqlite).beside.commit(ctx, []Side{{Name: "a", Value: []byte("2")}}); err != nil {
		t.Fatal(err)
	}
	kept.Close() // as if it had been killed before the record's commit
	refuse(t, path+".beside", "value <> CAST('3' AS BLOB)")
	kept = sided(t, path)
	has(t, kept, "map[a:1 b:1]")
	if err := kept.CommitWith(ctx, []Side{{Name: "b", Value: []byte("3")}}, some); !errors.Is(err, ErrDevice) {
		t.Errorf("what can't be written: %v", err)
	}
	kept.Close()
	kept = sided(t, path)
	has(t, kept, "map[a:1 b:1]")
	put(t, kept, "b", "4")
	has(t, kept, "map[a:1 b:4]")
	kept.Close()
	kept = sided(t, path)
	has(t, kept, "map[a:1 b:4]")
	kept.Close()
}

// A commit reads no more of what stands beside the record than the sides that it puts, but once behind one that was made there alone.
func TestReadsLittle(t *testing.T) {
	path := filepath.Join(t.TempDir(), "s.db")
	kept := sided(t, path)
	readsAll := func() bool {
		put(t, kept, "a", "1")
		put(t, kept, "b", "1", "a", "2")
		_, is := kept.(*sqlite).beside.writer.prepared[takeLater]
		return is
	}
	if readsAll() {
		t.Error("it reads all")
	}
	if err := kept.(*sqlite).beside.commit(ctx, []Side{{Name: "c", Value: []byte("1")}}); err != nil {
		t.Fatal(err)
	}
	kept.Close()
	kept = sided(t, path)
	has(t, kept, "map[a:2 b:1]")
	if !readsAll() {
		t.Error("what was made there alone stays")
	}
	kept.Close()
	kept = sided(t, path)
	if has(t, kept, "map[a:2 b:1]"); readsAll() {
		t.Error("it reads all again")
	}
	kept.Close()
}

// refuse has a file of sides take only rows of which this holds.
func refuse(t *testing.T, path, unless string) {
	t.Helper()
	db, err := sql.Open("sqlite3", path)
	if err != nil {
		t.Fatal(err)
	}
	defer db.Close()
	db.SetMaxOpenConns(1)
	for _, it := range []string{
		"CREATE TABLE other (name TEXT NOT NULL, made INTEGER NOT NULL CHECK (" + unless + "), value BLOB NOT NULL, PRIMARY KEY (name, made))",
		"INSERT INTO other SELECT * FROM beside", "DROP TABLE beside", "ALTER TABLE other RENAME TO beside",
	} {
		if _, err := db.Exec(it); err != nil {
			t.Fatal(err)
		}
	}
}
