package store

import (
	"context"
	"database/sql"
	"errors"
	"fmt"
	"net/url"
	"os"
	"path/filepath"
)

// A Side is a small value that stands beside a record, under a name, or is taken out.
type Side struct {
	Name  string
	Value []byte
	First bool // the record doesn't change before this is kept, wherever a process ends: it waits for two syncs, one after the other
	Out   bool // it is taken out: where a process ends meanwhile, it may be gone though the record is as before
}

// A Sided is a store that has sides too.
type Sided interface {
	Store
	// Sides gives all of them, by their names, as they were at the record's last commit. It fails with ErrBeside where they aren't this record's.
	Sides(ctx context.Context) (map[string][]byte, error)
	// CommitWith puts sides, of which no two have one name, and makes changes as Commit does, not anew: all of it, or nothing.
	CommitWith(ctx context.Context, sides []Side, changes []Change) error
}

// SidesOf gives a store's sides: none of one that has none.
func SidesOf(ctx context.Context, kept Store) (map[string][]byte, error) {
	if sided, is := kept.(Sided); is {
		return sided.Sides(ctx)
	}
	return nil, nil
}

// CommitWith puts sides, where a store has them, and makes changes.
func CommitWith(ctx context.Context, kept Store, sides []Side, changes []Change) error {
	if sided, is := kept.(Sided); is && len(sides) > 0 {
		return sided.CommitWith(ctx, sides, changes)
	}
	return kept.Commit(ctx, false, changes)
}

// ErrBeside says that the record, or what stands beside it, is an older copy.
var ErrBeside = errors.New("what stands beside the store is of another time")

const (
	makeBeside = "CREATE TABLE IF NOT EXISTS beside (name TEXT NOT NULL, made INTEGER NOT NULL, value BLOB NOT NULL, PRIMARY KEY (name, made))"
	listBeside = "SELECT count(*) FROM sqlite_master WHERE NOT " +
		"(type = 'table' AND name = 'beside' OR type = 'index' AND tbl_name = 'beside' AND sql IS NULL)"
	lastMade   = "SELECT coalesce(max(made), 0) FROM beside"
	readBeside = "SELECT name, value FROM beside AS it WHERE made = (SELECT max(made) FROM beside WHERE name = it.name AND made <= ?)"
	takeLater  = "DELETE FROM beside WHERE made > ?"
	takeOut    = "DELETE FROM beside WHERE name = ?"
	takeSide   = "DELETE FROM beside WHERE name = ?1 AND made < (SELECT max(made) FROM beside WHERE name = ?1)"
	putSide    = "INSERT INTO beside (name, made, value) VALUES (?, ?, ?)"
	counts     = 1 << 31 // user_version has as many values
	markName   = ""      // of a side that a commit puts which takes some out alone, or none: the last commit is the greatest that one has
)

// besideEnds is what the name of their file has behind that of the record's.
const besideEnds = ".beside"

// beside are the sides of a record in SQLite, whose file may have no other table: a file of their own, with the table beside. A commit that puts sides has
// a number, which the record's file has as its user_version, modulo 2^31. It is made in both files at once, or where a side is to be first, here before it
// is there; and here each side keeps the value before. So where a process ended between the two, what was here at the record's last commit is known, or is
// that of the commit before, of which nothing was told; and a copy of one file alone is found, unless it is older by one commit. The number of a commit that
// was made there alone is put here at the next start: so a file that misses commits again and again, as on a full disk, isn't taken for a copy.
type beside struct {
	path   string
	db     *sql.DB // nil while the file isn't there
	writer writer
	made   int64 // the record's last commit with sides
	later  bool  // here are sides of the one after that too, which wasn't made there: they go with the next one, before that is made there
}

// open opens the file, if it is there or is to be made, and finds out which commit is the record's last one.
func (beside *beside) open(ctx context.Context, record *sql.DB, makes bool) error {
	var mark int64
	if err := record.QueryRowContext(ctx, "PRAGMA user_version").Scan(&mark); err != nil {
		return fmt.Errorf("%w: %v", ErrDevice, err)
	}
	if _, err := os.Stat(beside.path); errors.Is(err, os.ErrNotExist) && !makes {
		if mark != 0 {
			return fmt.Errorf("%w: %s isn't there", ErrBeside, beside.path)
		}
		return nil
	}
	absolute, err := filepath.Abs(beside.path)
	if err != nil {
		return fmt.Errorf("%w: %v", ErrNotOpened, err)
	}
	name := url.URL{Scheme: "file", Path: absolute, RawQuery: how}
	db, err := sql.Open("sqlite3", name.String())
	if err != nil {
		return fmt.Errorf("%w: %v", ErrNotOpened, err)
	}
	db.SetMaxOpenConns(1)
	if err = prepare(ctx, db, table{lists: listBeside, makes: makeBeside}); err == nil {
		err = db.QueryRowContext(ctx, lastMade).Scan(&beside.made)
	}
	if err != nil {
		db.Close()
		return fmt.Errorf("%w: %s: %v", ErrNotOpened, beside.path, err)
	}
	beside.db = db
	switch mark {
	case beside.made % counts:
	case (beside.made + counts - 1) % counts: // the last commit was made here alone
		beside.made--
		beside.later = true
	case (beside.made + 1) % counts: // it was made there alone
		if err = beside.commit(ctx, nil); err == nil {
			beside.made++
		}
	default:
		err = fmt.Errorf("%w: %s", ErrBeside, beside.path)
	}
	if err != nil {
		beside.writer.close()
		db.Close()
		beside.db = nil
	}
	return err
}

func (beside *beside) load(ctx context.Context) (map[string][]byte, error) {
	sides := map[string][]byte{}
	if beside.db == nil {
		return sides, nil
	}
	rows, err := beside.db.QueryContext(ctx, readBeside, beside.made)
	if err != nil {
		return nil, fmt.Errorf("%w: %v", ErrDevice, err)
	}
	defer rows.Close()
	for rows.Next() {
		var name string
		var value []byte
		if err := rows.Scan(&name, &value); err != nil {
			return nil, fmt.Errorf("%w: %v", ErrDevice, err)
		}
		if name != markName {
			sides[name] = value
		}
	}
	if err := rows.Err(); err != nil {
		return nil, fmt.Errorf("%w: %v", ErrDevice, err)
	}
	return sides, nil
}

// commit puts sides as those of the commit after the last one: of none its number alone.
func (beside *beside) commit(ctx context.Context, sides []Side) error {
	err := beside.writer.transact(ctx, beside.db, func(tx transaction) error {
		if beside.later { // else there are none, and all would be read for that
			if err := tx.run(takeLater, beside.made); err != nil {
				return err
			}
		}
		for _, side := range marked(sides) {
			var err error
			if side.Out {
				err = tx.run(takeOut, side.Name)
			} else if err = tx.run(takeSide, side.Name); err == nil {
				err = tx.run(putSide, side.Name, beside.made+1, side.Value)
			}
			if err != nil {
				return err
			}
		}
		return nil
	})
	if err != nil {
		return fmt.Errorf("%w: %v", ErrDevice, err)
	}
	return nil
}

// marked adds a side that is put where none is.
func marked(sides []Side) []Side {
	for _, side := range sides {
		if !side.Out {
			return sides
		}
	}
	return append(sides[:len(sides):len(sides)], Side{Name: markName, Value: []byte{}})
}

// isFirst says whether one of the sides is to be kept before the record changes.
func isFirst(sides []Side) bool {
	for _, side := range sides {
		if side.First {
			return true
		}
	}
	return false
}

// Sides gives the sides of the record's last commit.
func (store *sqlite) Sides(ctx context.Context) (map[string][]byte, error) {
	if store.beside.db == nil {
		if err := store.beside.open(ctx, store.db, false); err != nil {
			return nil, err
		}
	}
	return store.beside.load(ctx)
}

// CommitWith puts sides beside the record, and changes it, at once, unless one is to be first: each file has to reach the disk.
func (store *sqlite) CommitWith(ctx context.Context, sides []Side, changes []Change) error {
	if len(sides) == 0 {
		return store.Commit(ctx, false, changes)
	}
	return store.commitWith(ctx, sides, changes, func(transaction) error { return nil })
}

// commitWith makes more in the record's transaction.
func (store *sqlite) commitWith(ctx context.Context, sides []Side, changes []Change, more func(transaction) error) error {
	beside := &store.beside
	if len(sides) == 0 {
		return store.commit(ctx, false, changes, more)
	}
	if beside.db == nil {
		if err := beside.open(ctx, store.db, true); err != nil {
			return err
		}
	}
	put := make(chan error, 1)
	if isFirst(sides) || beside.later { // else the sides of the commit that wasn't made could be taken for those of this one, which has its number
		if err := beside.commit(ctx, sides); err != nil {
			return err
		}
		put <- nil
	} else {
		go func() { put <- beside.commit(ctx, sides) }()
	}
	mark := fmt.Sprintf("PRAGMA user_version = %d", (beside.made+1)%counts)
	err := store.commit(ctx, false, changes, func(tx transaction) error {
		if err := more(tx); err != nil {
			return err
		}
		return tx.runOnce(mark)
	})
	if failed := <-put; err == nil {
		err = failed
	}
	if err == nil {
		beside.made++
	}
	beside.later = err != nil // what is here may be of a commit that wasn't made
	return err
}
