package store

import (
	"context"
	"database/sql"
	"encoding/binary"
	"errors"
	"fmt"
	"net/url"
	"path/filepath"

	_ "github.com/mattn/go-sqlite3" // the driver of "sqlite3"
)

const (
	makeTable = "CREATE TABLE IF NOT EXISTS parts (key BLOB NOT NULL PRIMARY KEY, value BLOB NOT NULL)"
	putPart   = "INSERT INTO parts (key, value) VALUES (?, ?) ON CONFLICT (key) DO UPDATE SET value = excluded.value"
	takePart  = "DELETE FROM parts WHERE key = ?"
	takeAll   = "DELETE FROM parts"
	readParts = "SELECT key, value FROM parts ORDER BY key"
	listOther = "SELECT count(*) FROM sqlite_master WHERE NOT " +
		"(type = 'table' AND name = 'parts' OR type = 'index' AND tbl_name = 'parts' AND sql IS NULL)"
	how = "_locking_mode=EXCLUSIVE&_synchronous=FULL&_txlock=immediate&_busy_timeout=0"
)

// sqlite is the store that csi-replay has too: a file with the table parts.
type sqlite struct {
	db     *sql.DB
	writer writer
	lost   chan struct{}
	beside beside
}

// OpenSQLite opens the file of a store, and makes it where it is missing. It holds the file's lock until it is closed.
func OpenSQLite(ctx context.Context, path string) (Store, error) {
	opened, err := openSQLite(ctx, path, table{lists: listOther, makes: makeTable})
	if err != nil {
		return nil, err
	}
	return opened, nil
}

// openSQLite opens a file that has these tables.
func openSQLite(ctx context.Context, path string, has table) (*sqlite, error) {
	absolute, err := filepath.Abs(path)
	if err != nil {
		return nil, fmt.Errorf("%w: %v", ErrNotOpened, err)
	}
	name := url.URL{Scheme: "file", Path: absolute, RawQuery: how}
	db, err := sql.Open("sqlite3", name.String())
	if err != nil {
		return nil, fmt.Errorf("%w: %v", ErrNotOpened, err)
	}
	db.SetMaxOpenConns(1) // one connection, which has the lock
	store := &sqlite{db: db, lost: make(chan struct{}), beside: beside{path: path + besideEnds}}
	if err = prepare(ctx, db, has); err != nil {
		db.Close()
		return nil, fmt.Errorf("%w: %v", ErrNotOpened, err)
	}
	return store, nil
}

// Files are those of a store in a file: this one, the one with what stands beside it, and those in which SQLite may keep what it writes to either.
func Files(path string) []string {
	var files []string
	for _, it := range []string{path, path + besideEnds} {
		files = append(files, it, it+"-wal", it+"-shm", it+"-journal")
	}
	return files
}

// A table says what a file has: lists counts what else one lists, makes makes what is missing, and judge, where there is one, refuses what it has.
type table struct {
	lists, makes string
	judge        func(context.Context, *sql.DB) error
}

// errTables says that a file is another one's.
var errTables = errors.New("it has other tables")

// prepare makes what is missing, and takes the file's lock. It changes no other database.
func prepare(ctx context.Context, db *sql.DB, has table) error {
	var others int
	if err := db.QueryRowContext(ctx, has.lists).Scan(&others); err != nil {
		return err
	}
	if others > 0 {
		return errTables
	}
	if has.judge != nil {
		if err := has.judge(ctx, db); err != nil {
			return err
		}
	}
	// Only now: this writes the mode into the file, where it stays.
	var mode string
	if err := db.QueryRowContext(ctx, "PRAGMA journal_mode = WAL").Scan(&mode); err != nil {
		return err
	}
	if mode != "wal" {
		return fmt.Errorf("it stays in the mode %s", mode)
	}
	tx, err := db.BeginTx(ctx, nil)
	if err != nil {
		return err
	}
	if _, err := tx.ExecContext(ctx, has.makes); err != nil {
		tx.Rollback()
		return err
	}
	return tx.Commit()
}

func (store *sqlite) Load(ctx context.Context) ([]Part, error) {
	rows, err := store.db.QueryContext(ctx, readParts)
	if err != nil {
		return nil, fmt.Errorf("%w: %v", ErrDevice, err)
	}
	defer rows.Close()
	var parts []Part
	for rows.Next() {
		var key, value []byte
		if err := rows.Scan(&key, &value); err != nil {
			return nil, fmt.Errorf("%w: %v", ErrDevice, err)
		}
		if len(key) != 8 {
			return nil, fmt.Errorf("%w: a key of %d bytes", ErrNotOpened, len(key))
		}
		parts = append(parts, Part{Key: binary.BigEndian.Uint64(key), Value: value})
	}
	if err := rows.Err(); err != nil {
		return nil, fmt.Errorf("%w: %v", ErrDevice, err)
	}
	return parts, nil
}

func (store *sqlite) Commit(ctx context.Context, anew bool, changes []Change) error {
	if !anew && len(changes) == 0 {
		return nil // the file's lock says that it is ours
	}
	return store.commit(ctx, anew, changes, func(transaction) error { return nil })
}

// commit makes changes, and more in the same transaction.
func (store *sqlite) commit(ctx context.Context, anew bool, changes []Change, more func(transaction) error) error {
	err := store.writer.transact(ctx, store.db, func(tx transaction) error {
		if anew {
			if err := tx.run(takeAll); err != nil {
				return err
			}
		}
		for _, change := range changes {
			if err := apply(tx, change); err != nil {
				return err
			}
		}
		return more(tx)
	})
	if err != nil {
		return fmt.Errorf("%w: %v", ErrDevice, err)
	}
	return nil
}

func apply(tx transaction, change Change) error {
	key := binary.BigEndian.AppendUint64(nil, change.Key)
	if change.Out {
		return tx.run(takePart, key)
	}
	return tx.run(putPart, key, change.Value)
}

// IsLocked says so: the file's lock is ours until it is closed.
func (store *sqlite) IsLocked() bool { return true }

func (store *sqlite) Lost() <-chan struct{} { return store.lost }

// Close puts the log back into the file, which alone is the store then.
func (store *sqlite) Close() error {
	err := closeFile(store.db, &store.writer)
	if store.beside.db != nil {
		if closed := closeFile(store.beside.db, &store.beside.writer); err == nil {
			err = closed
		}
	}
	if err != nil {
		return fmt.Errorf("%w: the last checkpoint: %v", ErrDevice, err)
	}
	return nil
}

func closeFile(db *sql.DB, by *writer) error {
	by.close()
	_, failed := db.Exec("PRAGMA wal_checkpoint(TRUNCATE)")
	if err := db.Close(); err != nil && failed == nil {
		return err
	}
	return failed
}
