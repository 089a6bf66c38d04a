package store

import (
	"context"
	"database/sql"
	"encoding/binary"
	"errors"
	"fmt"
	"net/url"
	"path/filepath"

	"github.com/mattn/go-sqlite3"
)

const (
	makeNotes   = "CREATE TABLE IF NOT EXISTS staged (volume BLOB NOT NULL PRIMARY KEY, path TEXT NOT NULL)"
	putNote     = "INSERT INTO staged (volume, path) VALUES (?, ?) ON CONFLICT (volume) DO UPDATE SET path = excluded.path"
	takeNote    = "DELETE FROM staged WHERE volume = ?"
	readNotes   = "SELECT volume, path FROM staged ORDER BY volume"
	listNotNote = "SELECT count(*) FROM sqlite_master WHERE NOT " +
		"(type = 'table' AND name = 'staged' OR type = 'index' AND tbl_name = 'staged' AND sql IS NULL)"
)

// errNote says that a row is no note.
var errNote = errors.New("a volume that is none")

// A Note says where a volume is staged, or is taken out.
type Note struct {
	Volume uint64
	Path   string
	Out    bool
}

// Notes are a node's, beside its record: a file of SQLite with the table staged. The record's own file may have no other table.
type Notes struct {
	db     *sql.DB
	writer writer
}

// OpenNotes opens the file, and makes it where it is missing. It holds the file's lock until it is closed. It fails with ErrNotes where the file has something
// else, and with ErrNotOpened where it can't be opened now.
func OpenNotes(ctx context.Context, path string) (*Notes, error) {
	absolute, err := filepath.Abs(path)
	if err != nil {
		return nil, ofNotes(ErrNotOpened, err)
	}
	name := url.URL{Scheme: "file", Path: absolute, RawQuery: how}
	db, err := sql.Open("sqlite3", name.String())
	if err != nil {
		return nil, ofNotes(ErrNotOpened, err)
	}
	db.SetMaxOpenConns(1) // one connection, which has the lock
	if err := prepare(ctx, db, table{lists: listNotNote, makes: makeNotes}); err != nil {
		db.Close()
		if isOfContent(err) {
			return nil, fmt.Errorf("%w: %v", ErrNotes, err)
		}
		return nil, ofNotes(ErrNotOpened, err)
	}
	return &Notes{db: db}, nil
}

// Load gives each volume's path. It fails with ErrNotes where what the file has is none, and with ErrDevice where it can't be read.
func (notes *Notes) Load(ctx context.Context) (map[uint64]string, error) {
	paths, err := notes.load(ctx)
	if err != nil && isOfContent(err) {
		return nil, fmt.Errorf("%w: %v", ErrNotes, err)
	}
	if err != nil {
		return nil, ofNotes(ErrDevice, err)
	}
	return paths, nil
}

// ofNotes says of which file it is that something failed which may pass.
func ofNotes(what, err error) error { return fmt.Errorf("%w: %v: %v", what, ErrNotes, err) }

// isOfContent says whether what failed is that the file has something else than notes, or is damaged: that stays so until somebody mends it.
func isOfContent(err error) bool {
	var fault sqlite3.Error
	if errors.As(err, &fault) {
		return fault.Code == sqlite3.ErrNotADB || fault.Code == sqlite3.ErrCorrupt || fault.Code == sqlite3.ErrError // the last: columns of others
	}
	return errors.Is(err, errTables) || errors.Is(err, errNote)
}

func (notes *Notes) load(ctx context.Context) (map[uint64]string, error) {
	rows, err := notes.db.QueryContext(ctx, readNotes)
	if err != nil {
		return nil, err
	}
	defer rows.Close()
	paths := map[uint64]string{}
	for rows.Next() {
		var volume []byte
		var path string
		if err := rows.Scan(&volume, &path); err != nil {
			return nil, fmt.Errorf("%w: %v", errNote, err)
		}
		if len(volume) != 8 {
			return nil, errNote
		}
		paths[binary.BigEndian.Uint64(volume)] = path
	}
	return paths, rows.Err()
}

// Commit makes all changes, in order, or none.
func (notes *Notes) Commit(ctx context.Context, changes []Note) error {
	err := notes.writer.transact(ctx, notes.db, func(tx transaction) error {
		for _, change := range changes {
			volume := binary.BigEndian.AppendUint64(nil, change.Volume)
			var err error
			if change.Out {
				err = tx.run(takeNote, volume)
			} else {
				err = tx.run(putNote, volume, change.Path)
			}
			if err != nil {
				return err
			}
		}
		return nil
	})
	if err != nil {
		return ofNotes(ErrDevice, err)
	}
	return nil
}

// Close gives the file up.
func (notes *Notes) Close() error {
	if err := closeFile(notes.db, &notes.writer); err != nil {
		return ofNotes(ErrDevice, fmt.Errorf("the last checkpoint: %v", err))
	}
	return nil
}
