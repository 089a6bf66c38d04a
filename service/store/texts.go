package store

import (
	"context"
	"database/sql"
	"errors"
	"fmt"
)

// A Text stands beside a record, under a key of its own, or is taken out. The plugins know of none.
type Text struct {
	Key, Value string
	Out        bool
}

// A Keeper is a store that keeps texts too: what changes of them is in the record's own commit.
type Keeper interface {
	Store
	// Texts gives all of them, by rising key.
	Texts(ctx context.Context) ([]Text, error)
	// CommitBoth makes all changes of both, or none, as Commit does, and puts sides, as CommitWith does.
	CommitBoth(ctx context.Context, changes []Change, texts []Text, sides []Side) error
}

const (
	makeTexts = "CREATE TABLE IF NOT EXISTS texts (key TEXT NOT NULL PRIMARY KEY, value TEXT NOT NULL)"
	putText   = "INSERT INTO texts (key, value) VALUES (?, ?) ON CONFLICT (key) DO UPDATE SET value = excluded.value"
	takeText  = "DELETE FROM texts WHERE key = ?"
	readTexts = "SELECT key, value FROM texts ORDER BY key"
	listMore  = "SELECT count(*) FROM sqlite_master WHERE NOT (type = 'table' AND name IN ('parts', 'texts') OR " +
		"type = 'index' AND tbl_name IN ('parts', 'texts') AND sql IS NULL)"
	hasTexts   = "SELECT count(*) FROM sqlite_master WHERE type = 'table' AND name = 'texts'"
	hasParts   = "SELECT count(*) FROM sqlite_master WHERE type = 'table' AND name = 'parts'"
	countParts = "SELECT count(*) FROM parts"
)

// ErrPlain says that a record was kept without texts, in which no volume's would be.
var ErrPlain = errors.New("it has a record without texts: a driver without an upstream made it")

// keeper is a file with the table texts beside parts. OpenSQLite refuses it, and so does csi-replay.
type keeper struct {
	*sqlite
}

// OpenKeeper opens the file of a store that keeps texts, and makes it where it is missing. It holds the file's lock until it is closed.
func OpenKeeper(ctx context.Context, path string) (Keeper, error) {
	opened, err := openSQLite(ctx, path, table{lists: listMore, makes: makeTable + ";" + makeTexts, judge: judgePlain})
	if err != nil {
		return nil, err
	}
	return keeper{opened}, nil
}

// judgePlain refuses a file that has a record, and no texts.
func judgePlain(ctx context.Context, db *sql.DB) error {
	var texts, tables, parts int
	if err := db.QueryRowContext(ctx, hasTexts).Scan(&texts); err != nil || texts > 0 {
		return err
	}
	if err := db.QueryRowContext(ctx, hasParts).Scan(&tables); err != nil || tables == 0 {
		return err
	}
	if err := db.QueryRowContext(ctx, countParts).Scan(&parts); err != nil || parts == 0 {
		return err
	}
	return ErrPlain
}

func (keeper keeper) Texts(ctx context.Context) ([]Text, error) {
	rows, err := keeper.db.QueryContext(ctx, readTexts)
	if err != nil {
		return nil, fmt.Errorf("%w: %v", ErrDevice, err)
	}
	defer rows.Close()
	var texts []Text
	for rows.Next() {
		var text Text
		if err := rows.Scan(&text.Key, &text.Value); err != nil {
			return nil, fmt.Errorf("%w: %v", ErrDevice, err)
		}
		texts = append(texts, text)
	}
	if err := rows.Err(); err != nil {
		return nil, fmt.Errorf("%w: %v", ErrDevice, err)
	}
	return texts, nil
}

func (keeper keeper) CommitBoth(ctx context.Context, changes []Change, texts []Text, sides []Side) error {
	return keeper.commitWith(ctx, sides, changes, func(tx transaction) error {
		for _, text := range texts {
			var err error
			if text.Out {
				err = tx.run(takeText, text.Key)
			} else {
				err = tx.run(putText, text.Key, text.Value)
			}
			if err != nil {
				return err
			}
		}
		return nil
	})
}
