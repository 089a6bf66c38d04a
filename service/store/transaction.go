package store

import (
	"context"
	"database/sql"
	"database/sql/driver"
)

// A writer makes transactions in a file of SQLite, by the one connection that has its lock. Each statement is prepared once: by database/sql alone BEGIN and
// COMMIT would be read anew for each transaction, which would have a goroutine of its own besides.
type writer struct {
	by       driver.Conn // of which the statements are
	prepared map[string]driver.Stmt
}

// A transaction is one that has begun.
type transaction struct {
	writer *writer
}

// transact makes a transaction of what a change runs: all of it, or nothing.
func (writer *writer) transact(ctx context.Context, db *sql.DB, change func(transaction) error) error {
	connection, err := db.Conn(ctx)
	if err != nil {
		return err
	}
	defer connection.Close() // it goes back to the database, which has no other
	return connection.Raw(func(by any) error {
		if writer.by != by {
			writer.by, writer.prepared = by.(driver.Conn), map[string]driver.Stmt{}
		}
		tx := transaction{writer}
		if err := tx.run("BEGIN IMMEDIATE"); err != nil {
			return err
		}
		err := change(tx)
		if err == nil {
			err = tx.run("COMMIT")
		}
		if err != nil {
			tx.run("ROLLBACK")
		}
		return err
	})
}

// run runs a statement, which is kept for the next time.
func (tx transaction) run(statement string, values ...driver.Value) error {
	prepared, there := tx.writer.prepared[statement]
	if !there {
		made, err := tx.writer.by.Prepare(statement)
		if err != nil {
			return err
		}
		prepared, tx.writer.prepared[statement] = made, made
	}
	_, err := prepared.Exec(values)
	return err
}

// runOnce runs a statement that isn't run again.
func (tx transaction) runOnce(statement string) error {
	prepared, err := tx.writer.by.Prepare(statement)
	if err != nil {
		return err
	}
	defer prepared.Close()
	_, err = prepared.Exec(nil)
	return err
}

// close closes the statements, without which the file would stay open.
func (writer *writer) close() {
	for _, it := range writer.prepared {
		it.Close()
	}
	writer.by, writer.prepared = nil, nil
}
