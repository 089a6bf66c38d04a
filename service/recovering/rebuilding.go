package recovering

import (
	"bytes"
	"context"
	"encoding/json"
	"errors"
	"fmt"
	"os"
	"os/exec"
	"path/filepath"
	"strconv"
	"strings"

	"tufayon/service/host"
	"tufayon/service/store"
)

// A Rebuilding says of what a controller's store is made, where the old one is lost, by `csi-replay recover-controller`. All stores are open, and nothing
// else has them.
type Rebuilding struct {
	Program      string // csi-replay
	Config       []byte // CONFIG's JSON
	Next         uint64 // the next id: above each that the lost controller gave
	New          store.Store
	Orchestrator store.Store
	Nodes        []store.Store // which are only held against it; none has to be given
}

// A Refusal is why csi-replay makes no store, as it tells it. Nothing was changed.
type Refusal string

func (refusal Refusal) Error() string { return string(refusal) }

// Run has the program make the store over copies of the others, and gives the new one what it made; before that, the orchestrator notes beside its record
// that the controller has heard of the session, and of nothing that it sent. It gives the program's line. After a failure it is run again.
func (rebuilding *Rebuilding) Run(ctx context.Context) ([]byte, error) {
	if err := isNew(ctx, rebuilding.New); err != nil {
		return nil, err
	}
	sides, err := store.SidesOf(ctx, rebuilding.Orchestrator)
	if err != nil {
		return nil, err
	}
	folder, err := os.MkdirTemp("", "csi-driver-")
	if err != nil {
		return nil, fmt.Errorf("%w: %v", store.ErrDevice, err)
	}
	defer os.RemoveAll(folder)
	line, err := rebuilding.makeIn(ctx, folder)
	if err != nil {
		return nil, err
	}
	var told struct{ Session uint64 }
	if err := json.Unmarshal(line, &told); err != nil {
		return nil, fmt.Errorf("%s: %w", rebuilding.Program, err)
	}
	changes, err := partsOf(ctx, filepath.Join(folder, "new.db"))
	if err != nil {
		return nil, err
	}
	if len(sides) > 0 {
		if err := store.CommitWith(ctx, rebuilding.Orchestrator, host.RebuiltSides(told.Session), nil); err != nil {
			return nil, err
		}
	}
	return line, rebuilding.New.Commit(ctx, false, changes)
}

// makeIn has the program make new.db in a folder, and gives its line.
func (rebuilding *Rebuilding) makeIn(ctx context.Context, folder string) ([]byte, error) {
	if err := os.WriteFile(filepath.Join(folder, "config"), rebuilding.Config, 0o600); err != nil {
		return nil, fmt.Errorf("%w: %v", store.ErrDevice, err)
	}
	words := []string{"recover-controller", "new.db", "config", strconv.FormatUint(rebuilding.Next, 10)}
	for at, from := range append([]store.Store{rebuilding.Orchestrator}, rebuilding.Nodes...) {
		name := fmt.Sprintf("%d.db", at+1)
		if err := copyTo(ctx, from, filepath.Join(folder, name)); err != nil {
			return nil, err
		}
		words = append(words, name)
	}
	program, err := exec.LookPath(rebuilding.Program)
	if err == nil {
		program, err = filepath.Abs(program)
	}
	if err != nil {
		return nil, err
	}
	command := exec.CommandContext(ctx, program, words...)
	command.Dir = folder
	var line, why bytes.Buffer
	command.Stdout, command.Stderr = &line, &why
	err = command.Run()
	if ended := (*exec.ExitError)(nil); errors.As(err, &ended) {
		text := strings.TrimPrefix(strings.TrimSpace(why.String()), "csi-replay: ")
		switch {
		case text == "": // a signal ended it, say: that is why
		case ended.ExitCode() == 1:
			return nil, Refusal(text)
		default:
			err = errors.New(text)
		}
	}
	if err != nil {
		return nil, fmt.Errorf("%s: %w", rebuilding.Program, err)
	}
	return line.Bytes(), nil
}

// copyTo makes a file of what a store has.
func copyTo(ctx context.Context, from store.Store, path string) error {
	parts, err := from.Load(ctx)
	if err != nil {
		return err
	}
	made, err := store.OpenSQLite(ctx, path)
	if err != nil {
		return err
	}
	changes := make([]store.Change, 0, len(parts))
	for _, part := range parts {
		changes = append(changes, store.Change{Key: part.Key, Value: part.Value})
	}
	err = made.Commit(ctx, false, changes)
	if closed := made.Close(); err == nil {
		err = closed
	}
	return err
}

// partsOf gives what a file has, as what another store is to be given.
func partsOf(ctx context.Context, path string) ([]store.Change, error) {
	kept, err := store.OpenSQLite(ctx, path)
	if err != nil {
		return nil, err
	}
	defer kept.Close()
	parts, err := kept.Load(ctx)
	changes := make([]store.Change, 0, len(parts))
	for _, part := range parts {
		changes = append(changes, store.Change{Key: part.Key, Value: part.Value})
	}
	return changes, err
}
