// Package store keeps a plugin's record where it outlives the process: in a file of SQLite, or in etcd.
package store

import (
	"context"
	"encoding/binary"
	"errors"
)

// A Part is a part of a record: a key, and a value.
type Part struct {
	Key   uint64
	Value []byte
}

// A Change puts a value under a key, in place of what is there, or takes out what is there.
type Change struct {
	Key   uint64
	Value []byte
	Out   bool
}

// A Store has the parts of one plugin's record. One process at a time has it.
type Store interface {
	// Load gives all parts, by rising key.
	Load(ctx context.Context) ([]Part, error)
	// Commit makes all changes, in order, or none. Where anew is set, nothing else is left in the store. Where it fails, they may be
	// made or not: then nothing may be answered any more. With no changes it only says whether this process still has the store, and may be
	// called beside others.
	Commit(ctx context.Context, anew bool, changes []Change) error
	// Lost is closed once this process knows that it hasn't the store any more.
	Lost() <-chan struct{}
	// Close gives the store up.
	Close() error
}

// A Locked is a store that nobody else can have before it is closed.
type Locked interface {
	Store
	IsLocked() bool
}

// IsLocked says whether a store stays this process's as long as it is open, so that there is nothing to confirm.
func IsLocked(kept Store) bool {
	locked, is := kept.(Locked)
	return is && locked.IsLocked()
}

// What a store's failures are.
var (
	ErrNotOpened = errors.New("store not opened")
	ErrDevice    = errors.New("device")
	ErrLost      = errors.New("leadership lost")
	ErrUnknown   = errors.New("a commit's outcome isn't known")
	ErrTooSmall  = errors.New("etcd takes no commit that is large enough")
	ErrNoSpace   = errors.New("etcd has no space for a commit") // nothing of which is made
	ErrNotes     = errors.New("the notes of staging paths")
	ErrOlder     = errors.New("older store") // an orchestrator's, as a plugin told
	ErrMemory    = errors.New("memory")      // an allocation of a plugin was refused
)

// Record gives the bytes of the whole record that has these parts, by rising key: none where there are no parts.
func Record(parts []Part) []byte {
	if len(parts) == 0 {
		return nil
	}
	version := []byte{0} // of no record
	if head := parts[0].Value; len(head) > 0 {
		version = head[:1:1]
	}
	record := binary.BigEndian.AppendUint32(version, uint32(len(parts)))
	for _, part := range parts {
		record = binary.BigEndian.AppendUint64(record, part.Key)
		record = binary.BigEndian.AppendUint32(record, uint32(len(part.Value)))
		record = append(record, part.Value...)
	}
	return record
}
