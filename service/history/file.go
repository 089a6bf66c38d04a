package history

import (
	"bufio"
	"bytes"
	"encoding/json"
	"errors"
	"fmt"
	"os"
	"path/filepath"
	"syscall"
	"time"

	"go.uber.org/zap"
	"golang.org/x/sys/unix"

	"tufayon/service/records"
)

// A file has the base in its first line, and an entry in each one behind it. It is written anew once it has four times as many entries as are
// kept, or twice as many bytes, and only then it waits for the disk: a machine that dies loses the last ones.
type file struct {
	path    string
	to      *os.File
	lines   int
	size    int       // of these lines
	isStale bool      // it has to be written anew
	fault   error     // what the last writing failed by
	err     error     // why it isn't written any more
	failed  time.Time // when that was tried last
}

// head is the first line.
type head struct {
	Version int    `json:"history"`
	Before  uint64 `json:"before"`
	Base    base   `json:"base"`
}

const fileVersion = 1

// newEnds is what the name of a file that is written anew has behind its own.
const newEnds = ".new"

// Files are those of a history in a file: this one, and the one that comes in its place.
func Files(path string) []string { return []string{path, path + newEnds} }

// beginning is how each file begins.
const beginning = `{"history":`

// errOther says that a file is no history, or of another version.
var errOther = errors.New("it is no history of this version")

// open reads what a file has, and goes on behind that.
func (made *History) open(path string) error {
	content, err := os.ReadFile(path)
	if err != nil && !errors.Is(err, os.ErrNotExist) {
		return err
	}
	if len(content) > 0 {
		if err := made.read(content); err != nil {
			return fmt.Errorf("%s: %w", path, err)
		}
	}
	made.file = &file{path: path, isStale: true}
	// It is written anew with the first event, and left as it is until then: another process may serve with it, and then this one ends without any.
	if err := unix.Access(filepath.Dir(path), unix.W_OK); err != nil {
		return &os.PathError{Op: "write", Path: filepath.Dir(path), Err: err}
	}
	return nil
}

// isFull says whether something can't be written since the disk is full.
func isFull(err error) bool { return errors.Is(err, syscall.ENOSPC) || errors.Is(err, syscall.EDQUOT) }

// read reads the lines of a file. The last one, which a process that was killed didn't finish, is left out, and so is all from the first on that is none.
func (made *History) read(content []byte) error {
	lines := bytes.SplitAfter(content, []byte("\n"))
	var first head
	if json.Unmarshal(lines[0], &first) != nil || first.Version != fileVersion {
		if len(lines) == 1 && bytes.HasPrefix(content, []byte(beginning)) { // its machine died
			made.log.Warn("the history can't be read, since its first line wasn't finished")
			return nil
		}
		return errOther
	}
	made.base, made.before = first.Base, first.Before
	if made.base.Rows == nil {
		made.base.Rows = map[string]*records.Row{}
	}
	for name, row := range made.base.Rows {
		made.rows[name] = row
	}
	for at, line := range lines[1:] {
		entry := &Entry{}
		if !bytes.HasSuffix(line, []byte("\n")) || json.Unmarshal(line, entry) != nil {
			if len(line) > 0 {
				made.log.Warn("the rest of the history can't be read", zap.Int("line", at+2))
			}
			break
		}
		made.put(entry, len(line))
	}
	return nil
}

// write writes lines, unless the file is to be written anew.
func (it *file) write(lines []byte) {
	if it.err == nil && it.fault == nil && !it.isStale {
		_, it.fault = it.to.Write(lines)
	}
}

// writeOf writes the lines of a pack that the file hasn't yet.
func (it *file) writeOf(last *pack) {
	if last.written < len(last.lines) {
		it.write(last.lines[last.written:])
		last.written = len(last.lines)
	}
}

// save has the file have all. The lock is held. Where the file can't be written, the history goes on in memory; where the disk is full, until that has room.
func (made *History) save() {
	it := made.file
	before := it.err
	if before != nil && !it.hasRoom(made.size) {
		return
	}
	if before != nil || it.isStale || it.lines > 4*made.most || it.size > 2*mostBytes {
		it.err = made.rewrite()
	} else {
		it.writeOf(made.last)
		it.err = it.fault
	}
	switch {
	case it.err != nil && before == nil:
		it.failed = time.Now()
		made.log.Error("the history isn't kept any more", zap.Error(it.err))
	case it.err != nil:
		it.failed = time.Now()
	case before != nil:
		made.log.Info("the history is kept again")
	}
}

const (
	again = time.Minute // until a disk that was full is looked at once more
	roomy = 4           // times as much as is written has to be free there: others need the last of it more
)

// hasRoom says whether a disk that was full has room for so many bytes by now.
func (it *file) hasRoom(size int) bool {
	if !isFull(it.err) || time.Since(it.failed) < again {
		return false
	}
	var disk syscall.Statfs_t
	err := syscall.Statfs(filepath.Dir(it.path), &disk)
	return err == nil && disk.Bavail*uint64(disk.Bsize) > uint64(roomy*(size+1<<20))
}

// rewrite writes the file anew, in place of what is there.
func (made *History) rewrite() error {
	it := made.file
	anew, err := os.OpenFile(it.path+newEnds, os.O_CREATE|os.O_TRUNC|os.O_WRONLY, 0o600)
	if err != nil {
		return err
	}
	buffer := bufio.NewWriterSize(anew, 64<<10)
	buffer.Write(append(encode(head{Version: fileVersion, Before: made.before, Base: made.settled()}), '\n'))
	var lines []byte
	for _, packed := range made.packs {
		lines = packed.appendTo(lines[:0])
		buffer.Write(lines)
	}
	if err = buffer.Flush(); err == nil {
		err = anew.Sync() // else a machine that dies soon may have neither the one before nor this one
	}
	if err == nil {
		err = os.Rename(it.path+newEnds, it.path)
	}
	if err != nil {
		anew.Close()
		os.Remove(it.path + newEnds)
		return err
	}
	if it.to != nil {
		it.to.Close()
	}
	it.to, it.lines, it.size, it.isStale, it.fault = anew, made.count, made.size, false, nil
	made.last.written = len(made.last.lines)
	return nil
}

func (it *file) close() error {
	if it.to == nil {
		return it.err
	}
	if err := it.to.Close(); it.err == nil {
		it.err = err
	}
	return it.err
}
